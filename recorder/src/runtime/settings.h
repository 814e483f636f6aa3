// What the user has set, by variables of the environment (README.md has what each means).
#pragma once

#include "../../../tools/recorder/environment.h"

#include <poll.h>
#include <random>
#include <sys/syscall.h>
#include <thread>
#include <unistd.h>

namespace gpurace {

struct Settings {
    const std::string out = setting("OUT", "gpurace-out"), kernel = setting("KERNEL"),
                      build_options = setting("BUILD_OPTIONS"), kept_builds = setting("KEPT_BUILDS"),
                      builtins = setting("BUILTINS", "/usr/share/pocl"), clang = setting("CLANG", "clang-15");
    const uint64_t launch = number_setting("LAUNCH", UINT64_MAX); // the one that is recorded, or all
    const Window groups = window_setting("GROUPS");               // those that are recorded
    const uint64_t most_items = number_setting("MAX_GROUP_SIZE", GPURACE_MOST_WIDE_ITEMS);
    const uint64_t most_records = number_setting("MOST_RECORDS", UINT64_MAX);
    const double timeout = double(number_setting("TIMEOUT"));
    const bool keeps_code = setting("KEEP_CODE") == "1", as_gpu = setting("AS_GPU") == "1", is_seeded = !setting("SEED").empty();
    const uint64_t seed = is_seeded ? number_setting("SEED") : std::random_device()();
    const unsigned processors = std::max(1u, std::thread::hardware_concurrency());
    const unsigned threads = is_seeded ? 1 : unsigned(number_setting("THREADS", processors));
    const int judge = int(number_setting("JUDGE")); // the process that judges and removes folders meanwhile
    const uint64_t most_pending = judge ? number_setting("MOST_PENDING", 1 << 28) / 48 : UINT64_MAX; // records in files
};

inline const Settings &settings() {
    static const Settings &made = *new Settings; // it lives as long as any thread of the program
    return made;
}

inline bool is_judge_there() { // one that has ended is not, whoever has waited for it
    static const int judge = int(syscall(SYS_pidfd_open, settings().judge, 0));
    pollfd ended{judge, POLLIN, 0};
    return judge >= 0 && poll(&ended, 1, 0) == 0;
}

} // namespace gpurace
