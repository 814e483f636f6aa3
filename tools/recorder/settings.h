// The settings, from the environment (README.md has what each means).
#ifndef GPURACE_RECORDER_SETTINGS_H
#define GPURACE_RECORDER_SETTINGS_H

#include "environment.h"

namespace gpurace {

struct Settings {
    const std::string out = setting("OUT", "gpurace-out"), kernel = setting("KERNEL");
    const uint64_t launch = number_setting("LAUNCH", UINT64_MAX); // the one that is recorded, or all
    const Window groups = window_setting("GROUPS");
    const bool quiet = setting("QUIET") == "1";
};

} // namespace gpurace
#endif
