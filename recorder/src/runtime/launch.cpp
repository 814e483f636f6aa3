#include "group.h"

#include <chrono>
#include <functional>
#include <numeric>
#include <thread>

namespace gpurace {
namespace {

// What a call of the runtime needs of an item's stack, and a signal's handler of the program.
constexpr uint64_t RUNTIME_BYTES = 48 << 10;
constexpr double SMALL_LAUNCH = 0.0003;         // seconds
constexpr uint64_t SHUFFLED = 64; // groups that change places where the order is the user's seed's

std::vector<std::string> headers_of(const Request &request) {
    const Kernel &kernel = *request.kernel;
    const uint64_t count = request.window.count(), more = kernel.has_copies;
    std::vector<std::string> headers;
    for (uint32_t group = 0; group < count; group++) {
        const uint64_t items = product(request.range.size_of(request.window.group_of(group))) + more;
        headers.push_back(stream_header(kernel.has_names, group, items, request.number));
    }
    return headers;
}

} // namespace

// A thread of a launch. Where all of its groups wait for others it begins one more, so that at last all are there.
class Worker {
public:
    Worker(Launch &launch, uint64_t seed) : launch_(launch), random_(seed) {}

    // `begin_helpers` is called once, when the launch has taken some time: threads would cost a small one too much.
    void run(std::function<void()> begin_helpers = nullptr) {
        const double start = seconds_now();
        const size_t usual = settings().threads == 1 ? 2 : 1; // so that items of different groups meet
        while (!launch_.is_stopped) {
            while (resident_.size() < usual && begin_group()) {}
            if (resident_.empty()) return;
            if (!run_resident() && !begin_group()) sched_yield();
            if (!begin_helpers || seconds_now() < start + SMALL_LAUNCH) continue;
            begin_helpers();
            begin_helpers = nullptr;
        }
        close_files();
    }

    void close_files() { // of the groups that have not ended
        for (const auto &group : resident_) group->close_files(true);
    }

private:
    Launch &launch_;
    Random random_;
    Pool pool_;
    std::vector<std::unique_ptr<Group>> resident_;

    // Whether there was one to begin.
    bool begin_group() {
        const uint64_t count = launch_.request.range.group_count();
        const uint64_t number = launch_.next_group.load() < count ? launch_.next_group++ : count;
        if (number >= count) return false;
        std::unique_ptr<Group> group = Group::begin(launch_, launch_.group_at(number), pool_, random_);
        if (!group) return launch_.is_stopped = launch_.has_failed = true, false;
        resident_.push_back(std::move(group));
        return true;
    }

    // Gives each group a sweep; answers whether one of them went on.
    bool run_resident() {
        bool goes_on = false;
        for (size_t at = 0; at < resident_.size() && !launch_.is_stopped;) {
            Group &group = *resident_[at];
            if (!group.sweep()) {
                goes_on = goes_on || !group.is_waiting;
                at++;
                continue;
            }
            group.end(pool_);
            resident_.erase(resident_.begin() + long(at));
            goes_on = true;
        }
        return goes_on;
    }
};

double seconds_now() {
    return std::chrono::duration<double>(std::chrono::steady_clock::now().time_since_epoch()).count();
}

Launch::Launch(const Request &given)
    : request(given), seed(settings().seed + given.number * 1000003ull), sites(given.program->sites.data()),
      has_names(given.kernel->has_names), spans(spans_of(given.entries, {}, GLOBAL)), locals(lay_out_locals(given.entries, 0)),
      stored(given.is_recorded() ? words_of(spans) : 0), stored_in_locals(given.window.count()),
      streams(given.folder, headers_of(given)), losses(given.program->sites.size()), is_cut(given.window.count(), true),
      stack_bytes(PAGE + (RUNTIME_BYTES + given.program->frame_bytes + PAGE - 1) / PAGE * PAGE) {
    uint32_t most = 0;
    for (const Site &site : given.program->sites) most = std::max(most, site.bytes);
    zeros.resize(most);
    for (const Entry &entry : given.entries)
        entry_spans.push_back(entry.space == GLOBAL && entry.address ? find_span(spans, entry.address, 1) : nullptr);
}

// Groups begin in their order, since some kernels count on that; a seed has neighbours change places.
uint64_t Launch::group_at(uint64_t number) const {
    if (!settings().is_seeded) return number;
    const uint64_t block = number / SHUFFLED * SHUFFLED;
    const uint64_t count = std::min(SHUFFLED, request.range.group_count() - block);
    Random random(seed + block);
    uint64_t step = 1 + random.below(uint32_t(count));
    while (std::gcd(step, count) != 1) step++;
    return block + (random.below(uint32_t(count)) + (number - block) * step) % count;
}

void Launch::abandon() {
    for (Worker *worker : workers_) worker->close_files();
}

void Launch::run_workers() {
    const uint64_t groups = request.range.group_count();
    const unsigned count = unsigned(std::max<uint64_t>(1, std::min<uint64_t>(settings().threads, groups)));
    std::vector<std::unique_ptr<Worker>> workers;
    for (unsigned at = 0; at < count; at++) {
        workers.push_back(std::make_unique<Worker>(*this, seed + at));
        workers_.push_back(workers.back().get());
    }
    const Watched watched(*this);
    std::vector<std::thread> threads;
    workers[0]->run([&] {
        try {
            for (unsigned at = 1; at < count; at++) threads.emplace_back([&, at] { workers[at]->run(); });
        } catch (const std::exception &) {} // there is no memory for more of them
    });
    for (std::thread &thread : threads) thread.join();
}

Result Launch::run() {
    Result result;
    const Signals signals;
    if (request.is_recorded() && !begin_folder(*this, result.error)) return result;
    const double start = seconds_now();
    run_workers();
    result.has_run = !has_failed || next_group > 1;
    result.seconds = seconds_now() - start;
    result.records = records;
    result.is_stopped = is_stopped && !has_failed;
    result.is_timed_out = is_timed_out;
    if (has_failed) result.error = "there is no memory for its work-items";
    write_prints();
    if (request.is_recorded()) end_folder(*this, result.seconds);
    return result;
}

} // namespace gpurace
