// A launch of a kernel that runs on the host's threads, and is recorded meanwhile.
#pragma once

#include "../../../tools/recorder/texts.h"
#include "memory.h"
#include "settings.h"
#include "stored_values.h"
#include "stream.h"

#include <csignal>

namespace gpurace {

// The coordinates of the `number`th one of so many.
inline Sizes place_in(const Sizes &sizes, uint64_t number) {
    return {number % sizes[0], number / sizes[0] % sizes[1], number / sizes[0] / sizes[1]};
}
inline uint64_t product(const Sizes &sizes) { return sizes[0] * sizes[1] * sizes[2]; }

struct Range {
    Sizes global{1, 1, 1}, local{1, 1, 1}, groups{1, 1, 1}, offset{};
    uint32_t dimensions = 1;
    uint64_t group_count() const { return product(groups); }
    uint64_t items_of_group() const { return product(local); } // at most
    // The items of a group along each axis: a last group may be smaller.
    Sizes size_of(uint64_t group) const {
        Sizes size = place_in(groups, group);
        for (int axis = 0; axis < 3; axis++) size[axis] = std::min(local[axis], global[axis] - size[axis] * local[axis]);
        return size;
    }
};

// What is to be run, and how it is to be recorded.
struct Request {
    const Program *program = nullptr;
    const Kernel *kernel = nullptr;
    std::vector<Entry> entries;                  // with the sizes of this launch, and the addresses of global memory
    std::vector<std::vector<char>> arguments;    // the values; of local memory 8 bytes of room
    Range range;
    uint32_t number = 0;                         // of the launch
    Window window;                               // the groups that are recorded
    std::string folder;
    std::string label = test_label();            // of the test that made it

    bool is_recorded() const { return window.count() > 0; }
};

struct Result {
    uint64_t records = 0;
    double seconds = 0;        // of the kernel
    bool is_stopped = false;   // it was ended before its end, by a signal or since its time was over
    bool is_timed_out = false;
    bool has_run = false;
    std::string error;         // why the kernel could not be run at all
};

struct Losses { // what the report on the launch does not speak of, or says in another way
    std::vector<std::atomic<uint64_t>> of_site;  // fences, images, accesses out of bounds
    std::vector<std::atomic<uint64_t>> narrow;   // of each site its atomics whose scope is narrower than a work-group
    std::map<uint32_t, Outside> outside;         // by site
    std::mutex lock;
    std::atomic<uint64_t> repeated{0}, added{0}, names_outside{0};
    std::atomic<bool> has_atomics{false};        // an item has done an atomic access
    explicit Losses(size_t sites) : of_site(sites), narrow(sites) {}
};

class Launch {
public:
    explicit Launch(const Request &request);
    Result run();

    const Request &request;
    const uint64_t seed;                    // of the order of items and groups
    const Site *const sites;
    const bool has_names;
    std::vector<Span> spans;                // of global memory
    std::vector<const Span *> entry_spans;  // by entry; null for those of local memory, or of no bytes
    LocalLayout locals;
    ReleaseSequences sequences;
    StoredValues stored;                    // in global memory
    std::vector<std::string> stored_in_locals; // by group: the lines of what was stored there
    Streams streams;
    Losses losses;
    std::vector<uint8_t> zeros;             // what a load out of every buffer takes
    std::atomic<uint64_t> next_group{0};    // that no thread has begun
    std::atomic<uint64_t> written{0};       // records
    const uint64_t most_records = settings().most_records; // without the ends of groups
    std::atomic<uint64_t> counted{0};       // records that were to be written, if there is a most of them
    std::atomic<bool> is_over{false};       // no more is recorded
    std::atomic<bool> is_stopped{false};    // nothing more is run
    std::atomic<bool> is_timed_out{false}, has_failed{false};
    std::atomic<uint64_t> records{0};
    std::vector<char> is_cut;               // of each recorded group
    size_t stack_bytes;

    // Whether the next record would be one too many.
    bool has_most() { return most_records != UINT64_MAX && counted.fetch_add(1, std::memory_order_relaxed) >= most_records; }
    // Ends the groups of all threads as cut, when these don't do it themselves.
    void abandon();
    // The `number`th group to begin.
    uint64_t group_at(uint64_t number) const;
    // The line of the file `sites` that has this site; 0 where a record has no room for its number.
    uint64_t site_number(const Site &site) const {
        const size_t number = size_t(&site - sites) + 1;
        return number <= UINT16_MAX ? number : 0;
    }

private:
    std::vector<class Worker *> workers_;

    void run_workers();
};

double seconds_now();

// The folder of a launch: side files, the text of the kernel, and at last info.txt. A folder without info.txt is not
// whole; begun.txt is there while the launch runs. False where it can't be written; `error` then says why.
bool begin_folder(Launch &launch, std::string &error);
void end_folder(Launch &launch, double seconds);

void write_prints(); // what kernels have printed

constexpr int TIMED_OUT = 124; // the status of a program that was ended since a kernel's time was over

// While this lives a launch is ended by Ctrl-C, SIGTERM or SIGHUP, and not the program: they reach it at the end.
class Signals {
public:
    Signals();
    ~Signals();
    Signals(const Signals &) = delete;

private:
    static constexpr int NUMBERS[] = {SIGINT, SIGTERM, SIGHUP};
    struct sigaction before_[std::size(NUMBERS)];
};

// While this lives a signal or its time ends the launch, and what was recorded is written as cut.
class Watched {
public:
    explicit Watched(Launch &launch);
    ~Watched();
    Watched(const Watched &) = delete;
};

} // namespace gpurace
