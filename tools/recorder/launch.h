// What is kept of a kernel launch while it runs. Terms are those of docs/MODEL.md: a launch has work-groups, a group has
// work-items, and a record says what one item did.
#ifndef GPURACE_RECORDER_LAUNCH_H
#define GPURACE_RECORDER_LAUNCH_H

#include "names.h"
#include "settings.h"
#include "texts.h"

#include <atomic>
#include <deque>
#include <map>
#include <mutex>
#include <set>
#include <unordered_map>
#include <utility>

namespace gpurace {

struct Record {
    uint64_t offset;    // in the buffer
    uint32_t buffer;    // its number in the simulator's memory
    uint32_t place;     // of its group's
    uint32_t size;      // in bytes; of a barrier its flags
    int32_t names;      // an index of Group::names, or -1
    uint16_t item;
    uint8_t kind, space, scope, order; // as in gpurace_trace.h

    bool is_access() const { return kind <= GPURACE_RMW; }
    bool acquires() const { return gpurace::acquires(order); }
    bool releases() const { return gpurace::releases(order); }
};

// The asynchronous copies of a group that were begun and are not done.
class Copies {
public:
    static constexpr uint32_t NONE = UINT32_MAX;

    // Whether an item that comes to a copy is the first one: the n-th copy of each item is the n-th of the group.
    bool begins(uint16_t item, uint32_t items) {
        of_item_.resize(items);
        if (of_item_[item]++ < begun_) return false;
        begun_++;
        return true;
    }
    void add(uint64_t source, uint64_t elements, uint32_t place) {
        if (elements > 0) copies_.push_back({source, elements, place});
    }
    // The place of the copy that accesses this address, or NONE. Each is done as a whole, by a read and a write for each element.
    uint32_t place_at(uint8_t kind, uint64_t address) {
        if (copies_.empty()) return NONE;
        if (left_ == 0) {
            const auto is_it = [&](const Copy &copy) { return copy.source == address; };
            const auto found = std::find_if(copies_.begin(), copies_.end(), is_it);
            if (found != copies_.end()) std::rotate(copies_.begin(), found, copies_.end());
            left_ = copies_.front().elements;
        }
        const uint32_t place = copies_.front().place;
        if (kind == GPURACE_WRITE && --left_ == 0) copies_.pop_front();
        return place;
    }

private:
    struct Copy {
        uint64_t source, elements; // where it reads first
        uint32_t place;
    };
    std::deque<Copy> copies_;
    uint64_t left_ = 0;             // elements of the first copy, where it is under way
    uint32_t begun_ = 0;
    std::vector<uint32_t> of_item_; // the copies of each item so far
};

// An instruction, or a debug location, and the place of the call that leads there.
struct Reached {
    const void *at;
    uint32_t call;

    bool operator==(const Reached &other) const { return at == other.at && call == other.call; }
    struct Hash {
        size_t operator()(const Reached &it) const { return std::hash<const void *>()(it.at) + 31 * size_t(it.call); }
    };
};

// Places, numbered in the order in which they were reached.
class Places {
public:
    static constexpr uint32_t NO_CALL = UINT32_MAX; // in the kernel itself

    uint32_t number_of(const Reached &reached) {
        const auto [entry, is_new] = numbers_.try_emplace(reached, uint32_t(all_.size()));
        if (is_new) all_.push_back(reached);
        return entry->second;
    }
    const std::vector<Reached> &all() const { return all_; }
    // No more will be reached.
    void close() { numbers_ = {}; }

private:
    std::unordered_map<Reached, uint32_t, Reached::Hash> numbers_;
    std::vector<Reached> all_;
};

// The buffer of the word by which copies are handed over, which the simulator has not.
constexpr uint32_t WAITS = UINT32_MAX;

// A buffer, by its number in the simulator's memory. `bits` joins the offsets and sizes of all accesses to it.
struct Buffer {
    uint64_t bytes = 0, bits = 0;
    std::string name;
    uint64_t first = 0;              // its first word in the trace
    uint32_t grain = 4;              // the bytes of a word of it

    uint64_t words() const { return (bytes + grain - 1) / grain; }
    std::string name_or(uint32_t number) const {
        return number == WAITS ? "wait_group_events" : name.empty() ? "buffer" + std::to_string(number) : name;
    }
};

using Buffers = std::array<std::map<uint32_t, Buffer>, 2>; // by space, by number

// What the report of this launch does not speak of.
struct Losses {
    std::atomic<uint64_t> fences{0}, unknown_orders{0}, narrow_scopes{0}, names_outside_window{0}, accesses_of_parts_of_words{0};
    std::atomic<bool> has_atomics{false}; // an item has done an atomic access
};

// The releases whose release sequences the value of each atomic word belongs to. A word is its buffer's number and its offset.
class Sequences {
public:
    Names heads(uint64_t word) const {
        auto found = heads_.find(word);
        return found == heads_.end() ? Names() : found->second;
    }
    // A plain write ends the sequences of all that it covers.
    void write(uint64_t word, uint64_t size) {
        if (!heads_.empty()) heads_.erase(heads_.lower_bound(word), heads_.lower_bound(word + size));
    }
    void modify(uint64_t word, const Record &record, const Name &own, bool is_recorded) {
        Names &heads = heads_[word];
        change_heads(heads, own, record.kind == GPURACE_STORE, record.order, is_recorded);
        if (heads.empty()) heads_.erase(word);
    }

private:
    std::map<uint64_t, Names> heads_;
};

// Those of a part of global memory, which groups of several threads share.
struct Stripe {
    std::mutex mutex;
    Sequences sequences;
};
using Stripes = std::array<Stripe, 16>;

// What a thread has of them, from before Oclgrind reports an access until that is done: they change in the order in which values do. It lets
// go what it had before it waits for more, and waits in ascending order. (Where an exception ends the thread, so does this.)
class Held {
public:
    void take(Stripes &stripes, uint64_t word, uint64_t size) {
        release();
        const uint64_t first = word / 64, more = (word + size - 1) / 64 - first;
        for (size_t at = 0; at < stripes.size(); at++)
            if ((at - first) % stripes.size() <= more) {
                locks_.emplace_back(stripes[at].mutex);
                sequences.push_back(&stripes[at].sequences);
            }
    }
    void release() {
        locks_.clear();
        sequences.clear();
    }
    std::vector<Sequences *> sequences;

private:
    std::vector<std::unique_lock<std::mutex>> locks_;
};

// A thread runs a group from its begin to its end, and nothing here is of another one meanwhile.
struct Group {
    uint32_t number = 0, items = 0;
    bool is_kept = false;            // it is in the window that is recorded
    bool has_copies = false;         // asynchronous copies, which one more item does
    bool has_copied = false;         // it has since the last barrier
    uint32_t copier_releases = 0;
    std::vector<uint16_t> waiting;   // the items that have come to a wait for copies
    bool is_complete = false, is_full = false;
    std::deque<Record> records;      // which grows without copies
    std::vector<uint32_t> releases;  // of each item, its release operations so far
    Record last_barrier{}, scratch{};
    bool has_barrier = false;
    Copies copies;
    Places places;
    std::vector<uint32_t> launch_places; // their numbers in the launch, when that has ended
    std::set<uint32_t> barriers, waits;  // places; waits are barriers too
    std::vector<Names> names; // their numbers count release operations, whatever number of words each has
    Buffers buffers;
    Sequences sequences;      // of local memory
    std::map<uint32_t, Outside> outside; // by place

    // Keeps a record, and answers where it is: a group that is not kept, or is full, has its last one alone.
    Record &keep(const Record &record) {
        is_full = is_full || records.size() >= GPURACE_MOST_RECORDS - 1;
        if (is_kept && !is_full) return records.emplace_back(record);
        return scratch = record;
    }
    uint32_t streamed_items() const { return items + (has_copies ? 1 : 0); }
};

struct Size {
    uint64_t x = 1, y = 1, z = 1;
    uint64_t count() const { return x * y * z; }
    Sizes all() const { return {x, y, z}; }
    uint64_t index_of(uint64_t i, uint64_t j, uint64_t k) const { return i + x * (j + y * k); }
};

struct Launch {
    uint32_t number = 0;
    std::string kernel, source;
    Size global, local, groups;
    Window window;                       // the groups that are recorded
    bool has_atomics = true;             // plain writes may end release sequences
    Stripes stripes;
    Losses losses;
    std::mutex mutex;                    // of all below, while groups run
    std::map<uint32_t, Group> group;     // those that have begun, by their numbers in the launch
    Buffers buffers;
    std::map<std::string, std::string> types; // of the elements of each buffer, by its name
    Places reached;                      // of all groups
    std::vector<std::string> places;     // the texts of those
    std::map<uint32_t, uint64_t> sites;  // of those that are barriers, the sites
    std::set<uint32_t> waits;            // those that are waits for copies
    std::map<uint32_t, Outside> outside; // by place

    // The group has ended, or the launch has before it.
    void join(const Group &group) {
        for (size_t space = 0; space < buffers.size(); space++)
            for (const auto &[number, of_group] : group.buffers[space]) {
                Buffer &buffer = buffers[space][number];
                buffer.bytes = of_group.bytes;
                buffer.bits |= of_group.bits;
            }
    }
    // Places have the same numbers however many threads there were: in the order of the groups.
    void number_places() {
        for (auto &[number, group] : group) {
            if (!group.is_complete) join(group);
            for (const auto &[at, call] : group.places.all()) // a call is there before what it leads to
                group.launch_places.push_back(reached.number_of({at, call == Places::NO_CALL ? call : group.launch_places[call]}));
            for (const uint32_t place : group.barriers) sites[group.launch_places[place]] = 0;
            for (const uint32_t place : group.waits) waits.insert(group.launch_places[place]);
            for (const auto &[place, of_group] : group.outside) {
                const auto [all, is_first] = outside.emplace(group.launch_places[place], of_group);
                if (!is_first) all->second.count += of_group.count;
            }
        }
    }
    bool is_in_window(uint64_t number) const { return window.number_of(number) != Window::NONE; }
    // Why a trace can't have it, or nothing.
    std::string refusal() const {
        if (local.count() > GPURACE_MOST_WIDE_ITEMS)
            return "a work-group has " + std::to_string(local.count()) + " work-items, and a trace has room for " +
                   std::to_string(GPURACE_MOST_WIDE_ITEMS);
        return window.count() > 0 ? "" : "it has " + std::to_string(groups.count()) + " work-groups, and none of the window";
    }
};

// Writes the launch's folder; where `refusal` is not empty, one that says why the launch was not recorded.
void write_launch(Launch &launch, const Settings &settings, const std::string &refusal);

} // namespace gpurace
#endif
