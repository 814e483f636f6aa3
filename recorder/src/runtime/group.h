// A work-group that runs, and its work-items.
#pragma once

#include "fiber.h"
#include "launch.h"

#include <optional>
#include <unordered_map>

namespace gpurace {

class Random { // xorshift64*
public:
    explicit Random(uint64_t seed) : state_(seed * 0x9e3779b97f4a7c15ull + 0x2545f4914f6cdd1dull) {}
    uint32_t below(uint32_t count) {
        state_ ^= state_ >> 12, state_ ^= state_ << 25, state_ ^= state_ >> 27;
        return uint32_t((state_ * 0x2545f4914f6cdd1dull >> 32) * count >> 32);
    }

private:
    uint64_t state_;
};

enum ItemState : uint8_t { RUNS, AT_BARRIER, ENDED };

// A store that is done by the runtime at the item's next call, from memory of the item.
struct PendingStore {
    uint64_t address = 0, bytes = 0;
    const uint8_t *from = nullptr;
    bool ends_sequences = false;
};

struct Scratch {
    std::vector<uint8_t> loaded, stored; // what a load takes and a store gives that is not whole in a buffer
    PendingStore pending;
    Names last_names;                    // of the last atomic
};

struct Group;
struct Item {
    uint64_t numbers[ROWS][DIMENSIONS];  // what get_local_id and the others answer
    uint8_t **locals;                    // where the group's local variables are
    Group *group;
    void *stack;                         // where it goes on
    uint32_t turn;                       // calls of the runtime that are left until it rests
    uint32_t records, releases;
    uint32_t repeats;                    // how often the last access was done, with nothing between
    uint32_t last_site, last_records;
    const void *last_address;
    uint16_t number;
    ItemState state;
    bool is_idle;                        // it rests since what it does changes nothing
    uint32_t left;                       // of its turn, where a pending store interrupts that
    Scratch *scratch;

    Scratch &own_scratch() { return *(scratch ? scratch : scratch = new Scratch); }
    void rest(); // lets others run
};
static_assert(offsetof(Item, numbers) == 0 && offsetof(Item, locals) == LOCALS_OFFSET, "instrumented code knows them");

// An asynchronous copy under way.
struct Copy {
    uint64_t event;
    uint32_t reads, writes; // its sites
    uint8_t *to, *from;
    uint64_t count, to_stride, from_stride; // elements, and bytes from one to the next
    bool is_waited = false;                 // it is done after the wait to which item 0 has come
    bool is_past_barrier = false;           // it has begun before a barrier or wait that its group has passed
};

// What copies do to words, by the word and its space: of each site how many copies, and the phase in which that was recorded last.
class CopiedWords {
public:
    struct Use {
        uint32_t site, copies, phase;
    };
    bool is_empty() const { return uses_.empty(); }
    void add(int space, uint32_t word, uint32_t site, uint32_t phase) {
        std::vector<Use> &uses = uses_[key(space, word)];
        for (Use &use : uses)
            if (use.site == site) return void(use.copies++);
        uses.push_back({site, 1, phase});
    }
    void remove(int space, uint32_t word, uint32_t site) {
        const auto found = uses_.find(key(space, word));
        if (found == uses_.end()) return;
        std::vector<Use> &uses = found->second;
        for (size_t at = 0; at < uses.size(); at++)
            if (uses[at].site == site && --uses[at].copies == 0) uses.erase(uses.begin() + long(at--));
        if (uses.empty()) uses_.erase(found);
    }
    std::vector<Use> *find(int space, uint32_t word) {
        const auto found = uses_.find(key(space, word));
        return found == uses_.end() ? nullptr : &found->second;
    }

private:
    std::unordered_map<uint64_t, std::vector<Use>> uses_;
    static uint64_t key(int space, uint32_t word) { return uint64_t(space) << 32 | word; }
};

struct Group {
    static constexpr uint32_t NOTHING = UINT32_MAX;
    Launch *launch;
    uint64_t number;
    uint32_t window;                          // its number in the trace
    bool is_recorded, is_cut = false, is_waiting = false;
    uint32_t still = 0;                       // sweeps since an item has come to a barrier or its end
    void *scheduler = nullptr;                // where its thread goes on
    Random *random;
    std::vector<Item> items;
    std::vector<uint16_t> order;              // in which its items have their turns
    std::vector<Span> spans;                  // of local memory
    std::vector<const Span *> entry_spans;    // by entry, of both memories
    std::vector<uint8_t *> locals;
    std::vector<void *> arguments;
    std::vector<uint64_t> local_pointers;
    uint8_t *memory = nullptr, *stacks = nullptr;
    std::optional<Stream> stream;             // of a group that is recorded
    std::optional<StoredValues> stored;       // in local memory
    uint32_t copier_records = 0, copier_releases = 0, copier_phase = 0; // how many barriers and waits it has passed
    uint32_t handed = NOTHING;                // the first of the copier's two releases at the wait that was passed last
    uint32_t last_barrier = 0;                // the site of item 0's
    uint8_t last_flags = 0;
    uint64_t events = 0;                      // of copies
    std::vector<Copy> copies;                 // under way
    CopiedWords copied;                       // by those that have begun before a barrier

    // Null where there is no room.
    static std::unique_ptr<Group> begin(Launch &launch, uint64_t number, Pool &pool, Random &random);
    // Gives each item that can run a turn; answers whether the group has ended.
    bool sweep();
    void end(Pool &pool);
    void close_files(bool is_cut);

    // Whether a record is to be written now.
    bool records_now() {
        if (!is_recorded) return false;
        if (!launch->is_over.load(std::memory_order_relaxed)) return true;
        is_cut = true;
        return false;
    }
    // A record of an item, which has so many.
    void put(uint32_t &records, const Site &site, uint64_t head, uint32_t word, const Name *names = nullptr, size_t count = 0);

private:
    void place_memory(Pool &pool);
    void begin_items(Pool &pool);
    void begin_item(Item &item, uint64_t number, const Sizes &at, const Sizes &size);
};

// The head of a record: its kind, space, scope and order. A barrier has flags as its space.
inline uint64_t head_of(uint32_t item, uint8_t kind, uint8_t space, uint8_t scope = 0, uint8_t order = 0) {
    return kind | uint64_t(space) << 8 | uint64_t(scope) << 16 | uint64_t(order) << 24 | uint64_t(item) << 32;
}

// What copies under way need where all items of a group have come to barriers or their ends.
void pass_barrier(Group &group);

// Does the pending store of an item, if it has one.
void settle(Item &item);

} // namespace gpurace
