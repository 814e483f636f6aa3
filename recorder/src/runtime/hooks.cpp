// What the instrumented code calls. Each call has the state of the work-item that makes it.
#include "group.h"

#include <algorithm>
#include <cstdio>
#include <cstring>

namespace gpurace {
namespace {

constexpr uint32_t IDLE_READS = 16;      // of one place, with nothing between, after which an item lets others run
constexpr uint32_t MOST_READS = 64;      // of them that are recorded
constexpr uint32_t IDLE_ATOMICS = 2;

char printed[PRINT_ROOM]; // by all work-items, one after another
std::mutex printing;

Item &item_of(void *state) { return *static_cast<Item *>(state); }

// The item has used up its turn, or has a store to be done.
void end_turn(Item &item) {
    const bool is_interrupted = item.scratch && item.scratch->pending.bytes > 0;
    settle(item);
    item.turn = is_interrupted ? item.left : 0;
    if (item.turn == 0) item.rest();
}

// The span of an access, and its memory. A pointer that the code knows to belong to a buffer is looked for there first.
[[gnu::always_inline]] inline const Span *span_of(const Group &group, const Site &site, uint64_t address, uint64_t bytes, int &space) {
    space = site.space;
    if (site.entry >= 0) {
        const Span *span = group.entry_spans[size_t(site.entry)];
        if (span && span->holds(address, bytes)) return span;
    }
    if (site.space != LOCAL)
        if (const Span *span = find_span(group.launch->spans, address, bytes)) return space = GLOBAL, span;
    if (site.space != GLOBAL)
        if (const Span *span = find_span(group.spans, address, bytes)) return space = LOCAL, span;
    return nullptr;
}

constexpr uint64_t NULL_BYTES = 1 << 16; // after address 0, where Linux maps nothing

// Where an address is in relation to the buffer that the code names, or else to the nearest one.
std::string place_of(const Group &group, const Site &site, uint64_t address) {
    const auto distance = [&](const Span &span) {
        return std::max(address, span.address) - std::min(address, span.address);
    };
    const Span *near = site.entry >= 0 ? group.entry_spans[size_t(site.entry)] : nullptr;
    const std::vector<Entry> &entries = group.launch->request.entries;
    if (!near && site.entry >= 0) return "in " + entries[size_t(site.entry)].name + ", which has no memory";
    if (!near && address < NULL_BYTES) return "through a null pointer";
    for (const Span &span : site.space == LOCAL ? group.spans : group.launch->spans)
        if (site.entry < 0 && (!near || distance(span) < distance(*near))) near = &span;
    if (!near) return "in no buffer";
    const uint64_t before = near->address - std::min(address, near->address);
    return outside_text(near->name, near->bytes, address - near->address, before);
}

void note_outside(Group &group, uint32_t item, uint32_t number, const Site &site, uint64_t address) {
    Launch &launch = *group.launch;
    if (launch.losses.of_site[number].fetch_add(1, std::memory_order_relaxed) != 0) return;
    const std::lock_guard<std::mutex> held(launch.losses.lock);
    launch.losses.outside[number] = {1, site.kind, site.bytes, group.number, item, place_of(group, site, address)};
}

struct Part { // of a span
    const Span *span = nullptr;
    uint64_t address = 0, bytes = 0;

    uint64_t first_word() const { return span->word_of(address); }
    uint64_t last_word() const { return span->word_of(address + bytes - 1); }
};

uint32_t word_at(const uint8_t *bytes, uint32_t grain) {
    uint32_t word;
    std::memcpy(&word, bytes, sizeof word); // there is room for a whole one
    return grain == 4 ? word : grain == 2 ? uint16_t(word) : uint8_t(word);
}

// An item stores to a part of a span; `value` is null where it is not known. Within others this would slow loads down.
__attribute__((noinline)) void note_stored(Group &group, uint32_t item, int space, const Part &part, const uint8_t *value = nullptr) {
    if (!group.is_recorded) return;
    StoredValues &values = space == LOCAL ? *group.stored : group.launch->stored;
    const uint32_t grain = part.span->grain;
    if ((part.address - part.span->address) % grain) value = nullptr;
    for (uint64_t word = part.first_word(), last = part.last_word(); word <= last; word++) {
        if (value) values.note(word, group.window << 10 | item, word_at(value, grain)), value += grain;
        else values.note_unknown(word);
    }
}

// An item accesses words that copies under way may access as well, after barriers that these have passed: what a copy does to such a word is
// recorded once more, once in a phase. Within others this would slow accesses down.
__attribute__((noinline)) void meet_copies(Group &group, int kind, int space, const Part &part) {
    for (uint64_t word = part.first_word(), last = part.last_word(); word <= last; word++) {
        std::vector<CopiedWords::Use> *uses = group.copied.find(space, uint32_t(word));
        if (!uses) continue;
        for (CopiedWords::Use &use : *uses) {
            const Site &site = group.launch->sites[use.site];
            if (use.phase == group.copier_phase || (kind == READ && site.kind == READ)) continue;
            use.phase = group.copier_phase;
            const uint64_t head = head_of(uint32_t(group.items.size()), uint8_t(site.kind), uint8_t(space));
            group.put(group.copier_records, site, head, uint32_t(word));
        }
    }
}

// What the record of an access of an item needs.
struct Accessor {
    Group &group;
    uint32_t item;
    uint32_t &records;

    void put(const Site &site, int space, const Part &part) const {
        if (!group.records_now()) return;
        if (!group.copied.is_empty() && item < group.items.size()) meet_copies(group, site.kind, space, part);
        const uint64_t head = head_of(item, uint8_t(site.kind), uint8_t(space));
        for (uint64_t word = part.first_word(), last = part.last_word(); word <= last; word++)
            group.put(records, site, head, uint32_t(word));
    }
};

// The part of an access that is inside of a buffer.
Part inside_of(const std::vector<Span> &spans, uint64_t address, uint64_t bytes) {
    for (const Span &span : spans) {
        const uint64_t from = std::max(address, span.address);
        const uint64_t to = std::min(address + bytes, span.address + span.bytes);
        if (from < to) return {&span, from, to - from};
    }
    return {};
}

// An access that is not whole in a buffer has its inside part. A load has zeros for the rest; that of a store is lost.
uint8_t *access_outside(Item &item, Accessor accessor, uint32_t number, const Site &site, uint64_t address) {
    Group &group = accessor.group;
    note_outside(group, accessor.item, number, site, address);
    const Part inside = inside_of(site.space == LOCAL ? group.spans : group.launch->spans, address, site.bytes);
    const int space = site.space == LOCAL ? LOCAL : GLOBAL;
    if (inside.span) accessor.put(site, space, inside);
    else if (site.kind == READ) return group.launch->zeros.data();
    Scratch &scratch = item.own_scratch();
    if (site.kind == READ) {
        scratch.loaded.assign(site.bytes, 0);
        const auto *source = reinterpret_cast<const uint8_t *>(inside.address);
        std::copy_n(source, inside.bytes, scratch.loaded.data() + (inside.address - address));
        return scratch.loaded.data();
    }
    scratch.stored.resize(std::max<size_t>(site.bytes, scratch.stored.size()));
    if (inside.span) note_stored(group, accessor.item, space, inside);
    const uint8_t *part = scratch.stored.data() + (inside.address - address);
    if (inside.span) scratch.pending = {inside.address, inside.bytes, part, inside.span->has_atomics};
    return scratch.stored.data();
}

// The item stores into memory of its own, and the runtime copies that at the item's next call.
uint8_t *defer_store(Item &item, uint64_t address, uint64_t bytes) {
    Scratch &scratch = item.own_scratch();
    scratch.stored.resize(std::max<size_t>(bytes, scratch.stored.size()));
    scratch.pending = {address, bytes, scratch.stored.data(), true};
    return scratch.stored.data();
}

void interrupt_turn(Item &item) {
    if (!item.scratch || item.scratch->pending.bytes == 0) return;
    item.left = item.turn;
    item.turn = 1;
}

// Whether the item repeats its last access with nothing between; one that does so often lets others run.
bool is_repeated(Item &item, uint32_t number, const void *pointer) {
    const bool is_again = item.last_site == number && item.last_address == pointer && item.last_records == item.records;
    item.last_site = number, item.last_address = pointer;
    item.repeats = is_again ? item.repeats + 1 : 0;
    return is_again;
}
void rest_if_idle(Item &item, uint32_t most) {
    if (item.repeats < most) return;
    item.is_idle = true;
    item.rest();
}

// Records a plain access, and answers the address to use. `stored` has what it stores, or is null. A call more would be felt here.
[[gnu::always_inline]] inline void *access(Item &item, Accessor accessor, uint32_t number, void *pointer, const uint8_t *stored) {
    Group &group = accessor.group;
    const Site &site = group.launch->sites[number];
    const uint64_t address = reinterpret_cast<uint64_t>(pointer);
    int space;
    const Span *span = span_of(group, site, address, site.bytes, space);
    if (!span && site.space == GENERIC) return pointer; // private memory
    if (!span) return access_outside(item, accessor, number, site, address);
    const Part part{span, address, site.bytes};
    if (site.kind != READ) {
        note_stored(group, accessor.item, space, part, stored);
        item.last_site = number;
    } else if (is_repeated(item, number, pointer)) {
        rest_if_idle(item, IDLE_READS);
        if (item.repeats > MOST_READS) return group.launch->losses.repeated++, pointer; // it is recorded already
    }
    accessor.put(site, space, part);
    item.last_records = item.records;
    const bool is_deferred = site.kind == WRITE && span->has_atomics && group.launch->has_names;
    return is_deferred ? defer_store(item, address, site.bytes) : pointer;
}

// Calls `use` with the site, the space and the part of a span of each access of a copy.
template <class Use> void for_each_access(const Group &group, const Copy &copy, Use use) {
    const auto access_at = [&](uint32_t number, const uint8_t *pointer) {
        const Site &site = group.launch->sites[number];
        int space;
        const uint64_t address = reinterpret_cast<uint64_t>(pointer);
        if (const Span *span = span_of(group, site, address, site.bytes, space)) use(number, space, Part{span, address, site.bytes});
    };
    for (uint64_t at = 0; at < copy.count; at++) {
        access_at(copy.reads, copy.from + at * copy.from_stride);
        access_at(copy.writes, copy.to + at * copy.to_stride);
    }
}

void put_again(Group &group, const Copy &copy) {
    const Accessor copier{group, uint32_t(group.items.size()), group.copier_records};
    for_each_access(group, copy, [&](uint32_t number, int space, const Part &part) { copier.put(group.launch->sites[number], space, part); });
}

// Calls `use` with the space, the number and the site of each word of a copy.
template <class Use> void for_each_word(const Group &group, const Copy &copy, Use use) {
    for_each_access(group, copy, [&](uint32_t number, int space, const Part &part) {
        for (uint64_t word = part.first_word(), last = part.last_word(); word <= last; word++) use(space, uint32_t(word), number);
    });
}

// A copy for which nobody has waited may access its memory after the barrier as well.
void go_on_after_barrier(Group &group, Copy &copy) {
    if (group.launch->has_names) { // other groups' hand-overs may be ordered with some phases and not with others
        if (group.records_now()) put_again(group, copy);
    } else if (!copy.is_past_barrier) {
        for_each_word(group, copy, [&](int space, uint32_t word, uint32_t site) { group.copied.add(space, word, site, group.copier_phase - 1); });
    }
    copy.is_past_barrier = true;
}

bool is_waited(const Copy &copy) { return copy.is_waited; }

void forget_waited(Group &group) {
    for (const Copy &copy : group.copies)
        if (copy.is_waited && copy.is_past_barrier && !group.launch->has_names)
            for_each_word(group, copy, [&](int space, uint32_t word, uint32_t site) { group.copied.remove(space, word, site); });
    group.copies.erase(std::remove_if(group.copies.begin(), group.copies.end(), is_waited), group.copies.end());
}

void come_to_barrier(Item &item, uint32_t number, uint8_t flags) {
    Group &group = *item.group;
    settle(item);
    if (group.records_now()) group.put(item.records, group.launch->sites[number], head_of(item.number, BARRIER, flags), number);
    if (item.number == 0) group.last_barrier = number, group.last_flags = flags;
    item.last_site = UINT32_MAX;
    item.state = AT_BARRIER;
    item.rest();
}

// A release or an acquire of each memory, as the one at which copies are handed over: `use` gets its head and its word.
template <class Use> void for_each_memory(const Group &group, size_t item, int kind, uint8_t order, Use use) {
    use(head_of(uint32_t(item), uint8_t(kind), GLOBAL, GPURACE_DEVICE, order), uint32_t(word_of_waits(group.launch->spans)));
    use(head_of(uint32_t(item), uint8_t(kind), LOCAL, GPURACE_GROUP, order), uint32_t(word_of_waits(group.spans)));
}

// The item that does copies releases what it has done at the wait to which item 0 has come.
void release_copies(Group &group) {
    group.handed = group.copier_releases;
    for_each_memory(group, group.items.size(), STORE, GPURACE_RELEASE, [&](uint64_t head, uint32_t word) {
        group.put(group.copier_records, group.launch->sites[group.last_barrier], head, word);
        group.copier_releases++;
    });
}

void acquire_copies(Item &item, uint32_t number) {
    Group &group = *item.group;
    if (group.handed == Group::NOTHING || !group.records_now()) return;
    Name name{group.window, uint32_t(group.items.size()), 0, group.handed};
    for_each_memory(group, item.number, LOAD, GPURACE_ACQUIRE, [&](uint64_t head, uint32_t word) {
        group.put(item.records, group.launch->sites[number], head, word, &name, 1);
        name.number++;
    });
}

} // namespace

extern "C" {
#define HOOK __attribute__((visibility("default")))

HOOK void *gr_access(void *state, uint32_t number, void *pointer, const uint8_t *stored) {
    Item &item = item_of(state);
    if (--item.turn == 0) end_turn(item);
    void *allowed = access(item, {*item.group, item.number, item.records}, number, pointer, stored);
    interrupt_turn(item);
    return allowed;
}

HOOK void gr_barrier(void *state, uint32_t number, uint32_t flags) {
    come_to_barrier(item_of(state), number, uint8_t((flags & 1) << 1 | (flags >> 1 & 1))); // a trace has global memory first
}

// All items must come to a wait, but it orders none of them with another: it is recorded as a barrier that names no memory. After it the
// copies of these events are done, and each item acquires them.
HOOK void gr_wait(void *state, uint32_t number, uint32_t count, const uint64_t *events) {
    Item &item = item_of(state);
    if (item.number == 0)
        for (Copy &copy : item.group->copies) copy.is_waited = std::find(events, events + count, copy.event) != events + count;
    come_to_barrier(item, number, 0);
    acquire_copies(item, number);
}

// One more item of the group does the copies. Answers the copy's event, which may be that of an earlier copy.
HOOK uint64_t gr_copy(void *state, uint32_t reads, uint32_t writes, uint8_t *to, uint8_t *from, uint64_t count, uint64_t to_stride,
                      uint64_t from_stride, uint64_t event) {
    Item &item = item_of(state);
    settle(item);
    Group &group = *item.group;
    if (item.number != 0) return event;
    const Accessor copier{group, uint32_t(group.items.size()), group.copier_records};
    const uint64_t bytes = group.launch->sites[reads].bytes;
    for (uint64_t at = 0; at < count; at++) {
        const void *source = access(item, copier, reads, from + at * from_stride * bytes, nullptr);
        std::memcpy(access(item, copier, writes, to + at * to_stride * bytes, nullptr), source, bytes);
        settle(item);
    }
    group.copies.push_back({event ? event : ++group.events, reads, writes, to, from, count, to_stride * bytes, from_stride * bytes});
    return group.copies.back().event;
}

// A fence, or an access of an image.
HOOK void gr_count(void *state, uint32_t number) {
    Item &item = item_of(state);
    settle(item);
    item.group->launch->losses.of_site[number].fetch_add(1, std::memory_order_relaxed);
    if (item.turn <= 1) item.rest();
    else item.turn--;
}

HOOK void *gr_print(void *state) {
    settle(item_of(state));
    printing.lock();
    return printed;
}
HOOK void gr_printed(void *) { printing.unlock(); }
}

// The item that does copies passes the barriers of item 0, when the others have come: until then they may meet its copies. Items that don't
// come to a wait may meet them after it, so that what it ends is recorded before it once more.
void pass_barrier(Group &group) {
    group.handed = Group::NOTHING;
    if (group.items[0].state != AT_BARRIER) return;
    if (group.records_now()) {
        for (const Copy &copy : group.copies)
            if (copy.is_waited && copy.is_past_barrier && !group.launch->has_names) put_again(group, copy);
        const uint64_t head = head_of(uint32_t(group.items.size()), BARRIER, group.last_flags);
        group.put(group.copier_records, group.launch->sites[group.last_barrier], head, group.last_barrier);
        if (std::any_of(group.copies.begin(), group.copies.end(), is_waited)) release_copies(group);
    }
    group.copier_phase++;
    forget_waited(group);
    for (Copy &copy : group.copies) go_on_after_barrier(group, copy);
}

void write_prints() {
    uint32_t length;
    std::memcpy(&length, printed, sizeof length);
    if (length == 0) return;
    std::fwrite(printed + 8, 1, length, stdout);
    std::fflush(stdout);
    std::memset(printed, 0, 8);
}

namespace {

template <class Type> uint64_t computed(int operation, uint64_t old_bits, uint64_t value_bits) {
    Type old, value;
    std::memcpy(&old, &old_bits, sizeof old);
    std::memcpy(&value, &value_bits, sizeof value);
    const Type made = operation == OP_ADD ? Type(old + value) : operation == OP_SUBTRACT ? Type(old - value)
                      : operation == OP_MINIMUM ? std::min(old, value) : std::max(old, value);
    uint64_t bits = 0;
    std::memcpy(&bits, &made, sizeof made);
    return bits;
}

// What an operation makes of a word, whose type is known by its letter.
uint64_t made_of(int operation, char type, uint64_t old, uint64_t value) {
    if (operation == OP_AND) return old & value;
    if (operation == OP_OR) return old | value;
    if (operation == OP_XOR) return old ^ value;
    if (operation == OP_COMPARE || operation == OP_STORE || operation == OP_EXCHANGE) return value;
    switch (type) {
    case 'f': return computed<float>(operation, old, value);
    case 'd': return computed<double>(operation, old, value);
    case 'i': return computed<int32_t>(operation, old, value);
    case 'l': return computed<int64_t>(operation, old, value);
    case 'm': return computed<uint64_t>(operation, old, value);
    default: return computed<uint32_t>(operation, old, value);
    }
}

struct Done {
    uint64_t old;
    bool is_changed, has_failed; // a compare-exchange fails
};

template <class Bits> Done perform(uint32_t what, void *pointer, Bits value, Bits compare) {
    const int operation = what & 255;
    Bits *word = static_cast<Bits *>(pointer), old = __atomic_load_n(word, __ATOMIC_SEQ_CST), made;
    do {
        if (operation == OP_LOAD) return {old, false, false};
        if (operation == OP_COMPARE && old != compare) return {old, false, true};
        made = Bits(made_of(operation, char(what >> 8), old, value));
    } while (!__atomic_compare_exchange_n(word, &old, made, false, __ATOMIC_SEQ_CST, __ATOMIC_SEQ_CST));
    return {old, old != made, false};
}

// memory_order_relaxed is 0, acquire 2, release 3, acq_rel 4, seq_cst 5.
uint8_t order_of(uint32_t order, int kind) {
    const bool takes = kind != STORE && (order == 2 || order >= 4), gives = kind != LOAD && order >= 3;
    return takes ? (gives ? GPURACE_BOTH : GPURACE_ACQUIRE) : gives ? GPURACE_RELEASE : GPURACE_RELAXED;
}

// memory_scope_work_item is 0, work_group 1, device 2, all_svm_devices 3, sub_group 4. A trace has none that is narrower than a work-group: such
// atomics are counted.
uint8_t scope_of(Losses &losses, uint32_t number, uint32_t scope) {
    const bool is_narrow = scope == 0 || scope == 4;
    if (is_narrow) losses.narrow[number].fetch_add(1, std::memory_order_relaxed);
    return is_narrow || scope == 1 ? GPURACE_GROUP : GPURACE_DEVICE;
}

struct AtomicRecord {
    int kind, space;
    uint8_t order, scope;
    Names names;
};

void put_atomic(Item &item, const Site &site, const Span &span, uint64_t address, AtomicRecord &record) {
    Group &group = *item.group;
    Names &names = record.names;
    std::sort(names.begin(), names.end());
    const Part part{&span, address, site.bytes};
    if (!group.copied.is_empty()) meet_copies(group, record.kind, record.space, part);
    const uint64_t first = part.first_word(), last = part.last_word();
    const uint64_t head = head_of(item.number, uint8_t(record.kind), uint8_t(record.space), record.scope, record.order);
    const uint64_t load = head_of(item.number, LOAD, uint8_t(record.space), record.scope, GPURACE_ACQUIRE);
    for (uint64_t word = first; word <= last; word++) { // a release of several words is several records
        size_t at = 0;
        for (; names.size() - at > GPURACE_NAMES_OF_RECORD; at += GPURACE_NAMES_OF_RECORD) {
            group.put(item.records, site, load, uint32_t(word), &names[at], GPURACE_NAMES_OF_RECORD);
            group.launch->losses.added.fetch_add(1, std::memory_order_relaxed);
        }
        group.put(item.records, site, head, uint32_t(word), names.data() + at, names.size() - at);
        for (Name &name : names) name.number++;
    }
    if (releases(record.order)) item.releases += uint32_t(last - first + 1);
    if (record.kind != LOAD) note_stored(group, item.number, record.space, part);
}

// Takes the names that can't be recorded out.
void drop_unrecorded(Launch &launch, Names &names) {
    const auto is_lost = [](const Name &name) { return name.group == NOT_RECORDED; };
    const auto kept = std::remove_if(names.begin(), names.end(), is_lost);
    launch.losses.names_outside.fetch_add(uint64_t(names.end() - kept), std::memory_order_relaxed);
    names.erase(kept, names.end());
}

// An item that spins says nothing new: it took no new name, changed nothing, and did nothing else meanwhile.
bool is_news(Item &item, bool is_again, const AtomicRecord &record) {
    Names &last = item.own_scratch().last_names;
    if (is_again && !releases(record.order) && last == record.names) {
        item.group->launch->losses.repeated.fetch_add(1, std::memory_order_relaxed);
        return false;
    }
    last = record.names;
    return true;
}

} // namespace

// Does an atomic operation, records it, and answers the old value. `how` has the order, that on failure, and the scope.
extern "C" HOOK uint64_t gr_atomic(void *state, uint32_t number, uint32_t what, void *pointer, uint64_t value,
                                   uint64_t compare, uint32_t how) {
    Item &item = item_of(state);
    if (--item.turn == 0) end_turn(item);
    settle(item);
    Group &group = *item.group;
    Launch &launch = *group.launch;
    const Site &site = launch.sites[number];
    const uint64_t address = reinterpret_cast<uint64_t>(pointer);
    AtomicRecord record{};
    const Span *span = span_of(group, site, address, site.bytes, record.space);
    if (!span && site.space != GENERIC) return note_outside(group, item.number, number, site, address), 0;
    if (!launch.losses.has_atomics.load(std::memory_order_relaxed)) launch.losses.has_atomics = true;
    record.scope = scope_of(launch.losses, number, how >> 16 & 255);
    if (record.space == LOCAL) record.scope = GPURACE_GROUP;
    const bool is_named = launch.has_names && span;
    Stripe &stripe = launch.sequences.stripe_of(address);
    std::unique_lock<Stripe> held(stripe, std::defer_lock);
    if (is_named) held.lock();
    // with the lock held: who acquires from a release that is lost is not recorded
    const bool is_recorded = span && group.records_now();
    const Done done = site.bytes == 8 ? perform<uint64_t>(what, pointer, value, compare)
                                      : perform<uint32_t>(what, pointer, uint32_t(value), uint32_t(compare));
    record.kind = site.kind != COMPARE_EXCHANGE ? site.kind : done.has_failed ? LOAD : MODIFY;
    record.order = order_of(done.has_failed ? how >> 8 & 255 : how & 255, record.kind);
    if (is_named) {
        if (acquires(record.order) && is_recorded) record.names = ReleaseSequences::heads_of(stripe, address);
        const Name own{is_recorded ? group.window : NOT_RECORDED, item.number, record.scope, item.releases};
        if (record.kind != LOAD) ReleaseSequences::modify(stripe, address, own, record.kind == STORE, record.order);
        held.unlock();
    }
    const bool is_again = is_repeated(item, number, pointer) && !done.is_changed;
    if (!is_again) item.repeats = 0;
    if (is_recorded) {
        drop_unrecorded(launch, record.names);
        if (is_news(item, is_again, record)) put_atomic(item, site, *span, address, record);
    }
    item.last_records = item.records;
    rest_if_idle(item, IDLE_ATOMICS);
    return done.old;
}

} // namespace gpurace
