#include "group.h"

#include <cstring>

namespace gpurace {
namespace {

constexpr uint32_t SHORT_TURN = 24, LONG_TURN = 2048; // calls of the runtime, at most
constexpr uint32_t MOST_STILL = 16;                   // sweeps, after which a group may be one that waits

// The main function of an item's fiber.
void run_item(void *state) {
    Item &item = *static_cast<Item *>(state);
    const Group &group = *item.group;
    group.launch->request.kernel->run(&item, const_cast<void **>(group.arguments.data()));
    settle(item);
    item.state = ENDED;
    item.rest();
}

} // namespace

void Item::rest() { gr_switch(&stack, group->scheduler); }

void settle(Item &item) {
    if (!item.scratch || item.scratch->pending.bytes == 0) return;
    PendingStore &pending = item.scratch->pending;
    if (pending.ends_sequences) item.group->launch->sequences.write(pending.address, pending.from, pending.bytes);
    else std::memcpy(reinterpret_cast<void *>(pending.address), pending.from, pending.bytes);
    pending.bytes = 0;
}

void Group::put(uint32_t &records, const Site &site, uint64_t head, uint32_t word, const Name *names, size_t count) {
    if (stream->is_full() || launch->has_most()) { // who acquires from what is lost must not be recorded either
        launch->is_over = true;
        is_cut = true;
        return;
    }
    stream->put(head | launch->site_number(site) << 48, word, names, count);
    records++;
}

std::unique_ptr<Group> Group::begin(Launch &launch, uint64_t number, Pool &pool, Random &random) try {
    auto group = std::make_unique<Group>();
    const Request &request = launch.request;
    group->launch = &launch;
    group->number = number;
    group->random = &random;
    group->window = uint32_t(request.window.number_of(number));
    group->is_recorded = request.window.number_of(number) != Window::NONE;
    group->place_memory(pool);
    if (!group->memory) return nullptr;
    group->begin_items(pool);
    if (!group->stacks) return nullptr;
    if (!group->is_recorded) return group;
    group->stream.emplace(group->window, launch.has_names, launch.streams, launch.written);
    if (!group->stream->open()) launch.is_over = true;
    group->stored.emplace(words_of(group->spans));
    return group;
} catch (const std::bad_alloc &) {
    return nullptr;
}

void Group::place_memory(Pool &pool) {
    const Request &request = launch->request;
    memory = pool.take(1, launch->locals.bytes, false);
    if (!memory) return;
    std::memset(memory, 0, launch->locals.bytes);
    const LocalLayout layout = lay_out_locals(request.entries, reinterpret_cast<uint64_t>(memory));
    local_pointers.resize(request.arguments.size());
    for (const auto &value : request.arguments) arguments.push_back(const_cast<char *>(value.data()));
    spans = spans_of(request.entries, layout.addresses, LOCAL);
    entry_spans = launch->entry_spans;
    for (size_t at = 0; at < request.entries.size(); at++) {
        const Entry &entry = request.entries[at];
        if (entry.space != LOCAL) continue;
        entry_spans[at] = find_span(spans, layout.addresses[at], 1);
        if (entry.argument < 0) {
            locals.push_back(reinterpret_cast<uint8_t *>(layout.addresses[at]));
        } else {
            local_pointers[size_t(entry.argument)] = layout.addresses[at];
            arguments[size_t(entry.argument)] = &local_pointers[size_t(entry.argument)];
        }
    }
}

void Group::begin_items(Pool &pool) {
    const Range &range = launch->request.range;
    const Sizes at = place_in(range.groups, number), size = range.size_of(number);
    const uint64_t count = product(size);
    stacks = pool.take(range.items_of_group(), launch->stack_bytes, true);
    if (!stacks) return;
    items.resize(count);
    for (uint64_t each = 0; each < count; each++) {
        order.push_back(uint16_t(each));
        begin_item(items[each], each, at, size);
        // neighbouring stacks begin at different places of their pages, or all would share a few sets of the cache
        uint8_t *top = stacks + launch->stack_bytes * (each + 1) - 64 * (each % 32);
        items[each].stack = make_fiber(top, run_item, &items[each]);
    }
}

void Group::begin_item(Item &item, uint64_t each, const Sizes &at, const Sizes &size) {
    const Range &range = launch->request.range;
    const Sizes local = place_in(size, each);
    std::memset(&item, 0, sizeof item);
    for (int axis = 0; axis < 3; axis++) {
        const uint64_t of_global = at[axis] * range.local[axis] + local[axis];
        const uint64_t values[] = {local[axis], at[axis], range.groups[axis], size[axis], range.local[axis],
                                   range.global[axis], range.offset[axis], range.offset[axis] + of_global};
        for (int row = 0; row < LINEAR; row++) item.numbers[row][axis] = values[row];
    }
    for (const int row : {NUM_GROUPS, LOCAL_SIZE, ENQUEUED_LOCAL_SIZE, GLOBAL_SIZE})
        item.numbers[row][3] = 1; // of no dimension
    uint64_t linear = 0;
    for (int axis = 2; axis >= 0; axis--)
        linear = linear * range.global[axis] + item.numbers[GLOBAL_ID][axis] - range.offset[axis];
    item.numbers[LINEAR][WORK_DIM] = range.dimensions;
    item.numbers[LINEAR][LOCAL_LINEAR_ID] = each;
    item.numbers[LINEAR][GLOBAL_LINEAR_ID] = linear;
    item.locals = locals.data();
    item.group = this;
    item.number = uint16_t(each);
    item.state = RUNS;
    item.last_site = UINT32_MAX;
}

// When all items have come to barriers or ended, they go on: a divergent barrier is what items do.
bool Group::sweep() {
    if (launch->written > settings().most_pending) launch->streams.open_pipes();
    for (size_t at = order.size(); at > 1; at--) std::swap(order[at - 1], order[random->below(uint32_t(at))]);
    size_t ended = 0, at_barriers = 0;
    bool is_moved = false, is_idle = true;
    const uint32_t most = random->below(4) == 0 ? SHORT_TURN : LONG_TURN;
    for (const uint16_t number : order) {
        Item &item = items[number];
        if (item.state == RUNS) {
            item.turn = 1 + random->below(most);
            item.is_idle = false;
            gr_switch(&scheduler, item.stack);
            is_moved = is_moved || item.state != RUNS;
            is_idle = is_idle && (item.is_idle || item.state != RUNS);
        }
        ended += item.state == ENDED;
        at_barriers += item.state == AT_BARRIER;
    }
    if (ended == items.size()) return true;
    if (ended + at_barriers == items.size()) {
        if (launch->request.kernel->has_copies) pass_barrier(*this);
        for (Item &item : items)
            if (item.state == AT_BARRIER) item.state = RUNS;
    }
    still = is_moved ? 0 : still + 1;
    is_waiting = !is_moved && (is_idle || still >= MOST_STILL);
    if (still >= MOST_STILL) still = 0;
    return false;
}

void Group::close_files(bool cut) {
    if (!is_recorded) return;
    is_recorded = false;
    stream->close(cut || is_cut);
    launch->stored_in_locals[window] = stored->lines("l " + std::to_string(window));
    launch->records += stream->records();
    launch->is_cut[window] = cut || is_cut || stream->error() != 0;
}

void Group::end(Pool &pool) {
    close_files(false);
    for (Item &item : items) delete item.scratch;
    pool.give_back(memory);
    pool.give_back(stacks);
}

} // namespace gpurace
