"""Kernels with mistakes and without, and what must be found in each, worked out by hand. `kernels.py` launches all of them, or those
that are named, and checks what they compute."""
import sys

from opencl import Buffer, Device, Local

GROUPS, ITEMS = 4, 64

MATMUL = """
kernel void matmul_%(name)s(global const int *a, global const int *b, global int *c, int n) {
    local int s[4][4], t[4][4];
    const int x = get_local_id(0), y = get_local_id(1), column = get_global_id(0), row = get_global_id(1);
    int sum = 0;
    for (int at = 0; at < n; at += 4) {
        s[y][x] = a[row * n + at + x];
        t[y][x] = b[(at + y) * n + column];
        barrier(CLK_LOCAL_MEM_FENCE);
        for (int k = 0; k < 4; k++) sum += s[y][k] * t[k][x];
        %(second)s
    }
    c[row * n + column] = sum;
}
"""
TREE = """
kernel void tree_%(name)s(global const int *in, global int *out, local int *part) {
    const int l = get_local_id(0);
    part[l] = in[get_global_id(0)];
    barrier(CLK_LOCAL_MEM_FENCE);
    for (int width = get_local_size(0) / 2; width > 0; width /= 2) {
        if (l < width) part[l] += part[l + width];
        if (width > %(least)s) barrier(CLK_LOCAL_MEM_FENCE);
    }
    if (l == 0) out[get_group_id(0)] = part[0];
}
"""
HISTOGRAM = """
kernel void histogram_%(name)s(global const int *in, global int *bins) {
    local int mine[16];
    const int l = get_local_id(0);
    if (l < 16) mine[l] = 0;
    barrier(CLK_LOCAL_MEM_FENCE);
    const int bin = in[get_global_id(0)] & 15;
    %(count)s;
    barrier(CLK_LOCAL_MEM_FENCE);
    if (l < 16) atomic_add(&bins[l], mine[l]);
}
"""
LAST_BLOCK = """
kernel void last_block_%(name)s(global const int *in, global int *partial, global atomic_int *count, global int *out) {
    if (get_local_id(0) != 0) return;
    const int g = get_group_id(0), groups = get_num_groups(0);
    int sum = 0;
    for (int at = 0; at < (int)get_local_size(0); at++) sum += in[g * get_local_size(0) + at];
    partial[g] = sum;
    if (atomic_fetch_add_explicit(count, 1, %(order)s, %(scope)s) == groups - 1) {
        sum = 0;
        for (int at = 0; at < groups; at++) sum += partial[at];
        *out = sum;
    }
}
"""
SPIN_LOCK = """
kernel void spin_lock_%(name)s(global atomic_int *lock, global int *counter, int each) {
    if (get_local_id(0) != 0) return;
    for (int at = 0; at < each; at++) {
        while (atomic_exchange_explicit(lock, 1, memory_order_acquire, %(scope)s) != 0) ;
        *counter += 1;
        atomic_store_explicit(lock, 0, %(order)s, %(scope)s);
    }
}
"""
TICKET_LOCK = """
kernel void ticket_lock_%(name)s(global atomic_int *lock, global int *counter, int each) {
    if (get_local_id(0) != 0) return;
    for (int at = 0; at < each; at++) {
        const int mine = atomic_fetch_add_explicit(&lock[0], 1, memory_order_relaxed, memory_scope_device);
        while (atomic_load_explicit(&lock[1], memory_order_acquire, memory_scope_device) != mine) ;
        *counter += 1;
        atomic_store_explicit(&lock[1], mine + 1, %(order)s, memory_scope_device);
    }
}
"""
GRID_BARRIER = """
kernel void grid_barrier_%(name)s(global atomic_int *count, global int *values, int each) {
    const int g = get_group_id(0), groups = get_num_groups(0), l = get_local_id(0), size = get_local_size(0);
    for (int at = 0; at < each; at++) {
        values[(at & 1) * groups * size + g * size + l] = at + g;
        barrier(CLK_GLOBAL_MEM_FENCE);
        if (l == 0) {
            atomic_fetch_add_explicit(count, 1, %(order)s, %(scope)s);
            while (atomic_load_explicit(count, memory_order_acquire, %(scope)s) < groups * (at + 1)) ;
        }
        barrier(CLK_GLOBAL_MEM_FENCE);
        if (values[(at & 1) * groups * size + (g + 1) %% groups * size + l] != at + (g + 1) %% groups) values[2 * groups * size] = 1;
    }
}
"""
RING = """
kernel void ring_%(name)s(global atomic_int *flags, global int *values) {
    if (get_local_id(0) != 0) return;
    const int g = get_group_id(0);
    int before = 0;
    if (g > 0) {
        while (atomic_load_explicit(&flags[g - 1], memory_order_acquire, memory_scope_device) == 0) ;
        before = values[g - 1];
    }
    values[g] = before + g;
    atomic_store_explicit(&flags[g], 1, %(order)s, memory_scope_device);
}
"""
LOOK_BACK = """
kernel void look_back_%(name)s(global const int *in, global atomic_int *flags, global int *sums, global int *prefixes) {
    if (get_local_id(0) != 0) return;
    const int g = get_group_id(0);
    int sum = 0;
    for (int at = 0; at < (int)get_local_size(0); at++) sum += in[g * get_local_size(0) + at];
    sums[g] = sum;
    atomic_store_explicit(&flags[g], 1, %(order)s, memory_scope_device);
    for (int before = g - 1; before >= 0;) {
        const int flag = atomic_load_explicit(&flags[before], memory_order_acquire, memory_scope_device);
        if (flag == 2) { sum += prefixes[before]; break; }
        if (flag == 1) sum += sums[before--];
    }
    prefixes[g] = sum;
    atomic_store_explicit(&flags[g], 2, %(order)s, memory_scope_device);
}
"""
OTHERS = """
// item l writes two components of vector l / 2; the mistake has them share one
kernel void components_right(global int4 *out) {
    const int l = get_global_id(0);
    if (l & 1) out[l / 2].zw = (int2)(l, l); else out[l / 2].xy = (int2)(l, l);
}
kernel void components_wrong(global int4 *out) {
    const int l = get_global_id(0);
    if (l & 1) out[l / 2].yz = (int2)(l, l); else out[l / 2].xy = (int2)(l, l);
}
// even items write two components, odd ones read two; the mistake has them share one
kernel void components_read_right(global int4 *both, global int *out) {
    const int l = get_global_id(0);
    if (l & 1) out[l] = both[l / 2].zw.x + both[l / 2].w; else both[l / 2].xy = (int2)(l, l);
}
kernel void components_read_wrong(global int4 *both, global int *out) {
    const int l = get_global_id(0);
    if (l & 1) out[l] = both[l / 2].yz.y + both[l / 2].y; else both[l / 2].xy = (int2)(l, l);
}
// an item writes the component of a computed number, and reads one; the mistake is that another item writes that
kernel void components_computed(global int4 *both, global int *out, int wrong) {
    const int l = get_global_id(0);
    both[l / 4][l % 4] = l;
    out[l] = both[l / 4][(l + wrong) % 4];
}
kernel void component_single(global int4 *out) {
    const int l = get_global_id(0);
    switch (l & 3) { case 0: out[l / 4].x = l; break; case 1: out[l / 4].y = l; break; case 2: out[l / 4].z = l; break; default: out[l / 4].w = l; }
}
kernel void bytes_right(global uchar *out, global short *shorts) {
    out[get_global_id(0)] = get_global_id(0);
    shorts[get_global_id(0)] = get_global_id(0);
}
kernel void vectors_right(global const int *in, global int *out) {
    vstore4(vload4(get_global_id(0), in) + 1, get_global_id(0), out);
}
kernel void vectors_wrong(global const int *in, global int *out) { // each writes one word of its neighbour
    vstore3(vload3(get_global_id(0), in), 0, out + 2 * get_global_id(0));
}
typedef float real;
typedef struct { float4 position; real mass; int links[2]; } particle;
kernel void members(global particle *p, global int (*m)[8], global real *r) { // each item writes all four
    p[1].position.y = 1;
    p[1].links[1] = 2;
    m[1][2] = 3;
    r[3]++;
}
kernel void rows(global int *out) { // all read what one writes
    local int row[4], tile[2][3][4];
    row[get_local_id(0)] = 0;
    tile[1][2][get_local_id(0)] = get_local_id(0);
    out[get_global_id(0)] = tile[1][2][0] + row[get_local_id(0)];
}
kernel void swaps(global int *out, int wrong) { // each item swaps two words; the mistake is that they overlap
    global int *one = out + get_global_id(0) * (2 - wrong);
    const int was = one[0]; one[0] = one[1]; one[1] = was;
}
kernel void copies_right(global const int *in, global int *out) {
    local int tile[64];
    event_t copy = async_work_group_strided_copy(tile, in + get_group_id(0) * 128, 64, 2, 0);
    wait_group_events(1, &copy);
    out[get_global_id(0)] = tile[63 - get_local_id(0)];
}
kernel void copies_wrong(global const int *in, global int *out) {
    local int tile[64];
    event_t copy = async_work_group_copy(tile, in + get_group_id(0) * 64, 64, 0);
    out[get_global_id(0)] = tile[63 - get_local_id(0)];
    wait_group_events(1, &copy);
}
kernel void copies_unwaited(global const int *in, global int *out) { // a barrier does not end a copy
    local int tile[64];
    event_t copy = async_work_group_copy(tile, in + get_group_id(0) * 64, 64, 0);
    barrier(CLK_LOCAL_MEM_FENCE);
    out[get_global_id(0)] = tile[63 - get_local_id(0)];
    barrier(CLK_LOCAL_MEM_FENCE);
    wait_group_events(1, &copy);
}
kernel void copies_ahead(global const int *in, global int *out, int first) { // waits for one copy while the other goes on
    local int tiles[2][64];
    event_t copies[2];
    for (int k = 0; k < 2; k++) copies[k] = async_work_group_copy(tiles[k], in + get_group_id(0) * 64, 64, 0);
    wait_group_events(1, &copies[first]);
    int sum = tiles[0][63 - get_local_id(0)];
    wait_group_events(1, &copies[1 - first]);
    out[get_global_id(0)] = sum + tiles[1][get_local_id(0)];
}
kernel void copies_together(global const int *in, global int *out) { // of one event
    local int tile[64];
    event_t copy = async_work_group_copy(tile, in + get_group_id(0) * 64, 32, 0);
    copy = async_work_group_copy(tile + 32, in + get_group_id(0) * 64 + 32, 32, copy);
    wait_group_events(1, &copy);
    out[get_global_id(0)] = tile[63 - get_local_id(0)];
}
kernel void copies_in_turn(global const int *in, global int *out, int wrong) { // one tile is read while the other is copied
    local int tiles[2][64];
    event_t copies[2];
    int sum = 0;
    copies[0] = async_work_group_copy(tiles[0], in, 64, 0);
    for (int k = 0; k < 4; k++) {
        if (k < 3) copies[(k + 1) & 1] = async_work_group_copy(tiles[(k + 1) & 1], in + 64 * (k + 1), 64, 0);
        wait_group_events(1, &copies[k & 1]);
        sum += tiles[k & 1][63 - get_local_id(0)];
        if (!wrong) barrier(CLK_LOCAL_MEM_FENCE);
    }
    out[get_global_id(0)] = sum;
}
kernel void waits(global const int *in, global int *out, int wrong) { // a wait is no barrier
    local int tile[64], turned[64];
    const int l = get_local_id(0);
    event_t copy = async_work_group_copy(tile, in + get_group_id(0) * 64, 64, 0);
    turned[63 - l] = l;
    wait_group_events(1, &copy);
    if (!wrong) barrier(CLK_LOCAL_MEM_FENCE);
    out[get_global_id(0)] = tile[63 - l] + turned[l];
}
kernel void wait_again(global int *out) { // a copy's memory is free again after the wait
    local int tile[64];
    const int l = get_local_id(0);
    global int *part = out + get_group_id(0) * 64;
    for (int round = 0; round < 3; round++) {
        tile[l] = round + l;
        barrier(CLK_LOCAL_MEM_FENCE);
        event_t copy = async_work_group_copy(part, tile, 64, 0);
        wait_group_events(1, &copy);
        part[63 - l] += 1;
        barrier(CLK_GLOBAL_MEM_FENCE);
    }
}
kernel void wait_of_some(global const int *in, global int *out) {
    local int tile[64];
    const int l = get_local_id(0);
    event_t copy = async_work_group_copy(tile, in + get_group_id(0) * 64, 64, 0);
    if (l < 16) wait_group_events(1, &copy);
    out[get_global_id(0)] = tile[63 - l];
}
kernel void adds_floats(global const int *in, global float *all) { all[get_group_id(0)] += in[get_global_id(0)]; } // `all` is a builtin, too
kernel void divergent(global int *out) {
    local int tile[64];
    const int l = get_local_id(0);
    tile[l] = l;
    if (l < 16) barrier(CLK_LOCAL_MEM_FENCE);
    out[get_global_id(0)] = tile[63 - l];
}
kernel void plain_wait(global volatile int *flag, global int *out) { // waits without an atomic
    if (get_local_id(0) != 0) return;
    if (get_group_id(0) != get_num_groups(0) - 1) while (flag[0] == 0) ;
    else flag[0] = 1;
    out[get_group_id(0)] = 1;
}
kernel void outside(global const int *in, global int *out, global int *ok) {
    const int i = get_global_id(0);
    if (i == 3) out[256 + 4] = 7;
    if (i == 5) ok[0] = in[-2];
    if (i == 6) { const int4 part = vload4(0, in + 254); ok[1] = part.x; ok[2] = part.y; ok[3] = part.z; }
    if (i == 7) vstore4((int4)(1, 2, 3, 4), 0, out + 254);
}
kernel void null_pointer(global int *out, int zero) {
    global int *none = (global int *)(ulong)zero;
    none[2] = out[get_global_id(0)];
}
kernel void computed(global int *ints, global uint *uints, global float *floats, global long *longs) {
    atomic_add(&ints[0], 3); atomic_sub(&ints[1], 1); atomic_min(&ints[2], -(int)get_global_id(0)); atomic_max(&ints[3], (int)get_global_id(0) - 100);
    atomic_and(&uints[0], ~(1u << (get_global_id(0) & 31))); atomic_or(&uints[1], 1u << (get_global_id(0) & 31)); atomic_xor(&uints[2], 5u);
    atomic_max(&uints[3], 0x80000000u + get_global_id(0)); atomic_inc(&uints[4]); atomic_dec(&uints[5]);
    atomic_xchg(&floats[0], 2.5f);
    atom_add(&longs[0], 1L << 33); atom_min(&longs[1], -5L - (long)get_global_id(0));
    while (atomic_cmpxchg(&ints[4], (int)get_global_id(0), (int)get_global_id(0) + 1) != (int)get_global_id(0)) ;
}
kernel void fenced(global int *data, int is_wrong) {
    const int i = get_global_id(0);
    data[i] = 1;
    mem_fence(CLK_GLOBAL_MEM_FENCE);
    if (is_wrong && i & 1) data[i] += data[i - 1];
}
kernel void equal(global int *out, global int4 *vectors, local short *part) { // each word gets one value from the odd items
    const int l = get_local_id(0);
    if ((l & 1) == 0) return;
    out[0] = 7;
    vectors[l & 3].yz = (int2)(l & 3, 9);
    vstore2((short2)(5, 6), l / 32, part);
}
kernel void one_unequal(global int *out) { // one item of all writes another value to one word of five
    const int i = get_global_id(0), value = i == 37 ? 6 : 5;
    out[0] = 5;
    out[1 + (i & 3)] = value;
}
kernel void unequal_in_time(global int *out) { // each writes twice, the last time the same
    out[0] = get_global_id(0);
    out[0] = 5;
}
kernel void equal_atomics(global int *out) { // what atomics write is not looked at
    out[0] = 5;
    atomic_xchg(&out[0], 5);
}
kernel void equal_copies(global int *out) { // nor what copies do
    local int tile[4];
    if (get_local_id(0) < 4) tile[get_local_id(0)] = 3;
    barrier(CLK_LOCAL_MEM_FENCE);
    event_t copy = async_work_group_copy(out, tile, 4, 0);
    wait_group_events(1, &copy);
}
local_helper
kernel void calls(global int *out) { helper(out, get_global_id(0)); }
kernel void called(global int *out, int extra) { out[get_global_id(0)] = extra; }
kernel void caller(global int *out) { called(out, 9); }
kernel void deep(global int *out, int at) { // needs more than a small stack
    int many[6000];
    for (int k = 0; k < 6000; k++) many[k] = k * (at + 1);
    out[get_global_id(0)] = many[at] + many[5999 - at];
}
kernel void unsized(global int *out) { // the recorder chooses the size of the groups
    if (get_global_id(0) + get_global_id(1) + get_global_id(2) == 0)
        for (int k = 0; k < 3; k++) out[k] = get_local_size(k);
}
kernel void result_pointer(global const float *in, global float *whole) {
    float part = fract(in[get_global_id(0)], &whole[get_global_id(0) / 2]);
    if (part > 2) whole[0] = part;
}
""".replace("local_helper", "void helper(global int *out, int at) { out[at] = at; barrier(CLK_GLOBAL_MEM_FENCE); out[at] += out[at / 64 * 64 + 63 - at % 64]; }")
LATER = """
kernel void orders(global atomic_int *flag, global int *data, int order, int number) { // no constants
    const memory_scope scope = number == 0 ? memory_scope_work_group : number == 1 ? memory_scope_device : number == 2 ? memory_scope_work_item
                               : (memory_scope)4; // sub_group, which pocl does not name
    if (get_local_id(0) != 0) return;
    if (get_group_id(0) == 0) {
        data[0] = 42;
        atomic_store_explicit(flag, 1, order ? memory_order_release : memory_order_relaxed, scope);
    } else {
        while (atomic_load_explicit(flag, order ? memory_order_acquire : memory_order_relaxed, scope) != 1) ;
        data[get_group_id(0)] = data[0];
    }
}
kernel void narrow(global atomic_int *flag, global int *data) { // within a group, by scopes that have one item, or some
    if (get_local_id(0) == 0) {
        data[0] = 42;
        atomic_store_explicit(flag, 1, memory_order_release, memory_scope_work_item);
    } else {
        while (atomic_load_explicit(flag, memory_order_acquire, (memory_scope)4) != 1) ;
        data[get_local_id(0)] = data[0];
    }
}
kernel void numbers(global int *out) {
    const size_t i = get_global_linear_id();
    out[4 * i] = get_global_id(0) * 100 + get_global_id(1) * 10 + get_global_id(2);
    out[4 * i + 1] = get_local_id(0) + 10 * get_group_id(1) + 100 * get_num_groups(0);
    out[4 * i + 2] = get_local_linear_id() + 1000 * get_work_dim();
    out[4 * i + 3] = get_global_offset(0) + 10 * get_local_size(1) + 100 * get_global_size(2) + 1000 * get_global_size(3);
}
kernel void plain_ends(global atomic_int *word, global int *data) { // a plain write ends a release sequence
    if (get_global_id(0) != 0) return;
    atomic_store_explicit(word, 1, memory_order_release, memory_scope_device);
    *(global int *)word = 2;
    data[0] = atomic_load_explicit(word, memory_order_acquire, memory_scope_device);
}
"""


def both(name, text, right, wrong):
    return [(f"{name}_{variant}", text % {"name": variant, **values}) for variant, values in {"right": right, **wrong}.items()]


RELEASES, DEVICE = "memory_order_release", "memory_scope_device"
RELAXED, GROUP = "memory_order_relaxed", "memory_scope_work_group"
TEXTS = (
    both("matmul", MATMUL, {"second": "barrier(CLK_LOCAL_MEM_FENCE);"}, {"wrong": {"second": ""}})
    + both("tree", TREE, {"least": "0"}, {"wrong": {"least": "8"}})
    + both("histogram", HISTOGRAM, {"count": "atomic_inc(&mine[bin])"}, {"wrong": {"count": "mine[bin]++"}})
    + both("last_block", LAST_BLOCK, {"order": "memory_order_acq_rel", "scope": DEVICE},
           {"relaxed": {"order": RELAXED, "scope": DEVICE}, "scope": {"order": "memory_order_acq_rel", "scope": GROUP}})
    + both("spin_lock", SPIN_LOCK, {"order": RELEASES, "scope": DEVICE},
           {"relaxed": {"order": RELAXED, "scope": DEVICE}, "scope": {"order": RELEASES, "scope": GROUP}})
    + both("ticket_lock", TICKET_LOCK, {"order": RELEASES}, {"relaxed": {"order": RELAXED}})
    + both("grid_barrier", GRID_BARRIER, {"order": "memory_order_acq_rel", "scope": DEVICE},
           {"relaxed": {"order": RELAXED, "scope": DEVICE}, "scope": {"order": "memory_order_acq_rel", "scope": GROUP}})
    + both("ring", RING, {"order": RELEASES}, {"relaxed": {"order": RELAXED}})
    + both("look_back", LOOK_BACK, {"order": RELEASES}, {"relaxed": {"order": RELAXED}}))
TEXT = "".join(text for _, text in TEXTS) + OTHERS + LATER
OF_OPENCL12 = "".join(text for name, text in TEXTS if name.split("_")[0] in ("matmul", "tree", "histogram")) + OTHERS
ALL = GROUPS * ITEMS


def numbers():
    return [at * 7 % 23 for at in range(ALL)]


def matrix():
    return [at * 5 % 11 for at in range(64)]


def product():
    a = matrix()
    return [sum(a[row * 8 + k] * a[k * 8 + column] for k in range(8)) for row in range(8) for column in range(8)]


class Case:
    """A launch: its sizes, what its arguments are, what it must have computed, and the races that must be found in it; None where
    they depend on the run, but some must be found."""

    def __init__(self, kernel, arguments, races=0, results=(), size=(ALL,), local=(ITEMS,), diverge=0, say=(), unsaid="", offset=None):
        self.kernel, self.arguments, self.races, self.results, self.size, self.local = kernel, arguments, races, dict(results), size, local
        self.diverge, self.say, self.unsaid, self.offset = diverge, say, unsaid, offset


def sums_before():
    sums = [sum(numbers()[g * ITEMS:(g + 1) * ITEMS]) for g in range(GROUPS)]
    return [sum(sums[:g + 1]) for g in range(GROUPS)]


def cases():
    zeros, whole = [0] * ALL, sum(numbers())
    yield Case("matmul_right", [matrix(), matrix(), [0] * 64, 8], 0, {2: product()}, (8, 8), (4, 4))
    yield Case("matmul_wrong", [matrix(), matrix(), [0] * 64, 8], 4 * 32, {}, (8, 8), (4, 4), say=(
        "is of one round of a loop and the write at ", " of a later one", "the missing barrier's place is the end of the loop's body"))  # all words of two tiles of four groups
    yield Case("tree_right", [numbers(), [0] * GROUPS, Local(4 * ITEMS)], 0, {})
    yield Case("tree_wrong", [numbers(), [0] * GROUPS, Local(4 * ITEMS)], 7 * GROUPS, say=("if these are rounds of a loop, the missing barrier's",))  # words 1 to 7: the last four steps
    yield Case("histogram_right", [numbers(), [0] * 16], 0, {1: [sum(n & 15 == b for n in numbers()) for b in range(16)]})
    yield Case("histogram_wrong", [numbers(), [0] * 16], 16 * GROUPS, say=("use an atomic, such as atomic_inc",))  # each group counts in each bin more than once
    for name, races in (("right", 0), ("relaxed", GROUPS - 1), ("scope", GROUPS)):  # others' parts, and the count itself
        yield Case("last_block_" + name, [numbers(), [0] * GROUPS, [0], [0]], races, {3: [whole]})
    for name, races in (("right", 0), ("relaxed", 1), ("scope", 2)):  # the counter, and the lock itself
        yield Case("spin_lock_" + name, [[0], [0], 20], races, {1: [20 * GROUPS]})
    for name, races in (("right", 0), ("relaxed", 1)):
        yield Case("ticket_lock_" + name, [[0, 0], [0], 20], races, {1: [20 * GROUPS]})
    for name, races in (("right", 0), ("relaxed", 2 * ALL), ("scope", 2 * ALL + 1)):  # each value, and the count itself
        yield Case("grid_barrier_" + name, [[0], [0] * (2 * ALL + 1), 4], races)
    for name, races in (("right", 0), ("relaxed", GROUPS - 1)):
        yield Case("ring_" + name, [[0] * GROUPS, [0] * GROUPS], races, {1: [sum(range(g + 1)) for g in range(GROUPS)]})
    for name, races in (("right", 0), ("relaxed", None)):
        yield Case("look_back_" + name, [numbers(), [0] * GROUPS, [0] * GROUPS, [0] * GROUPS], races, {3: sums_before()})
    yield Case("components_right", [zeros * 2], 0, {0: [at // 2 for at in range(2 * ALL)]})
    yield Case("components_wrong", [zeros * 2], ALL // 2)  # the component y of each vector
    yield Case("components_read_right", [zeros * 2, zeros], 0, {1: [0] * ALL})
    yield Case("components_read_wrong", [zeros * 2, zeros], ALL // 2)  # y again
    yield Case("components_computed", [zeros, zeros, 0], 0, {0: list(range(ALL)), 1: list(range(ALL))})
    yield Case("components_computed", [zeros, zeros, 1], ALL, {0: list(range(ALL))})
    yield Case("component_single", [zeros], 0, {0: list(range(ALL))})
    yield Case("bytes_right", [[0] * (ALL // 4), [0] * (ALL // 2)])
    yield Case("vectors_right", [zeros * 4, zeros * 4], 0, {1: [1] * 4 * ALL})
    yield Case("vectors_wrong", [zeros * 4, zeros * 4], ALL - 1)
    yield Case("copies_right", [list(range(2 * ALL)), zeros], 0, {1: [2 * (g * 64 + 63 - l) for g in range(GROUPS) for l in range(ITEMS)]})
    yield Case("rows", [[0] * 4], 1, size=(4,), local=(4,), say=("race on tile[1][2][0] of group 0",))
    yield Case("members", [[0] * 16, [0] * 16, (0.0,) * 8], 4, size=(4,), local=(4,), say=(
        "race on p[1].position.y", "race on p[1].links[1]", "race on m[1][2]", "race on r[3]", "OpenCL C has no atomic_add of float"))
    yield Case("swaps", [list(range(2 * ALL)), 0], 0, {0: [at ^ 1 for at in range(2 * ALL)]})
    yield Case("swaps", [list(range(2 * ALL)), 1], ALL - 1, unsaid="use an atomic")
    after = "wait_group_events after the copy would, or, if the copy comes last, a barrier before it"
    yield Case("copies_wrong", [list(range(ALL)), zeros], ALL, say=(after,))  # each word of each tile
    yield Case("copies_unwaited", [list(range(ALL)), zeros], ALL, say=(after,))
    mirrored = [g * 64 + 63 - l for g in range(GROUPS) for l in range(ITEMS)]
    yield Case("copies_ahead", [list(range(ALL)), zeros, 0], 0, {1: [sum(both) for both in zip(mirrored, range(ALL))]})
    yield Case("copies_ahead", [list(range(ALL)), zeros, 1], ALL, say=(after,))  # the first tile
    yield Case("copies_together", [list(range(ALL)), zeros], 0, {1: mirrored})
    yield Case("copies_in_turn", [list(range(ALL)), zeros, 0], 0, {1: [4 * (63 - at % 64) + 6 * 64 for at in range(ALL)]})
    yield Case("copies_in_turn", [list(range(ALL)), zeros, 1], 2 * 64 * GROUPS)  # all words of both tiles
    turned = [it + 63 - at % 64 for at, it in enumerate(mirrored)]
    yield Case("waits", [list(range(ALL)), zeros, 0], 0, {1: turned})
    yield Case("waits", [list(range(ALL)), zeros, 1], ALL, {1: turned}, say=(
        " waits for copies and is no barrier: put a barrier with CLK_LOCAL_MEM_FENCE between the two",))  # each word of `turned`
    yield Case("wait_again", [zeros], 0, {0: [3 + at % 64 for at in range(ALL)]})
    yield Case("wait_of_some", [list(range(ALL)), zeros], 48 * GROUPS, {}, diverge=GROUPS,
               say=(after, "16 work-items, the first is item 0"))  # what the others read
    yield Case("adds_floats", [numbers(), (0.5,) * GROUPS], GROUPS, unsaid="atomic_inc", say=(
        "use a loop of atomic_cmpxchg on the bits, begun by an atomic read (OpenCL C has no atomic_add of float), or give each item a word of its own",
        "race on all["))
    taken = "atomics of work-item or sub-group scope, taken as of work-group scope: a race in a group may be missed: "
    for order, scope, races in ((1, 1, 0), (0, 1, 1), (1, 0, 2), (1, 2, 2), (1, 3, 2)):
        yield Case("orders", [[0], [0] * GROUPS, order, scope], races, {1: [42] * GROUPS}, say=(taken,) if scope > 1 else (), unsaid="" if scope > 1 else taken)
    yield Case("narrow", [[0], [0] * 4], 0, {1: [42] * 4}, size=(4,), local=(4,), say=(taken,))
    yield Case("divergent", [zeros], ALL, diverge=GROUPS)  # a divergent barrier orders nothing
    yield Case("plain_wait", [[0], [0] * GROUPS], 1, {1: [1] * GROUPS})
    yield Case("outside", [list(range(ALL)), zeros, [5] * 4], 0, {2: [0, 254, 255, 0], 1: [0] * (ALL - 2) + [1, 2]}, say=(
        "out of bounds: write of 4 bytes, 16 bytes after the end of out, which has 1024 bytes",
        "read by group 0, item 5", "out of bounds: read of 4 bytes, 8 bytes before the start of in, which has 1024 bytes",
        "out of bounds: read of 16 bytes, partly after the end of in",
        "out of bounds: write of 16 bytes, partly after the end of out"))
    yield Case("null_pointer", [[0] * 4, 0], 0, size=(4,), local=(4,), say=("out of bounds: write of 4 bytes, through a null pointer",))
    yield Case("computed", [[0] * 4 + [0], [2 ** 32 - 1, 0, 0, 0, 0, ALL], (0.0,), (0, 0, 0, 0)], 0,
               {0: [3 * ALL, -ALL, 1 - ALL, ALL - 101, ALL]})
    yield Case("fenced", [zeros, 0], 0, {0: [1] * ALL}, say=("fences: 256, at kernel.cl:",))
    yield Case("fenced", [zeros, 1], ALL // 2, say=("a fence alone orders nothing between work-items",))  # what each second item writes
    yield Case("numbers", [[0] * 4 * 48], 0, {0: numbers_of()}, (6, 4, 2), (3, 2, 1), offset=(1, 2, 3))
    same = "write the same value"  # out[0]; y and z of two vectors; four parts of a tile of each group
    yield Case("equal", [[0], [0] * 16, Local(4 * ITEMS)], 1 + 4 + 4 * GROUPS, {0: [7], 1: [0] * 5 + [1, 9, 0] + [0] * 5 + [3, 9, 0]},
               say=("all stores to it " + same, "all stores to each of them " + same))
    yield Case("one_unequal", [[0] * 5], 5, say=("all stores to it " + same,), unsaid="each of them " + same)
    yield Case("unequal_in_time", [[0]], 1, {0: [5]}, unsaid=same)
    yield Case("equal_atomics", [[0]], 1, {0: [5]}, unsaid=same)
    yield Case("equal_copies", [[0] * 4], 4, {0: [3] * 4}, unsaid=same)
    yield Case("calls", [zeros], ALL, say=("called at kernel.cl:", ": kernel void calls("))  # each reads what another one adds to
    yield Case("caller", [zeros], 0, {0: [9] * ALL})
    yield Case("deep", [zeros, 3], 0, {0: [(3 + 5996) * 4] * ALL})
    for size, local in (((4096,), [64, 1, 1]), ((7,), [7, 1, 1]), ((67,), [67, 1, 1]), ((134,), [67, 1, 1]), ((1021,), [1021, 1, 1]), ((2053,), [1, 1, 1]),
                        ((1, 100), [1, 50, 1]), ((6, 4, 2), [6, 4, 1]), ((32, 32), [32, 1, 1])):
        yield Case("unsized", [[0] * 3], 0, {0: local}, size, None)
    yield Case("result_pointer", [(1.5,) * ALL, (0.0,) * ALL], ALL // 2)
    yield Case("plain_ends", [[0], [0]], 0, {1: [2]})


def numbers_of():
    found = []
    for z in range(2):
        for y in range(4):
            for x in range(6):
                found += [(x + 1) * 100 + (y + 2) * 10 + z + 3, x % 3 + 10 * (y // 2) + 200, x % 3 + 3 * (y % 2) + 3000, 1 + 20 + 200 + 1000]
    return found


def kind_of(values):
    return "q" if values == (0, 0, 0, 0) else "f" if isinstance(values, tuple) else "i" if max(values) < 2 ** 31 else "I"


def main(text, older_text, those, wanted):
    """Launches all, or those that are wanted; `--opencl12` before these compiles the text that OpenCL C 1.2 has."""
    device, is_old = Device(), wanted[:1] == ["--opencl12"]
    program = device.build(older_text) if is_old else device.build(text, "-cl-std=CL3.0")
    for case in those:
        if len(wanted) > is_old and case.kernel not in wanted:
            continue
        arguments = [Buffer(device, value, kind_of(value)) if isinstance(value, (list, tuple)) else value for value in case.arguments]
        status = device.launch(device.kernel(program, case.kernel), case.size, case.local, arguments, case.offset)
        if status != 0:
            print(f"{case.kernel}: OpenCL's error {status}", flush=True)
        for at, wanted_values in case.results.items():
            found = arguments[at].read()
            if found != wanted_values:
                first = next(k for k, pair in enumerate(zip(found, wanted_values)) if pair[0] != pair[1])
                print(f"{case.kernel}: wrong result: argument {at} has {found[first]} at {first}, not {wanted_values[first]}", flush=True)


if __name__ == "__main__":
    main(TEXT, OF_OPENCL12, cases(), sys.argv[1:])
