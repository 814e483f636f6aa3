"""Kernels of hundreds to thousands of work-groups, with mistakes and without, and what must be found in each, worked out by hand. `wide.py`
launches all of them, or those that are named, and checks what they compute."""
import sys

from kernels import DEVICE, LAST_BLOCK, RELAXED, TREE, Case, both, main
from opencl import Local

FAR = """
kernel void far_%(name)s(global int *out) { // each group has a word of its own, or one has that of another
    const int g = get_group_id(0);
    if (get_local_id(0) == 3) out[%(word)s] = g;
}
"""
PRODUCT = """
kernel void product_%(name)s(global const int *a, global const int *b, global int *c, int n) {
    local int s[4][4], t[4][4];
    const int x = get_local_id(0), y = get_local_id(1), column = get_global_id(0), row = get_global_id(1), width = get_global_size(0);
    int sum = 0;
    for (int at = 0; at < n; at += 4) {
        s[y][x] = a[row * n + at + x];
        t[y][x] = b[(at + y) * width + column];
        barrier(CLK_LOCAL_MEM_FENCE);
        for (int k = 0; k < 4; k++) sum += s[y][k] * t[k][x];
        %(second)s
    }
    c[row * width + column] = sum;
}
"""
GATHER = """
kernel void gather_%(name)s(global int *partial, global atomic_int *count, global int *out) { // the last one acquires from all, one by one
    const int g = get_group_id(0), groups = get_num_groups(0);
    partial[g] = g;
    if (atomic_fetch_add_explicit(count, 1, memory_order_release, memory_scope_device) != groups - 1) return;
    atomic_load_explicit(count, %(order)s, memory_scope_device);
    int sum = 0;
    for (int at = 0; at < groups; at++) sum += partial[at];
    *out = sum;
}
"""
LONG = """
kernel void long_streams(global int *out, int each) { // more than a group has in memory
    for (int at = 0; at < each; at++) out[get_global_id(0)] = at;
}
"""
COPIES = """
kernel void copies(global const int *in, global int *out) { // with the one that copies a group has as many items as it can have
    local int tile[1023];
    event_t copy = async_work_group_copy(tile, in + get_group_id(0) * 1023, 1023, 0);
    wait_group_events(1, &copy);
    out[get_global_id(0)] = tile[1022 - get_local_id(0)];
}
"""
BOTH_ORDERS = "memory_order_acq_rel"
OF_OPENCL12 = LONG + COPIES + "".join(text for _, text in (
    both("far", FAR, {"word": "g"}, {"wrong": {"word": "g == 300 ? 0 : g"}})
    + both("product", PRODUCT, {"second": "barrier(CLK_LOCAL_MEM_FENCE);"}, {"wrong": {"second": ""}})
    + both("tree", TREE, {"least": "0"}, {"wrong": {"least": "8"}})))
TEXT = OF_OPENCL12 + "".join(text for _, text in (
    both("last_block", LAST_BLOCK, {"order": BOTH_ORDERS, "scope": DEVICE},
         {"relaxed": {"order": RELAXED, "scope": DEVICE}, "scope": {"order": BOTH_ORDERS, "scope": "memory_scope_work_group"}})
    + both("gather", GATHER, {"order": "memory_order_acquire"}, {"relaxed": {"order": RELAXED}})))
FAR_GROUPS, BLOCKS, ROWS, COLUMNS, INNER, LARGEST = 400, 2000, 160, 100, 8, 1024


def matrix(rows, columns):
    return [at * 5 % 11 for at in range(rows * columns)]


def product():
    a, b = matrix(ROWS, INNER), matrix(INNER, COLUMNS)
    return [sum(a[row * INNER + k] * b[k * COLUMNS + column] for k in range(INNER)) for row in range(ROWS) for column in range(COLUMNS)]


def cases():
    far = [Case("far_right", [[0] * FAR_GROUPS], 0, {0: list(range(FAR_GROUPS))}), Case("far_wrong", [[0] * FAR_GROUPS], 1, say=(
        "race on out[0]", "write by group 0, item 3", "write by group 300, item 3", "let one of them do so, or give each a word of its own by another index"))]
    # all words of the two tiles of each group
    tiles = [Case(f"product_{name}", [matrix(ROWS, INNER), matrix(INNER, COLUMNS), [0] * (ROWS * COLUMNS), INNER], races, results, (COLUMNS, ROWS), (4, 4),
                  say=say) for name, races, results, say in (
                      ("right", 0, {2: product()}, ()), ("wrong", 32 * 1000, {}, ("race on s[", "race on t[", "a barrier with CLK_LOCAL_MEM_FENCE between them would")))]
    # the parts of the groups that are not the last one, and where nobody is ordered the count itself
    blocks = [Case(f"last_block_{name}", [[1] * (2 * BLOCKS), [0] * BLOCKS, [0], [0]], races, {3: [2 * BLOCKS]}, (2 * BLOCKS,), (2,))
              for name, races in (("right", 0), ("relaxed", BLOCKS - 1), ("scope", BLOCKS))]
    gathers = [Case(f"gather_{name}", [[0] * BLOCKS, [0], [0]], races, {2: [sum(range(BLOCKS))]}, (BLOCKS,), (1,))
               for name, races in (("right", 0), ("relaxed", BLOCKS - 1))]
    # three groups of as many items as a group can have: words 1 to 7 of each, as of smaller ones
    trees = [Case(f"tree_{name}", [[1] * (3 * LARGEST), [0] * 3, Local(4 * LARGEST)], races, results, (3 * LARGEST,), (LARGEST,))
             for name, races, results in (("right", 0, {1: [LARGEST] * 3}), ("wrong", 7 * 3, {}))]
    for case in far:
        case.size, case.local = (4 * FAR_GROUPS,), (4,)
    yield from far + tiles + blocks + gathers + trees
    yield Case("copies", [list(range(2046)), [0] * 2046], 0, {1: list(range(1022, -1, -1)) + list(range(2045, 1022, -1))}, (2046,), (1023,))
    yield Case("long_streams", [[0] * 140, 5000], 0, {0: [4999] * 140}, (140,), (2,))


if __name__ == "__main__":
    main(TEXT, OF_OPENCL12, cases(), sys.argv[1:])
