// What the instrumenting pass and the runtime both know: the kinds of sites, the operations of atomics, and where the
// words of a work-item's state are. A site is a place in the source that accesses memory, or that the runtime counts.
#pragma once

namespace gpurace {

// The first seven are those of a record (docs/FORMATS.md). A compare-exchange is recorded as a read-modify-write where
// it succeeds, and as a load where it fails; a wait for copies is recorded as a barrier. Fences and images are only counted.
enum SiteKind { READ, WRITE, LOAD, STORE, MODIFY, BARRIER, END, COMPARE_EXCHANGE, FENCE, IMAGE, WAIT };

// The memory of a site; of a generic pointer the runtime finds out.
enum SiteSpace { GLOBAL, LOCAL, GENERIC };

enum Operation {
    OP_LOAD, OP_STORE, OP_EXCHANGE, OP_ADD, OP_SUBTRACT, OP_MINIMUM, OP_MAXIMUM, OP_AND, OP_OR, OP_XOR, OP_COMPARE
};

// The rows of an item's numbers, of four words each: one for each dimension, and what a dimension that is none gives.
enum NumberRow {
    LOCAL_ID, GROUP_ID, NUM_GROUPS, LOCAL_SIZE, ENQUEUED_LOCAL_SIZE, GLOBAL_SIZE, GLOBAL_OFFSET, GLOBAL_ID, LINEAR, ROWS
};
enum LinearNumber { WORK_DIM, LOCAL_LINEAR_ID, GLOBAL_LINEAR_ID }; // the words of the row LINEAR

constexpr unsigned PRINT_ROOM = 1 << 22; // of what kernels print in a launch, 8 bytes before it with how much that is

constexpr unsigned DIMENSIONS = 4;
constexpr unsigned LOCALS_OFFSET = ROWS * DIMENSIONS * 8; // after the numbers: where the group's local variables are

} // namespace gpurace
