// Fibers: each work-item has a stack of its own, and goes on from where it rested when its thread switches to it.
#pragma once

#include <cstddef>
#include <cstdint>
#include <vector>

// Keeps what a call keeps, notes in *own where this stack goes on, and goes on with another.
extern "C" void gr_switch(void **own, void *other);

namespace gpurace {

// A new fiber on the stack that ends at `top`: the first switch to it calls main(argument), which must not return.
void *make_fiber(uint8_t *top, void (*main)(void *), void *argument);

constexpr size_t PAGE = 4096;

// Memory of the groups of one thread, used again when they have ended; of stacks some are kept for the next launch.
class Pool {
public:
    ~Pool();
    // `count` pieces of `bytes` each, one after another; null where there is no room. At the low end of each guarded
    // one is a page that can't be accessed, as long as the process has not too many of them.
    uint8_t *take(size_t count, size_t bytes, bool is_guarded);
    void give_back(uint8_t *memory);

    struct Block { uint8_t *memory; size_t count, bytes; bool is_guarded, is_taken; };

private:
    std::vector<Block> blocks_;
};

} // namespace gpurace
