#include "fiber.h"

#include <algorithm>
#include <atomic>
#include <mutex>
#include <sys/mman.h>

#if !defined(__x86_64__)
#error "the recorder switches fibers on x86-64 alone"
#endif

extern "C" void gr_start();
asm(R"(
.text
.globl gr_switch
.hidden gr_switch
gr_switch:
    pushq %rbp; pushq %rbx; pushq %r12; pushq %r13; pushq %r14; pushq %r15
    movq %rsp, (%rdi)
    movq %rsi, %rsp
    popq %r15; popq %r14; popq %r13; popq %r12; popq %rbx; popq %rbp
    ret
.globl gr_start
.hidden gr_start
gr_start:
    movq %r12, %rdi
    callq *%r13
    ud2
)");

namespace gpurace {
namespace {

// Each guard page makes two maps of one, and Linux gives a process 65,530.
constexpr size_t MOST_GUARDS = 20000;
std::atomic<size_t> guards{0};

// Guarded blocks of launches that have ended, for the next ones: to map and guard them anew is most of what a small launch costs.
constexpr size_t MOST_KEPT = 1024; // guarded pieces
struct Kept {
    std::mutex lock;
    size_t count = 0;
    std::vector<Pool::Block> blocks;
};
auto &kept = *new Kept; // threads may still run when the program ends

void unmap(const Pool::Block &block) {
    munmap(block.memory, block.count * block.bytes);
    guards -= block.is_guarded ? block.count : 0;
}

bool keep(const Pool::Block &block) {
    const std::lock_guard<std::mutex> held(kept.lock);
    if (!block.is_guarded || kept.count + block.count > MOST_KEPT) return false;
    kept.count += block.count;
    kept.blocks.push_back(block);
    return true;
}

uint8_t *take_kept(size_t count, size_t bytes) {
    const std::lock_guard<std::mutex> held(kept.lock);
    std::vector<Pool::Block> &blocks = kept.blocks;
    const auto is_such = [&](const Pool::Block &block) { return block.count == count && block.bytes == bytes; };
    if (const auto found = std::find_if(blocks.begin(), blocks.end(), is_such); found != blocks.end()) {
        uint8_t *memory = found->memory;
        blocks.erase(found);
        kept.count -= count;
        return memory;
    }
    for (const Pool::Block &block : blocks) unmap(block); // of another size
    blocks.clear();
    kept.count = 0;
    return nullptr;
}

} // namespace

void *make_fiber(uint8_t *top, void (*main)(void *), void *argument) {
    auto *stack = reinterpret_cast<uint64_t *>(top);
    *--stack = 0, *--stack = 0; // nobody called gr_start
    *--stack = reinterpret_cast<uint64_t>(&gr_start);
    *--stack = 0, *--stack = 0;                             // rbp, rbx
    *--stack = reinterpret_cast<uint64_t>(argument);        // r12
    *--stack = reinterpret_cast<uint64_t>(main);            // r13
    *--stack = 0, *--stack = 0;                             // r14, r15
    return stack;
}

Pool::~Pool() {
    for (const Block &block : blocks_)
        if (!keep(block)) unmap(block);
}

uint8_t *Pool::take(size_t count, size_t bytes, bool is_guarded) {
    for (Block &block : blocks_) {
        if (block.is_taken || block.count != count || block.bytes != bytes || block.is_guarded != is_guarded) continue;
        block.is_taken = true;
        return block.memory;
    }
    if (uint8_t *memory = is_guarded ? take_kept(count, bytes) : nullptr) {
        blocks_.push_back({memory, count, bytes, is_guarded, true});
        return memory;
    }
    constexpr int kind = MAP_PRIVATE | MAP_ANONYMOUS | MAP_NORESERVE;
    void *mapped = mmap(nullptr, count * bytes, PROT_READ | PROT_WRITE, kind, -1, 0);
    if (mapped == MAP_FAILED) return nullptr;
    auto *memory = static_cast<uint8_t *>(mapped);
    blocks_.push_back({memory, count, bytes, is_guarded, true});
    if (!is_guarded || (guards += count) > MOST_GUARDS) return memory;
    for (size_t at = 0; at < count; at++)
        if (mprotect(memory + at * bytes, PAGE, PROT_NONE) != 0) break; // it runs without, as it would have
    return memory;
}

void Pool::give_back(uint8_t *memory) {
    for (Block &block : blocks_)
        if (block.memory == memory) block.is_taken = false;
}

} // namespace gpurace
