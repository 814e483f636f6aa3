// What the parts of the pass know of each other.
#pragma once

#include "../sites.h"

#include "llvm/IR/Instructions.h"
#include "llvm/IR/Module.h"
#include "llvm/Support/raw_ostream.h"

#include <map>
#include <memory>
#include <optional>
#include <set>

namespace gpurace {

enum AddressSpace : unsigned { PRIVATE_SPACE, GLOBAL_SPACE, CONSTANT_SPACE, LOCAL_SPACE, GENERIC_SPACE }; // of SPIR

// The plain name of a builtin: that of _Z10atomic_addPU3AS1Vii is atomic_add.
llvm::StringRef name_of(const llvm::CallInst &call);

// The number after the letters of a vector builtin's name: 4 of vload4 and vstore_half4_rte, 1 if there is none.
unsigned width_of(llvm::StringRef name);

// An atomic builtin. Its orders and its scope are OpenCL's numbers, which need not be constants; null is the default.
struct Atomic {
    llvm::CallInst *call = nullptr;
    llvm::Value *pointer = nullptr;
    SiteKind kind = MODIFY;
    Operation operation = OP_EXCHANGE;
    char type = 'i'; // of the word, as in mangled names: i j l m f d
    llvm::Value *order = nullptr, *failure = nullptr, *scope = nullptr;
    bool is_of_opencl20 = false; // seq_cst at device scope where nothing is said; else relaxed

    bool may_acquire() const;
};

// The call as an atomic, if it is one that accesses memory.
std::optional<Atomic> atomic_of(llvm::CallInst &call);

// The row of an item's numbers that a builtin such as get_local_id answers from, or -1.
int number_row_of(llvm::StringRef name);

// The operand through which a builtin such as fract writes a result, or -1.
int result_operand_of(const llvm::CallInst &call);

bool is_fence(llvm::StringRef name);
// An access of an image that may race: no kernel writes an image that it takes as `read_only`, but for one that is a buffer's.
bool is_image_access(const llvm::CallInst &call);

// The type that a pointer of a builtin points to.
inline llvm::Type *pointee_of(const llvm::Value *pointer) {
    return llvm::cast<llvm::PointerType>(pointer->getType())->getNonOpaquePointerElementType();
}

// A plain access through one operand of an instruction.
struct Access {
    llvm::Instruction *instruction;
    unsigned operand;              // the one that has the pointer
    SiteKind kind;
    uint64_t bytes, unit;          // unit: the bytes of its parts that are aligned
    llvm::Value *index = nullptr;  // of vload and vstore: the first argument, in steps of `stride` bytes
    unsigned index_operand = 0;
    uint64_t stride = 0;

    llvm::Value *pointer() const { return instruction->getOperand(operand); }
};

struct Accesses {
    std::vector<Access> plain;
    std::vector<Atomic> atomics;
    std::vector<llvm::CallInst *> barriers, copies, fences, images;
    std::set<std::string> notes; // what is not recorded

    bool may_acquire() const {
        return llvm::any_of(atomics, [](const Atomic &atomic) { return atomic.may_acquire(); });
    }
};

Accesses find_accesses(llvm::Function &function);

inline bool is_traced(const llvm::Value *pointer) {
    const unsigned space = pointer->getType()->getPointerAddressSpace();
    return space == GLOBAL_SPACE || space == LOCAL_SPACE;
}

// The argument or variable that a pointer belongs to, if the code says so; else null.
const llvm::Value *object_of(const llvm::Value *pointer);

// The words of each argument and variable: the greatest of 4, 2 and 1 bytes at which every access to it is of whole
// words. An access whose object is not known may be to each of its address space.
class Grains {
public:
    Grains(const Accesses &accesses, const llvm::DataLayout &layout);
    uint64_t of(const llvm::Value *object) const;

private:
    std::map<const llvm::Value *, uint64_t> grains_;
    uint64_t least_[5] = {4, 4, 4, 4, 4};
    void add(const llvm::Value *pointer, uint64_t bytes, uint64_t unit);
};

inline bool is_kernel(const llvm::Function &function) {
    return !function.isDeclaration() && function.getCallingConv() == llvm::CallingConv::SPIR_KERNEL;
}

// The functions that the host calls have this and then the kernel's name as their name.
constexpr const char RUN_PREFIX[] = "gr_run_";

// Instruments a kernel, and writes what the numbers of its sites mean (rewriter.cpp).
void instrument_kernel(llvm::Function &kernel, llvm::raw_ostream &sites, unsigned &next_site);

// Inlines all calls of a module's own functions, those of kernels too, and promotes private variables.
void inline_calls(llvm::Module &module);

// Drops what no longer holds after instrumentation: debug information and statements on aliases.
void strip(llvm::Module &module);

// The module with one address space, linked with the builtins that it uses; null where that failed, which is said.
std::unique_ptr<llvm::Module> link_for_host(llvm::Module &module, const char *builtins, llvm::LLVMContext &context);

} // namespace gpurace
