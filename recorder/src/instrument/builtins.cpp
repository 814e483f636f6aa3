#include "instrument.h"

#include "llvm/ADT/StringExtras.h"
#include "llvm/ADT/StringSwitch.h"
#include "llvm/IR/Constants.h"

using namespace llvm;

namespace gpurace {

StringRef name_of(const CallInst &call) {
    const Function *callee = call.getCalledFunction();
    StringRef name = callee ? callee->getName() : "";
    size_t length = 0;
    if (!name.consume_front("_Z") || name.consumeInteger(10, length)) return name;
    name = name.take_front(length);
    name.consume_front("_cl_"); // pocl's headers rename builtins so
    return name;
}

unsigned width_of(StringRef name) {
    unsigned width = 1;
    name.drop_until(isDigit).consumeInteger(10, width);
    return width;
}

namespace {

// memory_order_relaxed is 0, acquire 2, release 3, acq_rel 4, seq_cst 5.
bool is_acquire(const Value *order, bool is_seq_cst_otherwise) {
    if (!order) return is_seq_cst_otherwise;
    const auto *constant = dyn_cast<ConstantInt>(order);
    return !constant || constant->getZExtValue() == 2 || constant->getZExtValue() >= 4;
}

SiteKind kind_of(StringRef name) {
    if (name == "atomic_init") return WRITE;
    if (name.contains("load")) return LOAD;
    if (name.contains("store") || name.startswith("atomic_flag_clear")) return STORE;
    if (name.contains("cmpxchg") || name.contains("compare_exchange")) return COMPARE_EXCHANGE;
    return MODIFY;
}

Operation operation_of(StringRef name, SiteKind kind) {
    if (kind == LOAD) return OP_LOAD;
    if (kind == STORE || kind == WRITE) return OP_STORE;
    if (kind == COMPARE_EXCHANGE) return OP_COMPARE;
    for (const StringRef prefix : {"atom_", "atomic_", "fetch_"}) name.consume_front(prefix);
    return StringSwitch<Operation>(name)
        .StartsWith("add", OP_ADD).StartsWith("inc", OP_ADD).StartsWith("sub", OP_SUBTRACT).StartsWith("dec", OP_SUBTRACT)
        .StartsWith("min", OP_MINIMUM).StartsWith("max", OP_MAXIMUM)
        .StartsWith("and", OP_AND).StartsWith("or", OP_OR).StartsWith("xor", OP_XOR)
        .Default(OP_EXCHANGE); // xchg, exchange, flag_test_and_set
}

// The letter of the word's type in the mangled name: after the mark of an atomic type, or of a volatile one.
char type_of(const CallInst &call, StringRef name) {
    if (name.contains("flag")) return 'i';
    const StringRef full = call.getCalledFunction()->getName();
    size_t at = full.find("U7_Atomic");
    if (at != StringRef::npos) at += 9;
    else if ((at = full.rfind('V')) != StringRef::npos) at += 1;
    return at < full.size() ? full[at] : 'i';
}

// Gives the atomic the orders and the scope that its last arguments are. The first `plain` arguments are none of these.
void read_orders(Atomic &atomic, unsigned plain) {
    const CallInst &call = *atomic.call;
    const auto argument = [&](unsigned at) { return at < call.arg_size() ? call.getArgOperand(at) : nullptr; };
    const bool has_failure = atomic.kind == COMPARE_EXCHANGE;
    atomic.order = argument(plain);
    atomic.failure = has_failure ? argument(plain + 1) : nullptr;
    atomic.scope = argument(plain + 1 + has_failure);
}

} // namespace

bool Atomic::may_acquire() const {
    if (kind == STORE || kind == WRITE) return false;
    return is_acquire(order, is_of_opencl20) || (kind == COMPARE_EXCHANGE && is_acquire(failure, is_of_opencl20));
}

std::optional<Atomic> atomic_of(CallInst &call) {
    const StringRef name = name_of(call);
    if (!name.startswith("atom") || name.contains("fence") || call.arg_size() == 0) return std::nullopt;
    if (!call.getArgOperand(0)->getType()->isPointerTy()) return std::nullopt;
    Atomic atomic;
    atomic.call = &call;
    atomic.pointer = call.getArgOperand(0)->stripPointerCasts(); // OpenCL C 2.0 mostly casts it to the generic space
    if (!atomic.pointer->getType()->isPointerTy()) atomic.pointer = call.getArgOperand(0);
    atomic.kind = kind_of(name);
    atomic.operation = operation_of(name, atomic.kind);
    atomic.type = type_of(call, name);
    atomic.is_of_opencl20 = any_of(ArrayRef<StringRef>{"fetch", "load", "store", "exchange", "flag"},
                                   [&](StringRef word) { return name.contains(word); });
    if (atomic.is_of_opencl20)
        read_orders(atomic, atomic.kind == LOAD || name.contains("flag") ? 1 : atomic.kind == COMPARE_EXCHANGE ? 3 : 2);
    return atomic;
}

int number_row_of(StringRef name) {
    return StringSwitch<int>(name)
        .Case("get_local_id", LOCAL_ID).Case("get_group_id", GROUP_ID).Case("get_num_groups", NUM_GROUPS)
        .Case("get_local_size", LOCAL_SIZE).Case("get_enqueued_local_size", ENQUEUED_LOCAL_SIZE)
        .Case("get_global_size", GLOBAL_SIZE).Case("get_global_offset", GLOBAL_OFFSET).Case("get_global_id", GLOBAL_ID)
        .Cases("get_work_dim", "get_local_linear_id", "get_global_linear_id", LINEAR).Default(-1);
}

int result_operand_of(const CallInst &call) {
    const int operand = StringSwitch<int>(name_of(call))
        .Cases("fract", "frexp", "modf", "sincos", "lgamma_r", 1).Case("remquo", 2).Default(-1);
    const bool is_there = operand >= 0 && unsigned(operand) < call.arg_size();
    return is_there && call.getArgOperand(unsigned(operand))->getType()->isPointerTy() ? operand : -1;
}

bool is_fence(StringRef name) { return name.endswith("mem_fence") || name == "atomic_work_item_fence"; }

bool is_image_access(const CallInst &call) {
    if (!name_of(call).startswith("read_image")) return name_of(call).startswith("write_image");
    const auto *image = dyn_cast<StructType>(pointee_of(call.getArgOperand(0)));
    return !image || !image->getName().contains("_ro_t") || image->getName().contains("buffer");
}

} // namespace gpurace
