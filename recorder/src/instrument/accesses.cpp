#include "instrument.h"

#include "llvm/Analysis/ValueTracking.h"
#include "llvm/IR/IRBuilder.h"
#include "llvm/IR/InstIterator.h"
#include "llvm/IR/IntrinsicInst.h"

using namespace llvm;

namespace gpurace {

const Value *object_of(const Value *pointer) {
    const Value *object = getUnderlyingObject(pointer, 0);
    return isa<Argument>(object) || isa<GlobalVariable>(object) ? object : nullptr;
}

namespace {

class Finder {
public:
    explicit Finder(Function &function) : layout_(function.getParent()->getDataLayout()) {
        for (Instruction &instruction : instructions(function)) find(instruction);
    }
    Accesses found;

private:
    const DataLayout &layout_;

    uint64_t size_of(Type *type) const { return layout_.getTypeStoreSize(type); }

    void find(Instruction &at) {
        if (auto *load = dyn_cast<LoadInst>(&at))
            add({&at, load->getPointerOperandIndex(), READ, size_of(load->getType()), load->getAlign().value()});
        else if (auto *store = dyn_cast<StoreInst>(&at))
            add({&at, store->getPointerOperandIndex(), WRITE, size_of(store->getValueOperand()->getType()), store->getAlign().value()});
        else if (isa<AnyMemIntrinsic>(at)) find_block(cast<AnyMemIntrinsic>(at));
        else if (isa<AtomicRMWInst>(at) || isa<AtomicCmpXchgInst>(at)) found.notes.insert("an atomic of another kind");
        else if (auto *call = dyn_cast<CallInst>(&at)) find_call(*call);
    }

    // The copy of a struct, or its filling.
    void find_block(AnyMemIntrinsic &block) {
        const auto *length = dyn_cast<ConstantInt>(block.getLength());
        if (!length) return (void)found.notes.insert("a copy of memory whose length is no constant");
        if (auto *copy = dyn_cast<AnyMemTransferInst>(&block)) // first, as a write may be done at the item's next call
            add({&block, 1, READ, length->getZExtValue(), copy->getSourceAlign().valueOrOne().value()});
        add({&block, 0, WRITE, length->getZExtValue(), block.getDestAlign().valueOrOne().value()});
    }

    void find_call(CallInst &call) {
        const StringRef name = name_of(call);
        if (name == "barrier" || name == "work_group_barrier" || name == "wait_group_events")
            found.barriers.push_back(&call);
        else if (name.startswith("async_work_group_")) found.copies.push_back(&call);
        else if (name.startswith("vload") || name.startswith("vstore")) find_vector(call, name);
        else if (is_fence(name)) found.fences.push_back(&call);
        else if (is_image_access(call)) found.images.push_back(&call);
        else if (const int operand = result_operand_of(call); operand >= 0) {
            const uint64_t bytes = size_of(pointee_of(call.getArgOperand(unsigned(operand))));
            add({&call, unsigned(operand), WRITE, bytes, std::min<uint64_t>(bytes, 4)});
        } else if (const auto atomic = atomic_of(call)) {
            if (is_traced(atomic->pointer) || atomic->pointer->getType()->getPointerAddressSpace() == GENERIC_SPACE)
                found.atomics.push_back(*atomic);
        }
    }

    // vload4(index, pointer), vstore4(value, index, pointer), and those of half.
    void find_vector(CallInst &call, StringRef name) {
        const bool is_load = name.startswith("vload"), is_aligned = name.startswith(is_load ? "vloada" : "vstorea");
        const unsigned index = is_load ? 0 : 1, width = width_of(name);
        const uint64_t unit = name.contains("half") ? 2 : size_of(pointee_of(call.getArgOperand(index + 1)));
        Access access{&call, index + 1, is_load ? READ : WRITE, unit * width, unit};
        access.index = call.getArgOperand(index);
        access.index_operand = index;
        access.stride = unit * (is_aligned && width == 3 ? 4 : width);
        add(access);
    }

    void add(const Access &access) {
        const unsigned space = access.pointer()->getType()->getPointerAddressSpace();
        if (access.bytes > 0 && (is_traced(access.pointer()) || space == GENERIC_SPACE)) found.plain.push_back(access);
    }
};

} // namespace

Accesses find_accesses(Function &function) { return Finder(function).found; }

Grains::Grains(const Accesses &accesses, const DataLayout &layout) {
    for (const Access &access : accesses.plain) add(access.pointer(), access.bytes, access.unit);
    for (const CallInst *copy : accesses.copies)
        for (unsigned at : {0u, 1u}) {
            Value *pointer = copy->getArgOperand(at);
            const uint64_t bytes = layout.getTypeStoreSize(pointee_of(pointer));
            add(pointer, bytes, bytes);
        }
}

void Grains::add(const Value *pointer, uint64_t bytes, uint64_t unit) {
    unit = std::min<uint64_t>(4, unit);
    while (bytes % unit) unit /= 2;
    const Value *object = object_of(pointer);
    uint64_t &least = least_[pointer->getType()->getPointerAddressSpace()];
    uint64_t &grain = object ? grains_.try_emplace(object, 4).first->second : least;
    grain = std::min(grain, unit);
}

uint64_t Grains::of(const Value *object) const {
    const auto found = grains_.find(object);
    const uint64_t known = found == grains_.end() ? 4 : found->second;
    return std::min({known, least_[object->getType()->getPointerAddressSpace()], least_[GENERIC_SPACE]});
}

} // namespace gpurace
