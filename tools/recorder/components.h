// Loads and stores of some components of a vector. Clang has them be of the whole vector; here they are narrowed to what the text says, so
// that items which use other components do not race. Of both recorders.
#ifndef GPURACE_RECORDER_COMPONENTS_H
#define GPURACE_RECORDER_COMPONENTS_H

#include "llvm/IR/IRBuilder.h"
#include "llvm/IR/InstIterator.h"
#include "llvm/IR/Instructions.h"
#include "llvm/IR/Module.h"

#include <set>
#include <vector>

namespace gpurace::components {

using namespace llvm;

struct Component { Value *number, *value; };

// Where a component of the vector at a place is; its number may be computed.
inline Value *place_of(IRBuilder<> &builder, Type *type, Value *vector, Value *number) {
    return builder.CreateInBoundsGEP(type, vector, {builder.getInt64(0), number});
}

inline uint64_t component_bytes(const Instruction &at, VectorType *type) {
    return at.getModule()->getDataLayout().getTypeStoreSize(type->getElementType());
}

// The load of the vector of which a store changes some components: that of the same place, in the same block.
inline LoadInst *whole_of(StoreInst &store, Value *from) {
    auto *load = dyn_cast<LoadInst>(from);
    const bool is_here = load && load->getParent() == store.getParent();
    return is_here && load->getPointerOperand() == store.getPointerOperand() ? load : nullptr;
}

// The components that a store changes, if its value is the old one with some of them inserted; else none.
inline std::vector<Component> changed_components(StoreInst &store) {
    std::vector<Component> changed;
    if (auto *insert = dyn_cast<InsertElementInst>(store.getValueOperand())) {
        if (whole_of(store, insert->getOperand(0))) changed.push_back({insert->getOperand(2), insert->getOperand(1)});
    } else if (auto *shuffle = dyn_cast<ShuffleVectorInst>(store.getValueOperand())) {
        Value *whole = shuffle->getOperand(0), *others = shuffle->getOperand(1);
        const ArrayRef<int> mask = shuffle->getShuffleMask();
        const int width = int(mask.size());
        if (!whole_of(store, whole) || whole->getType() != shuffle->getType()) return {};
        IRBuilder<> builder(&store);
        for (int at = 0; at < width; at++) {
            const int from = mask[size_t(at)];
            if (from == at || from < 0) continue;
            if (from < width) return {}; // a component that moves: all of the old value is read
            changed.push_back({builder.getInt64(uint64_t(at)), builder.CreateExtractElement(others, uint64_t(from - width))});
        }
    }
    return changed;
}

// The load of a vector that is stored whole, which nothing reads.
inline bool is_idle(LoadInst &load) {
    if (!load.use_empty() || !load.getType()->isVectorTy()) return false;
    for (Instruction *next = load.getNextNode(); next; next = next->getNextNode())
        if (auto *store = dyn_cast<StoreInst>(next))
            if (store->getPointerOperand() == load.getPointerOperand()) return true;
    return false;
}

inline void store_components(StoreInst &store, const std::vector<Component> &changed) {
    auto *type = cast<FixedVectorType>(store.getValueOperand()->getType());
    const Align align = commonAlignment(store.getAlign(), component_bytes(store, type));
    IRBuilder<> builder(&store);
    for (const Component &component : changed) {
        Value *place = place_of(builder, type, store.getPointerOperand(), component.number);
        builder.CreateAlignedStore(component.value, place, align, store.isVolatile());
    }
    auto *value = cast<Instruction>(store.getValueOperand());
    auto *whole = cast<LoadInst>(value->getOperand(0));
    store.eraseFromParent();
    if (!value->use_empty()) return;
    value->eraseFromParent();
    if (whole->use_empty()) whole->eraseFromParent();
}

// The components of a loaded vector that are used; none if that is not known.
inline std::set<unsigned> used_components(const LoadInst &load) {
    std::set<unsigned> used;
    const unsigned width = cast<FixedVectorType>(load.getType())->getNumElements();
    for (const User *user : load.users()) {
        if (const auto *extract = dyn_cast<ExtractElementInst>(user)) {
            const auto *index = dyn_cast<ConstantInt>(extract->getIndexOperand());
            if (!index || index->getZExtValue() >= width) return {};
            used.insert(unsigned(index->getZExtValue()));
        } else if (const auto *shuffle = dyn_cast<ShuffleVectorInst>(user)) {
            for (const int from : shuffle->getShuffleMask())
                if (from >= 0 && shuffle->getOperand(unsigned(from) / width) == &load) used.insert(unsigned(from) % width);
        } else {
            return {};
        }
    }
    return used;
}

inline Value *load_component(IRBuilder<> &builder, LoadInst &load, Value *number) {
    auto *type = cast<FixedVectorType>(load.getType());
    const Align align = commonAlignment(load.getAlign(), component_bytes(load, type));
    Value *place = place_of(builder, type, load.getPointerOperand(), number);
    return builder.CreateAlignedLoad(type->getElementType(), place, align, load.isVolatile());
}

inline void load_components(LoadInst &load, const std::set<unsigned> &used) {
    IRBuilder<> builder(&load);
    Value *vector = UndefValue::get(load.getType());
    for (const unsigned number : used)
        vector = builder.CreateInsertElement(vector, load_component(builder, load, builder.getInt64(number)), uint64_t(number));
    load.replaceAllUsesWith(vector);
    load.eraseFromParent();
}

// Where one component of a loaded vector is used, of a computed number, and nothing is written before that; else none.
inline ExtractElementInst *computed_component(LoadInst &load) {
    auto *extract = load.hasOneUse() ? dyn_cast<ExtractElementInst>(load.user_back()) : nullptr;
    if (!extract || isa<Constant>(extract->getIndexOperand())) return nullptr;
    for (Instruction *next = load.getNextNode(); next != extract; next = next->getNextNode())
        if (!next || next->mayWriteToMemory()) return nullptr;
    return extract;
}

inline void load_computed(LoadInst &load, ExtractElementInst &extract) {
    IRBuilder<> builder(&extract);
    extract.replaceAllUsesWith(load_component(builder, load, extract.getIndexOperand()));
    extract.eraseFromParent();
    load.eraseFromParent();
}

// Has each load and store of some components of a vector be of these alone.
inline void narrow(Function &function) {
    std::vector<StoreInst *> stores;
    std::vector<LoadInst *> idle, loads;
    for (Instruction &instruction : instructions(function)) {
        if (auto *store = dyn_cast<StoreInst>(&instruction)) stores.push_back(store);
        if (auto *load = dyn_cast<LoadInst>(&instruction); load && is_idle(*load)) idle.push_back(load);
    }
    for (LoadInst *load : idle) load->eraseFromParent();
    for (StoreInst *store : stores) {
        auto *type = dyn_cast<FixedVectorType>(store->getValueOperand()->getType());
        const std::vector<Component> changed = type ? changed_components(*store) : std::vector<Component>();
        if (!changed.empty() && changed.size() < type->getNumElements()) store_components(*store, changed);
    }
    for (Instruction &instruction : instructions(function))
        if (auto *load = dyn_cast<LoadInst>(&instruction); load && isa<FixedVectorType>(load->getType())) loads.push_back(load);
    for (LoadInst *load : loads) {
        const std::set<unsigned> used = used_components(*load);
        if (!used.empty() && used.size() < cast<FixedVectorType>(load->getType())->getNumElements()) load_components(*load, used);
        else if (ExtractElementInst *extract = computed_component(*load)) load_computed(*load, *extract);
    }
}

} // namespace gpurace::components
#endif
