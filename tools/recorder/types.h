// Types of buffers, of both recorders, as the kernel's debug information has them.
#ifndef GPURACE_RECORDER_TYPES_H
#define GPURACE_RECORDER_TYPES_H

#include "llvm/BinaryFormat/Dwarf.h"
#include "llvm/IR/DebugInfoMetadata.h"
#include "llvm/IR/GlobalVariable.h"

#include <string>

namespace gpurace::types {

using namespace llvm;

// A type without its names, const and volatile; null if it is not known.
inline const DIType *plain(const DIType *type) {
    for (const DIDerivedType *named; (named = dyn_cast_or_null<DIDerivedType>(type)); type = named->getBaseType())
        if (named->getTag() == dwarf::DW_TAG_pointer_type) break;
    return type;
}

// The type if it is of this kind: a struct, or an array, which a vector is too; else null.
inline const DICompositeType *composite_of(const DIType *type, unsigned tag) {
    const auto *composite = dyn_cast_or_null<DICompositeType>(plain(type));
    return composite && composite->getTag() == tag ? composite : nullptr;
}

// A number by its size and sign, as OpenCL C names it.
inline std::string number(const DIBasicType &type) {
    const uint64_t bits = type.getSizeInBits();
    if (type.getEncoding() == dwarf::DW_ATE_float) return bits == 16 ? "half" : bits == 32 ? "float" : "double";
    const bool is_signed = type.getEncoding() == dwarf::DW_ATE_signed || type.getEncoding() == dwarf::DW_ATE_signed_char;
    return (is_signed ? "" : "u") + std::string(bits == 8 ? "char" : bits == 16 ? "short" : bits == 32 ? "int" : "long");
}

// How many elements an array has in a dimension, or a vector; 0 if it is not known.
inline int64_t count_of(const DINode *range) {
    const auto *count = cast<DISubrange>(range)->getCount().dyn_cast<ConstantInt *>();
    return count ? count->getSExtValue() : 0;
}

inline std::string text_of(const DIType *given);

// An array of arrays has all its sizes here, the outermost first; `skipped` of them are left out.
inline std::string array(const DICompositeType &type, unsigned skipped) {
    std::string text = text_of(type.getBaseType());
    const DINodeArray ranges = type.getElements();
    for (unsigned at = ranges.size(); at-- > skipped;) text = "[" + std::to_string(count_of(ranges[at])) + "," + text + "]";
    return text;
}

// A type in JSON: "int" and "float4"; [8, TYPE] is an array; {"bytes": 32, "members": [[0, "position", "float4"], ..]} a struct, with the
// place of each member in bytes; of what is none of these, as a pointer or a union, the number of its bytes, 0 if it is not known.
inline std::string text_of(const DIType *given) {
    const DIType *type = plain(given);
    if (const auto *basic = dyn_cast_or_null<DIBasicType>(type)) return '"' + number(*basic) + '"';
    const std::string bytes = std::to_string(type ? type->getSizeInBits() / 8 : 0);
    if (const auto *several = composite_of(type, dwarf::DW_TAG_array_type)) {
        if (!several->isVector()) return array(*several, 0);
        const auto *basic = dyn_cast_or_null<DIBasicType>(plain(several->getBaseType()));
        return basic ? '"' + number(*basic) + std::to_string(count_of(several->getElements()[0])) + '"' : bytes;
    }
    const auto *structure = composite_of(type, dwarf::DW_TAG_structure_type);
    std::string members;
    for (const DINode *node : structure ? structure->getElements() : DINodeArray()) {
        const auto *member = dyn_cast<DIDerivedType>(node);
        if (!member || member->getName().empty()) return bytes;
        const std::string name = member->getName().str(), place = std::to_string(member->getOffsetInBits() / 8);
        members += (members.empty() ? "[" : ",[") + place + ",\"" + name + "\"," + text_of(member->getBaseType()) + "]";
    }
    return members.empty() ? bytes : "{\"bytes\":" + bytes + ",\"members\":[" + members + "]}";
}

// What an argument of a kernel points to; empty if that is not known.
inline std::string of_argument(const DISubprogram *kernel, unsigned number) {
    const DITypeRefArray types = kernel && kernel->getType() ? kernel->getType()->getTypeArray() : DITypeRefArray(nullptr);
    const bool is_known = types && number + 1 < types.size(); // the first is the type of the result
    const auto *pointer = dyn_cast_or_null<DIDerivedType>(is_known ? plain(types[number + 1]) : nullptr);
    return pointer ? text_of(pointer->getBaseType()) : "";
}

// An element of a variable that is an array, or the variable; empty if its type is not known.
inline std::string of_variable(const GlobalVariable &variable) {
    SmallVector<DIGlobalVariableExpression *, 1> known;
    variable.getDebugInfo(known);
    const DIType *type = known.empty() ? nullptr : known[0]->getVariable()->getType();
    const auto *several = composite_of(type, dwarf::DW_TAG_array_type);
    return several && !several->isVector() ? array(*several, 1) : type ? text_of(type) : "";
}

} // namespace gpurace::types
#endif
