#include "instrument.h"

#include "llvm/AsmParser/Parser.h"
#include "llvm/IR/DebugInfo.h"
#include "llvm/IR/InstIterator.h"
#include "llvm/IR/Verifier.h"
#include "llvm/IRReader/IRReader.h"
#include "llvm/Linker/Linker.h"
#include "llvm/Passes/PassBuilder.h"
#include "llvm/Support/SourceMgr.h"
#include "llvm/Transforms/IPO/AlwaysInliner.h"
#include "llvm/Transforms/Scalar/InferAddressSpaces.h"
#include "llvm/Transforms/Scalar/SROA.h"
#include "llvm/Transforms/Utils/Cloning.h"

using namespace llvm;

namespace gpurace {
namespace {

void split_called_kernels(Module &module) {
    for (Function &kernel : module) {
        if (!is_kernel(kernel) || kernel.use_empty()) continue;
        ValueToValueMapTy values;
        Function *called = CloneFunction(&kernel, values);
        called->setLinkage(GlobalValue::InternalLinkage);
        called->setCallingConv(CallingConv::SPIR_FUNC);
        kernel.replaceUsesWithIf(called, [](Use &use) { return isa<CallInst>(use.getUser()); });
        for (User *user : called->users()) cast<CallInst>(user)->setCallingConv(CallingConv::SPIR_FUNC);
    }
}

void run_passes(Module &module) {
    LoopAnalysisManager loops;
    FunctionAnalysisManager functions;
    CGSCCAnalysisManager cycles;
    ModuleAnalysisManager modules;
    PassBuilder builder;
    builder.registerModuleAnalyses(modules);
    builder.registerCGSCCAnalyses(cycles);
    builder.registerFunctionAnalyses(functions);
    builder.registerLoopAnalyses(loops);
    builder.crossRegisterProxies(loops, functions, cycles, modules);
    ModulePassManager passes;
    passes.addPass(AlwaysInlinerPass());
    FunctionPassManager each;
    each.addPass(SROAPass());
    each.addPass(InferAddressSpacesPass(GENERIC_SPACE));
    passes.addPass(createModuleToFunctionPassAdaptor(std::move(each)));
    passes.run(module, modules);
}

// The text of a module without its address spaces.
std::string flattened(Module &module) {
    std::string text, out;
    raw_string_ostream stream(text);
    module.print(stream, nullptr);
    stream.flush();
    for (size_t at = 0; at < text.size();) {
        if (!text.compare(at, 10, "addrspace(")) at = text.find(')', at) + 1;
        else if (!text.compare(at, 13, "addrspacecast")) out += "bitcast", at += 13;
        else if (!text.compare(at, 2, "c\"")) { // a string
            const size_t end = text.find('"', at + 2) + 1;
            out.append(text, at, end - at), at = end;
        } else out += text[at++];
    }
    return out;
}

// Variables of the program in global memory, which the host looks up.
std::set<std::string> program_variables(const Module &module) {
    std::set<std::string> names;
    for (const GlobalVariable &variable : module.globals())
        if (variable.getAddressSpace() == GLOBAL_SPACE && variable.hasExternalLinkage() && !variable.isDeclaration())
            names.insert(variable.getName().str());
    return names;
}

// Only what the host looks up can be seen from outside, so that programs don't meet.
void hide_all_but(Module &module, const std::set<std::string> &shared) {
    for (GlobalValue &value : module.global_values()) {
        const bool is_shared = shared.count(value.getName().str()) > 0;
        const bool is_here = !value.isDeclaration() && !value.hasAvailableExternallyLinkage();
        if (is_here && !is_shared && !value.getName().startswith(RUN_PREFIX) && !value.getName().startswith("llvm.")) {
            value.setLinkage(GlobalValue::InternalLinkage);
            value.setVisibility(GlobalValue::DefaultVisibility);
            value.setDSOLocal(true);
        } else if (!is_here || is_shared) {
            value.setDSOLocal(false);
        }
    }
}

} // namespace

void inline_calls(Module &module) {
    split_called_kernels(module);
    for (Function &function : module) {
        function.removeFnAttr(Attribute::OptimizeNone);
        if (function.isDeclaration() || is_kernel(function)) continue;
        function.removeFnAttr(Attribute::NoInline);
        function.addFnAttr(Attribute::AlwaysInline);
    }
    run_passes(module);
    for (Function &function : make_early_inc_range(module))
        if (!function.isDeclaration() && function.use_empty() && !is_kernel(function)) function.eraseFromParent();
}

void strip(Module &module) {
    StripDebugInfo(module);
    for (Function &function : module) {
        function.setCallingConv(CallingConv::C);
        for (Instruction &instruction : instructions(function)) {
            instruction.setAAMetadata(AAMDNodes());
            if (auto *call = dyn_cast<CallInst>(&instruction)) call->setCallingConv(CallingConv::C);
        }
    }
}

std::unique_ptr<Module> link_for_host(Module &module, const char *builtins, LLVMContext &context) {
    SMDiagnostic fault;
    const std::set<std::string> shared = program_variables(module);
    std::unique_ptr<Module> flat = parseAssemblyString(flattened(module), fault, context);
    std::unique_ptr<Module> library = flat ? getLazyIRFileModule(builtins, fault, context) : nullptr;
    if (!library) return fault.print("instrument", errs()), nullptr;
    if (Linker::linkModules(*flat, std::move(library), Linker::LinkOnlyNeeded)) return nullptr;
    hide_all_but(*flat, shared);
    return verifyModule(*flat, &errs()) ? nullptr : std::move(flat);
}

} // namespace gpurace
