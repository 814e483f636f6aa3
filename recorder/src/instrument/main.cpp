// Instruments the kernels of modules of OpenCL C, and links them for the host. rewriter.cpp says what SITES has.
#include "instrument.h"

#include "llvm/Bitcode/BitcodeWriter.h"
#include "llvm/IR/Verifier.h"
#include "llvm/IRReader/IRReader.h"
#include "llvm/Linker/Linker.h"
#include "llvm/Support/SourceMgr.h"

using namespace llvm;

constexpr int WRONG_WORDS = 3, FAILED = 70;

int main(int count, char **words) {
    if (count < 5) return errs() << "usage: instrument-kernels BUILTINS.bc OUT.bc SITES KERNELS.bc..\n", WRONG_WORDS;
    LLVMContext context, host_context;
    context.setOpaquePointers(false);
    host_context.setOpaquePointers(true);
    SMDiagnostic fault;
    std::unique_ptr<Module> module = parseIRFile(words[4], fault, context);
    for (int at = 5; module && at < count; at++) {
        std::unique_ptr<Module> part = parseIRFile(words[at], fault, context);
        if (!part || Linker::linkModules(*module, std::move(part))) module = nullptr;
    }
    if (!module) return fault.print("instrument-kernels", errs()), FAILED;
    std::error_code error;
    raw_fd_ostream out(words[2], error), sites(words[3], error);
    if (error) return errs() << words[3] << ": " << error.message() << '\n', FAILED;
    gpurace::inline_calls(*module);
    unsigned next_site = 0;
    for (Function &function : make_early_inc_range(*module)) // what that adds is no kernel
        if (gpurace::is_kernel(function)) gpurace::instrument_kernel(function, sites, next_site);
    gpurace::strip(*module);
    if (verifyModule(*module, &errs())) return FAILED;
    const std::unique_ptr<Module> linked = gpurace::link_for_host(*module, words[1], host_context);
    if (!linked) return FAILED;
    WriteBitcodeToFile(*linked, out);
    out.flush(), sites.flush();
    return out.has_error() || sites.has_error() ? errs() << "no room for the code\n", FAILED : 0;
}
