// Places in the source, of both recorders.
#ifndef GPURACE_RECORDER_PLACES_H
#define GPURACE_RECORDER_PLACES_H

#include "llvm/IR/DebugInfoMetadata.h"

#include <cctype>
#include <string>

namespace gpurace {

constexpr const char CALLED[] = " called at "; // between a place and that of the call that leads there

// FILE:LINE:COLUMN, and of what was inlined each call that leads there, the innermost one first; empty where there is none. It begins with
// no digit. The program's own text, which is input.cl to Oclgrind, is kernel.cl.
inline std::string text_of(const llvm::DILocation *at) {
    std::string text;
    for (; at; at = at->getInlinedAt()) {
        std::string file = at->getFilename().str();
        if (file.empty() || file == "input.cl") file = "kernel.cl";
        if (std::isdigit(static_cast<unsigned char>(file[0]))) file = "./" + file;
        text += (text.empty() ? "" : CALLED) + file + ":" + std::to_string(at->getLine()) + ":" + std::to_string(at->getColumn());
    }
    return text;
}

} // namespace gpurace
#endif
