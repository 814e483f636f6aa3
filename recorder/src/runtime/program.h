// An instrumented program: its code, its kernels, and what the numbers of its sites mean.
#pragma once

#include "../sites.h"

#include <cstdint>
#include <map>
#include <string>
#include <vector>

namespace gpurace {

struct Site {
    int kind = READ, space = GLOBAL;
    uint32_t bytes = 0;
    int entry = -1;    // of its kernel: the buffer that it accesses, or -1 where the code does not say which
    std::string place; // FILE:LINE:COLUMN, and the calls that lead there (instrument/rewriter.cpp)
};

// A buffer that a kernel knows: a pointer argument, or a variable, whose argument is -1.
struct Entry {
    int argument = -1, space = GLOBAL;
    uint64_t bytes = 0;
    uint32_t grain = 4;       // the bytes of a word of it in the trace
    bool has_atomics = false;
    std::string name, type;   // of its elements, after a space; empty if it is not known
    uint64_t address = 0;     // of global memory
};

struct Kernel {
    std::string name;
    std::string kinds;          // a letter for each argument (instrument/rewriter.cpp)
    bool has_names = false;     // it has atomics that may acquire
    bool has_copies = false;    // it has asynchronous copies, which one more item of each group does
    std::vector<Entry> entries;
    void (*run)(void *item, void **arguments) = nullptr;
};

// A text of the program, as it was given to OpenCL.
struct Source {
    std::string name, text;
};

struct Program {
    std::vector<Source> sources;
    std::vector<Site> sites;
    std::vector<std::string> notes; // what is not recorded
    std::map<std::string, Kernel> kernels;
    uint64_t frame_bytes = 0;       // what a work-item's calls need of its stack, at most
    bool has_variables = false;     // in global memory, so that each program needs code of its own
};

} // namespace gpurace
