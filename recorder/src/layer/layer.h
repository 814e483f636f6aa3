// What the parts of the layer know of each other.
#pragma once

#include "../runtime/launch.h"

#include <CL/cl_layer.h>

#include <cstring>
#include <set>

namespace gpurace {

extern _cl_icd_dispatch driver; // the calls that the program's own go on to

// Give a layer's calls that make programs, kernels and shared memory, and those that launch kernels, their own parts.
void take_over_handles(_cl_icd_dispatch &layer);
void take_over_launches(_cl_icd_dispatch &layer);

template <class Value> Value value_of(const std::vector<char> &bytes) {
    Value value{};
    std::memcpy(&value, bytes.data(), std::min(bytes.size(), sizeof value));
    return value;
}

template <class Value> void set_value(std::vector<char> &bytes, const Value &value) {
    bytes.resize(sizeof value);
    std::memcpy(bytes.data(), &value, sizeof value);
}

// What one of the calls clGet..Info says; zeros where it fails.
template <class Value, class Get, class Handle> Value info_of(Get get, Handle handle, cl_uint what) {
    Value value{};
    get(handle, what, sizeof value, &value, nullptr);
    return value;
}

// The same of what is a list or a text of any length.
template <class Element, class Get, class Handle> std::vector<Element> list_of(Get get, Handle handle, cl_uint what) {
    size_t size = 0;
    get(handle, what, 0, nullptr, &size);
    std::vector<Element> list(size / sizeof(Element));
    if (size > 0) get(handle, what, size, list.data(), nullptr);
    return list;
}
template <class Get, class Handle> std::string text_of(Get get, Handle handle, cl_uint what) {
    const std::vector<char> text = list_of<char>(get, handle, what);
    return text.empty() ? "" : text.data();
}

// A text that is compiled by itself, as clBuildProgram and clCompileProgram do.
struct Unit {
    std::string source, options;
    std::vector<Source> headers; // those that clCompileProgram was given
};
// Compiles a program for the host, instrumented, keeps and loads it. Null where that can't be; `error` then says why.
std::shared_ptr<Program> build(const std::vector<Unit> &units, cl_device_id device, std::string &error);

// A kernel and the arguments that it has. Without an instrumented program it runs on the driver, for `reason`.
struct Launchable {
    std::shared_ptr<const Program> program;
    const Kernel *kernel = nullptr;
    std::string reason;
    std::map<uint32_t, std::vector<char>> values;
    std::map<uint32_t, uint64_t> local_bytes;
    std::set<uint32_t> pointers;       // arguments that are pointers to shared virtual memory
    std::vector<char *> more_pointers; // what clSetKernelExecInfo names

    bool has_all_arguments() const { return values.size() >= kernel->kinds.size(); }
};
Launchable launchable(cl_kernel kernel);
std::string name_of(cl_kernel kernel);

// The allocation of shared virtual memory that a pointer points into: its start and its bytes, or zeros.
std::pair<char *, size_t> shared_at(char *pointer);

// Gives the request its arguments and the places of its buffers, which are mapped until the last copy of what this
// answers is gone. Null where one can't be mapped; `reason` then says why.
std::shared_ptr<void> map_arguments(cl_context context, cl_device_id device, const Launchable &launched,
                                    Request &request, std::string &reason);

} // namespace gpurace
