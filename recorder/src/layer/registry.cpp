#include "layer.h"

#include <mutex>
#include <regex>

namespace gpurace {
namespace {

using BuildNotice = void(CL_CALLBACK *)(cl_program, void *);

struct Known { // of a program
    std::vector<Unit> units; // none, where a part of it has no text
    std::shared_ptr<const Program> built;
    std::string reason;      // why it is not built
};

std::mutex lock, build_lock;
// They live as long as any thread of the program.
auto &programs = *new std::map<cl_program, Known>;
auto &kernels = *new std::map<cl_kernel, Launchable>;
auto &shared = *new std::map<char *, size_t>;

void note_program(cl_program program, Known known) {
    const std::lock_guard<std::mutex> held(lock);
    if (program) programs[program] = std::move(known);
}

cl_program without_text(cl_program program, const char *reason) {
    note_program(program, {{}, nullptr, reason});
    return program;
}

void build_units(cl_program program, const std::vector<Unit> &units) {
    const auto devices = list_of<cl_device_id>(driver.clGetProgramInfo, program, CL_PROGRAM_DEVICES);
    Known known{units, nullptr, ""};
    const std::lock_guard<std::mutex> held(build_lock);
    known.built = build(units, devices[0], known.reason);
    if (!known.built) known.reason = "its program could not be compiled for recording: " + known.reason;
    note_program(program, std::move(known));
}

// The texts of a program, or of one that is linked of several.
Known joined(const std::vector<cl_program> &parts) {
    const std::lock_guard<std::mutex> held(lock);
    Known whole{{}, nullptr, "its program was not built"};
    for (const cl_program part : parts) {
        const auto found = programs.find(part);
        if (found == programs.end()) return {{}, nullptr, "a part of its program is not known"};
        if (found->second.units.empty()) return {{}, nullptr, found->second.reason};
        whole.units.insert(whole.units.end(), found->second.units.begin(), found->second.units.end());
    }
    return whole;
}

// The program's options, then the user's. The user's standard replaces the program's, since a driver may take the first one.
std::string all_options(const char *options) {
    static const std::regex standard("(^|\\s)-cl-std=\\S*");
    const std::string more = settings().build_options;
    std::string own = options ? options : "";
    if (std::regex_search(more, standard)) own = std::regex_replace(own, standard, "");
    return own + (more.empty() ? "" : " " + more);
}

cl_program CL_API_CALL create_with_source(cl_context context, cl_uint count, const char **texts, const size_t *lengths, cl_int *error) {
    const cl_program program = driver.clCreateProgramWithSource(context, count, texts, lengths, error);
    std::string source;
    for (cl_uint at = 0; program && at < count; at++)
        source.append(texts[at], lengths && lengths[at] ? lengths[at] : std::strlen(texts[at]));
    note_program(program, {{{std::move(source), "", {}}}, nullptr, "its program was not built"});
    return program;
}

cl_program CL_API_CALL create_with_il(cl_context context, const void *il, size_t length, cl_int *error) {
    return without_text(driver.clCreateProgramWithIL(context, il, length, error), "its program is SPIR-V");
}

cl_program CL_API_CALL create_with_builtins(cl_context context, cl_uint count, const cl_device_id *devices,
                                            const char *names, cl_int *error) {
    const cl_program program = driver.clCreateProgramWithBuiltInKernels(context, count, devices, names, error);
    return without_text(program, "it is built into the device");
}

// A binary is refused as one that is out of date, so that the program goes back to its text.
cl_program CL_API_CALL create_with_binary(cl_context, cl_uint count, const cl_device_id *, const size_t *,
                                          const unsigned char **, cl_int *states, cl_int *error) {
    for (cl_uint at = 0; states && at < count; at++) states[at] = CL_INVALID_BINARY;
    if (error) *error = CL_INVALID_BINARY;
    return nullptr;
}

cl_int CL_API_CALL build_program(cl_program program, cl_uint count, const cl_device_id *devices, const char *options,
                                 BuildNotice notify, void *data) {
    const std::string all = all_options(options);
    const cl_int error = driver.clBuildProgram(program, count, devices, all.c_str(), nullptr, nullptr);
    Known known = joined({program});
    for (Unit &unit : known.units) unit.options = all;
    if (error == CL_SUCCESS && !known.units.empty()) build_units(program, known.units);
    if (notify) notify(program, data);
    return notify && error == CL_BUILD_PROGRAM_FAILURE ? CL_SUCCESS : error;
}

cl_int CL_API_CALL compile_program(cl_program program, cl_uint count, const cl_device_id *devices, const char *options,
                                   cl_uint header_count, const cl_program *headers, const char **names, BuildNotice notify, void *data) {
    const std::string all = all_options(options);
    const cl_int error = driver.clCompileProgram(program, count, devices, all.c_str(), header_count, headers, names, nullptr, nullptr);
    Known known = joined({program});
    if (error == CL_SUCCESS && known.units.size() == 1) {
        known.units[0] = {known.units[0].source, all, {}};
        for (cl_uint at = 0; at < header_count; at++)
            if (const Known header = joined({headers[at]}); header.units.size() == 1)
                known.units[0].headers.push_back({names[at], header.units[0].source});
        note_program(program, std::move(known));
    }
    if (notify) notify(program, data);
    return notify && error == CL_COMPILE_PROGRAM_FAILURE ? CL_SUCCESS : error;
}

// A library is a part of programs that are linked later.
cl_program CL_API_CALL link_program(cl_context context, cl_uint count, const cl_device_id *devices, const char *options,
                                    cl_uint part_count, const cl_program *parts, BuildNotice notify, void *data, cl_int *error) {
    const cl_program program = driver.clLinkProgram(context, count, devices, options, part_count, parts, nullptr, nullptr, error);
    const Known known = joined({parts, parts + part_count});
    note_program(program, known);
    const bool is_library = options && std::strstr(options, "-create-library");
    if (program && !is_library && !known.units.empty()) build_units(program, known.units);
    if (notify) notify(program, data);
    return program;
}

void note_kernel(cl_kernel kernel, cl_program program) {
    const std::string name = name_of(kernel);
    const std::lock_guard<std::mutex> held(lock);
    Launchable &made = kernels[kernel] = {};
    const auto found = programs.find(program);
    made.reason = found == programs.end() ? "its program has no text" : found->second.reason;
    if (found == programs.end() || !found->second.built) return;
    made.program = found->second.built;
    const auto known = made.program->kernels.find(name);
    if (known != made.program->kernels.end()) made.kernel = &known->second;
    else made.program = nullptr, made.reason = "it is not in its program's text";
}

cl_kernel CL_API_CALL create_kernel(cl_program program, const char *name, cl_int *error) {
    const cl_kernel kernel = driver.clCreateKernel(program, name, error);
    if (kernel) note_kernel(kernel, program);
    return kernel;
}

cl_int CL_API_CALL create_kernels(cl_program program, cl_uint count, cl_kernel *made, cl_uint *made_count) {
    cl_uint number = 0;
    const cl_int error = driver.clCreateKernelsInProgram(program, count, made, &number);
    if (made_count) *made_count = number;
    for (cl_uint at = 0; error == CL_SUCCESS && made && at < number; at++) note_kernel(made[at], program);
    return error;
}

cl_kernel CL_API_CALL clone_kernel(cl_kernel of, cl_int *error) {
    const cl_kernel kernel = driver.clCloneKernel(of, error);
    const std::lock_guard<std::mutex> held(lock);
    if (kernel) kernels[kernel] = kernels[of];
    return kernel;
}

cl_int CL_API_CALL release_kernel(cl_kernel kernel) {
    const auto count = info_of<cl_uint>(driver.clGetKernelInfo, kernel, CL_KERNEL_REFERENCE_COUNT);
    const std::lock_guard<std::mutex> held(lock);
    if (count == 1) kernels.erase(kernel);
    return driver.clReleaseKernel(kernel);
}

cl_int CL_API_CALL set_argument(cl_kernel kernel, cl_uint at, size_t size, const void *value) {
    const cl_int error = driver.clSetKernelArg(kernel, at, size, value);
    const std::lock_guard<std::mutex> held(lock);
    if (error != CL_SUCCESS) return error;
    Launchable &of = kernels[kernel];
    of.pointers.erase(at);
    if (!value) of.local_bytes[at] = size, of.values[at].assign(sizeof(void *), 0);
    else of.values[at].assign(static_cast<const char *>(value), static_cast<const char *>(value) + size);
    return error;
}

cl_int CL_API_CALL set_pointer(cl_kernel kernel, cl_uint at, const void *value) {
    const cl_int error = driver.clSetKernelArgSVMPointer(kernel, at, value);
    const std::lock_guard<std::mutex> held(lock);
    if (error != CL_SUCCESS) return error;
    kernels[kernel].pointers.insert(at);
    set_value(kernels[kernel].values[at], value);
    return error;
}

cl_int CL_API_CALL set_exec_info(cl_kernel kernel, cl_kernel_exec_info what, size_t size, const void *value) {
    const cl_int error = driver.clSetKernelExecInfo(kernel, what, size, value);
    const std::lock_guard<std::mutex> held(lock);
    auto *pointers = static_cast<char *const *>(value);
    if (error == CL_SUCCESS && what == CL_KERNEL_EXEC_INFO_SVM_PTRS)
        kernels[kernel].more_pointers = {pointers, pointers + size / sizeof *pointers};
    return error;
}

void *CL_API_CALL svm_alloc(cl_context context, cl_svm_mem_flags flags, size_t size, cl_uint alignment) {
    void *memory = driver.clSVMAlloc(context, flags, size, alignment);
    const std::lock_guard<std::mutex> held(lock);
    if (memory) shared[static_cast<char *>(memory)] = size;
    return memory;
}

void CL_API_CALL svm_free(cl_context context, void *memory) {
    const std::lock_guard<std::mutex> held(lock);
    shared.erase(static_cast<char *>(memory));
    driver.clSVMFree(context, memory);
}

} // namespace

Launchable launchable(cl_kernel kernel) {
    const std::lock_guard<std::mutex> held(lock);
    const auto found = kernels.find(kernel);
    if (found != kernels.end()) return found->second;
    return {nullptr, nullptr, "it was not made by the program", {}, {}, {}, {}};
}

std::string name_of(cl_kernel kernel) {
    return text_of(driver.clGetKernelInfo, kernel, CL_KERNEL_FUNCTION_NAME);
}

std::pair<char *, size_t> shared_at(char *pointer) {
    const std::lock_guard<std::mutex> held(lock);
    const auto next = shared.upper_bound(pointer);
    if (next == shared.begin()) return {};
    const auto [start, bytes] = *std::prev(next);
    return pointer < start + bytes ? std::pair(start, bytes) : std::pair<char *, size_t>();
}

void take_over_handles(_cl_icd_dispatch &layer) {
    layer.clCreateProgramWithSource = create_with_source;
    layer.clCreateProgramWithIL = create_with_il;
    layer.clCreateProgramWithBuiltInKernels = create_with_builtins;
    layer.clCreateProgramWithBinary = create_with_binary;
    layer.clBuildProgram = build_program;
    layer.clCompileProgram = compile_program;
    layer.clLinkProgram = link_program;
    layer.clCreateKernel = create_kernel;
    layer.clCreateKernelsInProgram = create_kernels;
    layer.clCloneKernel = clone_kernel;
    layer.clReleaseKernel = release_kernel;
    layer.clSetKernelArg = set_argument;
    layer.clSetKernelArgSVMPointer = set_pointer;
    layer.clSetKernelExecInfo = set_exec_info;
    layer.clSVMAlloc = svm_alloc;
    layer.clSVMFree = svm_free;
}

} // namespace gpurace
