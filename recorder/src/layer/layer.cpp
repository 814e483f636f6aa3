// A layer of the OpenCL loader (OPENCL_LAYERS). Calls in which it has no part go to the driver, whose the handles are.
#include "layer.h"

#include <algorithm>
#include <cstdio>
#include <mutex>

namespace gpurace {

_cl_icd_dispatch driver;

namespace {

_cl_icd_dispatch layer;

// The host maps what kernels use, also where the program does not let itself do so.
cl_mem_flags mappable(cl_mem_flags flags) {
    return flags & ~cl_mem_flags(CL_MEM_HOST_NO_ACCESS | CL_MEM_HOST_READ_ONLY | CL_MEM_HOST_WRITE_ONLY);
}
cl_mem CL_API_CALL create_buffer(cl_context context, cl_mem_flags flags, size_t size, void *host, cl_int *error) {
    return driver.clCreateBuffer(context, mappable(flags), size, host, error);
}
cl_mem CL_API_CALL create_sub_buffer(cl_mem buffer, cl_mem_flags flags, cl_buffer_create_type type, const void *info, cl_int *error) {
    return driver.clCreateSubBuffer(buffer, mappable(flags), type, info, error);
}
cl_mem CL_API_CALL create_image(cl_context context, cl_mem_flags flags, const cl_image_format *format,
                                const cl_image_desc *shape, void *host, cl_int *error) {
    return driver.clCreateImage(context, mappable(flags), format, shape, host, error);
}

bool has_device(cl_device_type type) {
    cl_platform_id platforms[16];
    cl_uint count = 0, found = 0;
    driver.clGetPlatformIDs(16, platforms, &count);
    for (cl_uint at = 0; at < std::min(count, 16u) && found == 0; at++) driver.clGetDeviceIDs(platforms[at], type, 0, nullptr, &found);
    return found > 0;
}
// Kernels run on the host's threads whatever their device is. So a program that asks for a device of a type that none has, as for a GPU,
// gets those that are there.
bool are_others_given(cl_int error, cl_device_type type) {
    const cl_device_type usual = CL_DEVICE_TYPE_CPU | CL_DEVICE_TYPE_GPU | CL_DEVICE_TYPE_ACCELERATOR;
    if (error != CL_DEVICE_NOT_FOUND || !(type & usual) || has_device(type)) return false;
    static std::once_flag is_said;
    std::call_once(is_said, [] {
        std::fputs("gpurace-recorder: no device here is of the type that the program asks for; it gets what there is\n", stderr);
    });
    return true;
}
cl_int CL_API_CALL device_ids(cl_platform_id platform, cl_device_type type, cl_uint most, cl_device_id *devices, cl_uint *count) {
    const cl_int error = driver.clGetDeviceIDs(platform, type, most, devices, count);
    return are_others_given(error, type) ? driver.clGetDeviceIDs(platform, CL_DEVICE_TYPE_ALL, most, devices, count) : error;
}
cl_context CL_API_CALL context_of_type(const cl_context_properties *properties, cl_device_type type,
                                       void(CL_CALLBACK *notify)(const char *, const void *, size_t, void *), void *data, cl_int *error) {
    cl_int status = CL_SUCCESS;
    cl_context made = driver.clCreateContextFromType(properties, type, notify, data, &status);
    if (are_others_given(status, type)) // pocl 3.1 answers a context then, too
        made = driver.clCreateContextFromType(properties, CL_DEVICE_TYPE_ALL, notify, data, &status);
    if (error) *error = status;
    return made;
}

void limit_items(size_t &most) { most = settings().most_items ? std::min<size_t>(most, settings().most_items) : most; }

// The device says that its groups are of the size that a trace has room for, and where it is wanted that it is a GPU.
cl_int CL_API_CALL device_info(cl_device_id device, cl_device_info what, size_t size, void *value, size_t *size_ret) {
    const cl_int error = driver.clGetDeviceInfo(device, what, size, value, size_ret);
    if (error != CL_SUCCESS || !value) return error;
    if (what == CL_DEVICE_TYPE && settings().as_gpu) *static_cast<cl_device_type *>(value) = CL_DEVICE_TYPE_GPU;
    if (what == CL_DEVICE_MAX_WORK_GROUP_SIZE || what == CL_DEVICE_MAX_WORK_ITEM_SIZES)
        std::for_each_n(static_cast<size_t *>(value), std::min<size_t>(size / sizeof(size_t), 3), limit_items);
    return error;
}
cl_int CL_API_CALL group_info(cl_kernel kernel, cl_device_id device, cl_kernel_work_group_info what, size_t size,
                              void *value, size_t *size_ret) {
    const cl_int error = driver.clGetKernelWorkGroupInfo(kernel, device, what, size, value, size_ret);
    if (error == CL_SUCCESS && value && what == CL_KERNEL_WORK_GROUP_SIZE) limit_items(*static_cast<size_t *>(value));
    return error;
}

} // namespace
} // namespace gpurace

extern "C" {
#define SEEN __attribute__((visibility("default")))

SEEN CL_API_ENTRY cl_int CL_API_CALL clGetLayerInfo(cl_layer_info what, size_t size, void *value, size_t *size_ret) {
    const cl_layer_api_version version = CL_LAYER_API_VERSION_100;
    const bool is_name = what == CL_LAYER_NAME;
    const size_t length = is_name ? sizeof "gpurace" : sizeof version;
    if (size_ret) *size_ret = length;
    if (value && size < length) return CL_INVALID_VALUE;
    if (value) std::memcpy(value, is_name ? static_cast<const void *>("gpurace") : &version, length);
    return CL_SUCCESS;
}

SEEN CL_API_ENTRY cl_int CL_API_CALL clInitLayer(cl_uint count, const cl_icd_dispatch *target, cl_uint *made_count,
                                                 const cl_icd_dispatch **made) {
    using namespace gpurace;
    std::memcpy(static_cast<void *>(&driver), target, std::min(sizeof driver, count * sizeof(void *)));
    settings(); // a wrong one is said before the program does anything
    layer = driver;
    take_over_handles(layer);
    take_over_launches(layer);
    layer.clCreateBuffer = create_buffer;
    layer.clCreateSubBuffer = create_sub_buffer;
    layer.clCreateImage = create_image;
    layer.clGetDeviceIDs = device_ids;
    layer.clCreateContextFromType = context_of_type;
    layer.clGetDeviceInfo = device_info;
    layer.clGetKernelWorkGroupInfo = group_info;
    *made_count = sizeof layer / sizeof(void *);
    *made = &layer;
    return CL_SUCCESS;
}
}
