/*
 * Runs the kernel of sum_tiles.cl on 64 numbers and prints the sum, as any program that uses OpenCL does.
 *
 *     sum_tiles FILE.cl MISTAKE
 */
#define CL_TARGET_OPENCL_VERSION 120
#include <CL/cl.h>
#include <stdio.h>
#include <stdlib.h>

enum { NUMBERS = 64, TILE = 16, GROUPS = NUMBERS / TILE };

static void must(int holds, const char *what) {
    if (holds)
        return;
    fprintf(stderr, "sum_tiles: %s failed\n", what);
    exit(1);
}

static char *read_text(const char *name) {
    static char text[16384];
    FILE *file = fopen(name, "rb");
    must(file != NULL, name);
    const size_t length = fread(text, 1, sizeof text - 1, file);
    text[length] = 0;
    fclose(file);
    return text;
}

static cl_kernel build(cl_context context, cl_device_id device, const char *name, const char *mistake) {
    const char *text = read_text(name);
    char options[64];
    cl_int error;
    snprintf(options, sizeof options, "-DMISTAKE=%s", mistake);
    cl_program program = clCreateProgramWithSource(context, 1, &text, NULL, &error);
    must(error == CL_SUCCESS, "clCreateProgramWithSource");
    must(clBuildProgram(program, 1, &device, options, NULL, NULL) == CL_SUCCESS, "clBuildProgram");
    cl_kernel kernel = clCreateKernel(program, "sum_tiles", &error);
    must(error == CL_SUCCESS, "clCreateKernel");
    return kernel;
}

static int sum(cl_context context, cl_command_queue queue, cl_kernel kernel) {
    cl_int input[NUMBERS], sums[GROUPS], total = 0;
    const size_t global = NUMBERS, local = TILE;
    for (cl_int at = 0; at < NUMBERS; at++)
        input[at] = at;
    cl_mem numbers = clCreateBuffer(context, CL_MEM_READ_ONLY | CL_MEM_COPY_HOST_PTR, sizeof input, input, NULL);
    cl_mem result = clCreateBuffer(context, CL_MEM_READ_WRITE, sizeof sums, NULL, NULL);
    cl_mem marks = clCreateBuffer(context, CL_MEM_READ_WRITE, NUMBERS, NULL, NULL);
    clSetKernelArg(kernel, 0, sizeof numbers, &numbers);
    clSetKernelArg(kernel, 1, sizeof result, &result);
    clSetKernelArg(kernel, 2, sizeof marks, &marks);
    must(clEnqueueNDRangeKernel(queue, kernel, 1, NULL, &global, &local, 0, NULL, NULL) == CL_SUCCESS, "the launch");
    must(clEnqueueReadBuffer(queue, result, CL_TRUE, 0, sizeof sums, sums, 0, NULL, NULL) == CL_SUCCESS, "reading");
    for (int group = 0; group < GROUPS; group++)
        total += sums[group];
    return total;
}

int main(int count, char **words) {
    cl_platform_id platform;
    cl_device_id device;
    must(count == 3, "usage: sum_tiles FILE.cl MISTAKE");
    must(clGetPlatformIDs(1, &platform, NULL) == CL_SUCCESS, "clGetPlatformIDs");
    must(clGetDeviceIDs(platform, CL_DEVICE_TYPE_ALL, 1, &device, NULL) == CL_SUCCESS, "clGetDeviceIDs");
    cl_context context = clCreateContext(NULL, 1, &device, NULL, NULL, NULL);
    must(context != NULL, "clCreateContext");
    cl_command_queue queue = clCreateCommandQueue(context, device, 0, NULL);
    must(queue != NULL, "clCreateCommandQueue");
    printf("sum %d\n", sum(context, queue, build(context, device, words[1], words[2])));
    return 0;
}
