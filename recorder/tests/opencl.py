"""As much of OpenCL as the tests need, by ctypes, so that no further package is needed."""
import array
import ctypes

POINTER = ctypes.c_void_p
ALL_DEVICES, COPY_HOST_PTR, BUILD_LOG = 0xFFFFFFFF, 1 << 5, 0x1183
LOADER = ctypes.CDLL(None)  # what is loaded already: the simulator loads itself into the program
if not hasattr(LOADER, "clGetPlatformIDs"):
    LOADER = ctypes.CDLL("libOpenCL.so.1")
for _name in ("clCreateContext", "clCreateCommandQueue", "clCreateProgramWithSource", "clCreateKernel", "clCreateBuffer", "clCreateUserEvent",
              "clLinkProgram", "clSVMAlloc", "clCreateContextFromType", "clCreateProgramWithBinary", "clCreateImage", "clCreateSampler",
              "clCreateProgramWithIL"):
    getattr(LOADER, _name).restype = POINTER


class Local:
    """An argument of local memory."""

    def __init__(self, size):
        self.size = size


def must(status, what):
    if status != 0:
        raise RuntimeError(f"{what}: error {status}")


def pointers(values):
    return (POINTER * len(values))(*values)


def sizes(values):
    return (ctypes.c_size_t * len(values))(*values) if values else None


class Buffer:
    def __init__(self, device, values, kind="i"):
        self.device, self.values = device, array.array(kind, values)
        self.size = len(self.values) * self.values.itemsize
        memory, error = (ctypes.c_char * self.size).from_buffer(self.values), ctypes.c_int(0)
        self.handle = POINTER(LOADER.clCreateBuffer(device.context, ctypes.c_ulong(COPY_HOST_PTR), ctypes.c_size_t(self.size), memory, ctypes.byref(error)))
        must(error.value, "clCreateBuffer")

    def read(self):
        memory = (ctypes.c_char * self.size).from_buffer(self.values)
        must(LOADER.clEnqueueReadBuffer(self.device.queue, self.handle, 1, ctypes.c_size_t(0), ctypes.c_size_t(self.size), memory, 0, None, None), "clEnqueueReadBuffer")
        return list(self.values)


class Image:
    """An image of 8 x 8 points of four values: bytes (B) or floats (f)."""
    ORIGIN, REGION = sizes((0, 0, 0)), sizes((8, 8, 1))

    def __init__(self, device, values, kind):
        self.device, self.values = device, array.array(kind, values)
        rgba, type_of_values, image_2d, error = 0x10B5, {"B": 0x10D2, "f": 0x10DE}[kind], 0x10F1, ctypes.c_int(0)
        shape = (ctypes.c_uint64 * 9)(image_2d, 8, 8, *[0] * 6)
        self.memory = (ctypes.c_char * (len(self.values) * self.values.itemsize)).from_buffer(self.values)
        self.handle = POINTER(LOADER.clCreateImage(device.context, ctypes.c_ulong(COPY_HOST_PTR), (ctypes.c_uint * 2)(rgba, type_of_values),
                                                   shape, self.memory, ctypes.byref(error)))
        must(error.value, "clCreateImage")

    def read(self):
        must(LOADER.clEnqueueReadImage(self.device.queue, self.handle, 1, self.ORIGIN, self.REGION, ctypes.c_size_t(0), ctypes.c_size_t(0), self.memory,
                                       0, None, None), "clEnqueueReadImage")
        return list(self.values)


class Device:
    """The first device, with a context and a queue."""

    def __init__(self):
        platform, self.device = POINTER(), POINTER()
        must(LOADER.clGetPlatformIDs(1, ctypes.byref(platform), None), "clGetPlatformIDs")
        must(LOADER.clGetDeviceIDs(platform, ctypes.c_ulong(ALL_DEVICES), 1, ctypes.byref(self.device), None), "clGetDeviceIDs")
        self.context = POINTER(LOADER.clCreateContext(None, 1, ctypes.byref(self.device), None, None, None))
        self.queue = POINTER(LOADER.clCreateCommandQueue(self.context, self.device, ctypes.c_ulong(0), None))

    def source(self, text):
        return POINTER(LOADER.clCreateProgramWithSource(self.context, 1, ctypes.byref(ctypes.c_char_p(text.encode())), None, None))

    def build(self, text, options=""):
        program = self.source(text)
        if LOADER.clBuildProgram(program, 0, None, options.encode(), None, None) != 0:
            log = ctypes.create_string_buffer(1 << 16)
            LOADER.clGetProgramBuildInfo(program, self.device, BUILD_LOG, ctypes.c_size_t(1 << 16), log, None)
            raise RuntimeError(log.value.decode())
        return program

    def kernel(self, program, name):
        error = ctypes.c_int(0)
        kernel = POINTER(LOADER.clCreateKernel(program, name.encode(), ctypes.byref(error)))
        must(error.value, "clCreateKernel " + name)
        return kernel

    def set_arguments(self, kernel, arguments):
        for at, value in enumerate(arguments):
            if isinstance(value, Buffer):
                must(LOADER.clSetKernelArg(kernel, at, ctypes.c_size_t(8), ctypes.byref(value.handle)), "clSetKernelArg")
            elif isinstance(value, Local):
                must(LOADER.clSetKernelArg(kernel, at, ctypes.c_size_t(value.size), None), "clSetKernelArg")
            elif isinstance(value, bytes):
                must(LOADER.clSetKernelArg(kernel, at, ctypes.c_size_t(len(value)), value), "clSetKernelArg")
            else:
                must(LOADER.clSetKernelArg(kernel, at, ctypes.c_size_t(4), ctypes.byref(ctypes.c_int(value))), "clSetKernelArg")

    def launch(self, kernel, size, local, arguments, offset=None):
        """Launches the kernel, and waits for it; answers OpenCL's error."""
        self.set_arguments(kernel, arguments)
        status = LOADER.clEnqueueNDRangeKernel(self.queue, kernel, len(size), sizes(offset), sizes(size), sizes(local), 0, None, None)
        return status or LOADER.clFinish(self.queue)
