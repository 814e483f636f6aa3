"""A small program: `list` says which devices there are, `run` launches a kernel of two groups of eight work-items, which each read a
word and write it."""
import ctypes
import sys

try:
    from opencl import ALL_DEVICES, LOADER, POINTER, Buffer, Device, must
except OSError:
    sys.exit("there is no loader of OpenCL: apt-get install ocl-icd-libopencl1")

SOURCE = "kernel void small(global const int *in, global int *out) { out[get_global_id(0)] = in[get_global_id(0)] + 1; }"
NAME, VERSION = 0x102B, 0x102F


def devices():
    platforms, number = (POINTER * 16)(), ctypes.c_uint(0)
    LOADER.clGetPlatformIDs(16, platforms, ctypes.byref(number))
    for platform in platforms[:number.value]:
        found, many = (POINTER * 16)(), ctypes.c_uint(0)
        if LOADER.clGetDeviceIDs(POINTER(platform), ctypes.c_ulong(ALL_DEVICES), 16, found, ctypes.byref(many)) == 0:
            yield from found[:many.value]


def text_of(device, what):
    text = ctypes.create_string_buffer(1024)
    LOADER.clGetDeviceInfo(POINTER(device), what, ctypes.c_size_t(1024), text, None)
    return text.value.decode()


def run():
    device = Device()
    given, taken = Buffer(device, range(16)), Buffer(device, [0] * 16)
    must(device.launch(device.kernel(device.build(SOURCE), "small"), (16,), (8,), [given, taken]), "the kernel could not be launched")
    if taken.read() != [number + 1 for number in given.values]:
        sys.exit("the kernel has computed something else than it should")


if __name__ == "__main__":
    if not list(devices()):
        sys.exit("there is no device of OpenCL: apt-get install pocl-opencl-icd")
    if sys.argv[1:] == ["run"]:
        run()
    else:
        for each in devices():
            print(f"device: {text_of(each, NAME)} ({text_of(each, VERSION)})")
