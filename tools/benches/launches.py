"""What `tools/bench record` records: a tiled product of two square matrices, or launches of a small kernel.

launches.py product SIDE | small LAUNCHES GROUPS ITEMS
"""
import pathlib
import sys

sys.path.insert(0, str(pathlib.Path(__file__).resolve().parent.parent.parent / "recorder" / "tests"))
from opencl import Buffer, Device, must  # noqa: E402

TILE = 16
TEXT = """
kernel void product(global const float *a, global const float *b, global float *c, int side) {
    local float s[16][16], t[16][16];
    const int x = get_local_id(0), y = get_local_id(1), column = get_global_id(0), row = get_global_id(1);
    float sum = 0;
    for (int at = 0; at < side; at += 16) {
        s[y][x] = a[row * side + at + x];
        t[y][x] = b[(at + y) * side + column];
        barrier(CLK_LOCAL_MEM_FENCE);
        for (int k = 0; k < 16; k++) sum += s[y][k] * t[k][x];
        barrier(CLK_LOCAL_MEM_FENCE);
    }
    c[row * side + column] = sum;
}
kernel void small(global int *out) { out[get_global_id(0)] += 1; }
"""


def product(device, program, side):
    a, b, c = (Buffer(device, [1.0] * (side * side), "f") for _ in range(3))
    must(device.launch(device.kernel(program, "product"), (side, side), (TILE, TILE), [a, b, c, side]), "product")


def small(device, program, launches, groups, items):
    kernel, out = device.kernel(program, "small"), Buffer(device, [0] * (groups * items))
    for _ in range(launches):
        must(device.launch(kernel, (groups * items,), (items,), [out]), "small")


if __name__ == "__main__":
    made = Device()
    {"product": product, "small": small}[sys.argv[1]](made, made.build(TEXT), *map(int, sys.argv[2:]))
