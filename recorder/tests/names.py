"""Whether each acquire names the release whose value it took. `run FILE SEED STEPS` launches a kernel whose work-items write values of
their own into some words and note what they read; `check FILE FOLDER` compares that with the recorded names."""
import array
import glob
import struct
import sys

GROUPS, ITEMS, WORDS = 16, 64, 40
SOURCE = """
kernel void names(global atomic_uint *words, global uint *seen, uint seed, uint steps) {
    const uint me = get_global_id(0);
    uint number = 0, x = seed + me * 2654435761u;
    for (uint step = 0; step < steps; step++) {
        x = x * 1664525u + 1013904223u;
        global atomic_uint *word = words + (x >> 8) % 40;
        uint value = 0xffffffff, wanted = 0xfffffffe;
        switch (x >> 28 & 7) {
        case 0: case 1: value = atomic_exchange_explicit(word, me << 12 | ++number, memory_order_acq_rel, memory_scope_device); break;
        case 2: atomic_store_explicit(word, me << 12 | ++number, memory_order_release, memory_scope_device); break;
        case 3: atomic_fetch_or_explicit(word, 0u, memory_order_relaxed, memory_scope_device); break;
        case 4: atomic_compare_exchange_strong_explicit(word, &wanted, 7u, memory_order_acq_rel, memory_order_acquire, memory_scope_device);
                value = wanted; break;
        case 5: if (x & 0x1000) { *(global uint *)word = 0; break; } // a plain write: its value is of no release
        default: value = atomic_load_explicit(word, memory_order_acquire, memory_scope_device);
        }
        seen[me * steps + step] = value;
    }
}
"""
RECORD = struct.Struct("<BBBBHHI32s")
NONE = b"\xff" * 8


def run(path, seed, steps):
    from opencl import Buffer, Device
    device = Device()
    kernel = device.kernel(device.build(SOURCE, "-cl-std=CL3.0"), "names")
    seen = Buffer(device, [0] * (GROUPS * ITEMS * steps), "I")
    if device.launch(kernel, (GROUPS * ITEMS,), (ITEMS,), [Buffer(device, [0] * WORDS, "I"), seen, seed, steps]) != 0:
        sys.exit("the kernel could not be launched")
    seen.read()
    with open(path, "wb") as out:
        seen.values.tofile(out)


def check(path, folder):
    seen = array.array("I")
    with open(path, "rb") as given:
        seen.frombytes(given.read())
    steps, acquires, wrong = len(seen) // (GROUPS * ITEMS), 0, 0
    buffers = [line.split() for line in open(folder + "/buffers")]
    first = next(int(line[1]) for line in buffers if line[3] == "seen")
    for name in glob.glob(folder + "/group*.gpurace"):
        with open(name, "rb") as given:
            data = given.read()
        group, at = struct.unpack_from("<H", data, 4)[0], [0] * ITEMS
        for kind, _, _, order, item, _, word, names in RECORD.iter_unpack(data[12:-44]):
            if kind == 1 and word >= first:  # the write of `seen` ends a step
                at[item] += 1
            elif order in (2, 4):
                value = seen[(group * ITEMS + item) * steps + at[item]]
                named = [names[k:k + 8] for k in range(0, 32, 8) if names[k:k + 8] != NONE]
                who, number = value >> 12, value & 0xFFF
                acquires += 1
                wrong += named != ([struct.pack("<HHI", who // ITEMS, who % ITEMS, number - 1)] if value else [])
    print(f"{acquires} acquires, {wrong} of them name another release than their value's")
    return 1 if wrong or not acquires else 0


if __name__ == "__main__":
    if sys.argv[1] == "run":
        run(sys.argv[2], int(sys.argv[3]), int(sys.argv[4]))
    else:
        sys.exit(check(sys.argv[2], sys.argv[3]))
