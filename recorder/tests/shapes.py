"""Kernels with barriers in branches and loops of generated shapes, each with the same program in Python, where a work-item is a generator
that yields at its barriers. `shapes.py SEED COUNT` launches them and compares what they compute.

Work-items hand values to each other through local memory, between two barriers each time, so that no launch has a race. A kernel whose
name ends in `_apart` has two halves of its items at different barriers, which is divergent, and has no order for what they hand over.
"""
import random
import sys

ITEMS, GROUPS = 12, 2


class Shape:
    """Grows the text of a kernel and that of its Python program together."""

    def __init__(self, seed):
        self.random, self.c, self.python, self.depth, self.loops = random.Random(seed), [], [], 1, 0
        self.is_apart = self.random.random() < 0.2

    def put(self, c, python):
        self.c.append("    " * self.depth + c)
        if python:
            self.python.append("    " * self.depth + python)

    def block(self, c, python, body):
        self.put(c + " {", python + ":")
        self.depth += 1
        self.put("v += 0;", "v += 0")
        body()
        self.depth -= 1
        self.put("}", "")

    def barrier(self):
        self.put("barrier(CLK_LOCAL_MEM_FENCE);", "yield")

    def hand_over(self, first=0, count=ITEMS):
        """Each item of the range gives its value, and takes that of another one of it."""
        step, factor = self.random.randrange(count), self.random.choice((2, 3, 5))
        other = f"{first} + (lid - {first} + {step}) % {count}"
        self.put("tile[lid] = v;", "tile[lid] = v")
        self.barrier()
        self.put(f"v = (v * {factor} + tile[{other}]) % 1009;", f"v = (v * {factor} + tile[{other}]) % 1009")
        self.barrier()

    def uniform(self):
        """A condition that is the same for all items of a group."""
        names = ["n", "group"] + [f"k{at}" for at in range(self.loops)]
        name, bit = self.random.choice(names), self.random.randrange(2)
        return f"({name} & 1) == {bit}"

    def branch(self, body):
        condition = self.uniform()
        self.block(f"if ({condition})", f"if {condition}", body)
        if self.random.random() < 0.5:
            self.block("else", "else", body)

    def loop(self, body):
        name, most = f"k{self.loops}", self.random.choice(("2", "n", "group + 1", "3"))
        self.loops += 1
        self.block(f"for (int {name} = 0; {name} < {most}; {name}++)", f"for {name} in range({most})", body)
        self.loops -= 1

    def own_branch(self):
        """What some items do, without a barrier."""
        least, more = self.random.randrange(1, ITEMS), self.random.randrange(1, 50)
        self.block(f"if (lid % {least + 1} == 0)", f"if lid % {least + 1} == 0", lambda: self.put(f"v += {more};", f"v += {more}"))

    def apart(self):
        """Two halves of the items, each at barriers of its own."""
        half = ITEMS // 2
        self.block(f"if (lid < {half})", f"if lid < {half}", lambda: self.hand_over(0, half))
        self.block("else", "else", lambda: self.hand_over(half, half))

    def body(self, depth):
        for _ in range(self.random.randrange(1, 4)):
            kind = self.random.randrange(6)
            if kind == 0 and depth < 3:
                self.branch(lambda: self.body(depth + 1))
            elif kind == 1 and depth < 3:
                self.loop(lambda: self.body(depth + 1))
            elif kind == 2:
                self.own_branch()
            elif kind == 3 and self.is_apart:
                self.apart()
            else:
                self.hand_over()


def shape(seed):
    """The name of a kernel, its text, and its Python program."""
    made = Shape(seed)
    made.body(0)
    if made.is_apart:
        made.apart()
    name = f"shape_{seed}" + ("_apart" if made.is_apart else "")
    c = (f"kernel void {name}(global const int *in, global int *out, int n) {{\n    local int tile[{ITEMS}];\n"
         "    const int lid = get_local_id(0), group = get_group_id(0);\n    int v = in[get_global_id(0)];\n"
         + "\n".join(made.c) + "\n    out[get_global_id(0)] = v;\n}\n")
    python = "def run(lid, group, n, v, tile, out):\n" + "\n".join(made.python) + f"\n    out[group * {ITEMS} + lid] = v\n    yield 'end'\n"
    return name, c, python


def computed(python, given, n):
    """What the Python program computes: when all items of a group have come to barriers or ended, they go on."""
    out, names = [0] * (ITEMS * GROUPS), {}
    exec(python, names)
    for group in range(GROUPS):
        tile = [0] * ITEMS
        items = [names["run"](lid, group, n, given[group * ITEMS + lid], tile, out) for lid in range(ITEMS)]
        while items:
            items = [item for item in items if next(item) != "end"]
    return out


def main(seed, count):
    from opencl import Buffer, Device
    device = Device()
    shapes = [shape(seed * 1000 + at) for at in range(count)]
    program, given = device.build("".join(c for _, c, _ in shapes)), [at * 37 % 101 for at in range(ITEMS * GROUPS)]
    for at, (name, _, python) in enumerate(shapes):
        out = Buffer(device, [0] * (ITEMS * GROUPS))
        device.launch(device.kernel(program, name), (ITEMS * GROUPS,), (ITEMS,), [Buffer(device, given), out, at % 4])
        if out.read() != computed(python, given, at % 4):
            print(f"{name}: wrong result", flush=True)


if __name__ == "__main__":
    main(int(sys.argv[1]), int(sys.argv[2]))
