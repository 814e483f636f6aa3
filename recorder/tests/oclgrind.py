"""Oclgrind's own kernels (tests/kernels of its source package), recorded natively and on the simulator: the same must be found.

usage: oclgrind.py FOLDER [TEST..]          the folder that has the file TESTS
       oclgrind.py --launch FILE.sim TEXT   what is recorded natively: launches the kernel of a simulator file, built with these options
"""
import array
import concurrent.futures
import ctypes
import os
import re
import subprocess
import sys

from opencl import LOADER, Buffer, Device, Local

HERE = os.path.dirname(os.path.realpath(__file__))
RECORD = os.path.join(HERE, "..", "..", "tools", "gpurace-record")
LAUNCH = re.compile(r"^launch 0, \w+: ([^(\n]*)(?:\(.*\))?\n((?:    .*\n)*)", re.MULTILINE)
NOT_LAUNCHED = "not launched"
TYPES = {"char": "b", "uchar": "B", "short": "h", "ushort": "H", "int": "i", "uint": "I", "long": "q", "ulong": "Q", "float": "f", "double": "d"}
OPTIONS = {"misc/global_variables": "-cl-std=CL2.0", "misc/non_uniform_work_groups": "-cl-std=CL2.0"}
DIFFERENT = {
    "async_copy/async_copy_unwaited": "items write what a copy reads, and nobody waits for it; the simulator records copies at the wait",
    "misc/non_uniform_work_groups": "pocl refuses groups of unequal size",
    "uninitialized/uninitialized_address": "private memory out of bounds, of which the program may die natively"}
UNDEFINED = {"uninitialized/uninitialized_address"}  # may be alike too
ADDRESS, TYPE_NAME, OF_GLOBAL, OF_LOCAL, OF_CONSTANT = 0x1196, 0x1198, 0x119B, 0x119C, 0x119D


def info(kernel, at, what):
    value = ctypes.create_string_buffer(256)
    LOADER.clGetKernelArgInfo(kernel, at, what, ctypes.c_size_t(256), value, None)
    return value


class Simulation:
    """A simulator file: its program, kernel and sizes, and what it says of the arguments."""

    def __init__(self, path):
        with open(path) as given:
            text = "\n".join(line.split("#")[0] for line in given)
        head, *arguments = re.split(r"<(?=[^<>]*>)", text)
        words = head.split()
        self.program, self.kernel = os.path.join(os.path.dirname(path), words[0]), words[1]
        self.size, self.local = [list(map(int, words[at:at + 3])) for at in (2, 5)]
        self.arguments = [argument.partition(">")[::2] for argument in arguments]

    def values(self, header, text, type_name):
        """The bytes of an argument."""
        said = dict(word.partition("=")[::2] for word in header)
        kind = next((TYPES[word] for word in header if word in TYPES), None) or TYPES[re.match(r"[a-z]+", type_name)[0]]
        count = int(said["size"]) // array.array(kind).itemsize
        read = float if kind in "fd" else lambda word: int(word, 16 if "hex" in said else 10)
        if "fill" in said:
            values = [read(said["fill"])] * count
        elif "range" in said:
            start, step, _ = map(read, said["range"].split(":"))
            values = [start + at * step for at in range(count)]
        else:
            values = [0] * count if "noinit" in said else list(map(read, text.split()))
        return array.array(kind, values).tobytes()

    def launch(self, device, options):
        with open(self.program, "rb") as text:
            kernel = device.kernel(device.build(text.read().decode("latin-1"), "-cl-kernel-arg-info " + options), self.kernel)
        arguments = []
        for at, (header, text) in enumerate(self.arguments):
            space = int.from_bytes(info(kernel, at, ADDRESS).raw[:4], sys.byteorder)
            said = dict(word.partition("=")[::2] for word in header.split())
            if space == OF_LOCAL:
                arguments.append(Local(int(said["size"])))
                continue
            values = b"" if "null" in said else self.values(header.split(), text, info(kernel, at, TYPE_NAME).value.decode())
            is_buffer = space in (OF_GLOBAL, OF_CONSTANT)
            arguments.append(Buffer(device, values, "B") if is_buffer and values else values or bytes(8))
        return device.launch(kernel, self.size, self.local, arguments)


def recorded(words, folder):
    """What is found in the one launch."""
    ran = subprocess.run([RECORD, *words], cwd=folder, stdout=subprocess.PIPE, stderr=subprocess.DEVNULL, text=True, errors="replace", timeout=600)
    found = LAUNCH.search(ran.stdout)
    return (found[1].strip(), found[2].replace("    ", "", 1).split("\n    ")) if found else (NOT_LAUNCHED, [])


def both(folder, test):
    """What is found in a test, natively and on the simulator."""
    path = os.path.join(folder, test + ".sim")
    options = OPTIONS.get(test, "")
    native = recorded(["--timeout", "20", sys.executable, os.path.realpath(__file__), "--launch", path, options], os.path.dirname(path))
    return native, recorded([*(["--build-options", options] if options else []), os.path.basename(path)], os.path.dirname(path))


def words_of(lines):
    """The lines that depend neither on the pair that is shown nor on what each recorder notes besides."""
    return [line.partition("; on ")[0] for line in lines if line.startswith(("races ", "race on ", "divergent barrier"))]


def compared(folder, tests=()):
    """Each test with its faults: a difference that is not explained, or none where there should be one."""
    with open(os.path.join(folder, "TESTS")) as listed:
        tests = tests or listed.read().split()
    with concurrent.futures.ThreadPoolExecutor(4) as threads:
        found = threads.map(both, [os.path.abspath(folder)] * len(tests), tests)
        for test, sides in zip(tests, found):
            is_alike = len({(status, *words_of(lines)) for status, lines in sides}) == 1
            yield test, [] if is_alike == (test not in DIFFERENT) or test in UNDEFINED else [
                "; ".join(f"{where} {status}: {', '.join(lines)}" for where, (status, lines) in zip(("natively", "on the simulator"), sides))]


def main(words):
    if words[0] == "--launch":
        return Simulation(words[1]).launch(Device(), words[2])
    faults = [(test, fault) for test, faults in compared(words[0], words[1:]) for fault in faults]
    for test, fault in faults:
        print(f"{test}: {fault}")
    return 1 if faults else 0


if __name__ == "__main__":
    sys.exit(main(sys.argv[1:]))
