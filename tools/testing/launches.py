"""What the tests of the recorder use: launches that are written by hand, as folders."""

import subprocess
import sys

from testing.program import TOP, pack

sys.path.insert(0, str(TOP / "tools"))

KERNEL = """kernel void sums(global int *input, global int *output) {
    local int tile[16];
    tile[l] = input[l];
    if (l < 8)
        tile[l] += tile[l + 8];
}
"""
PLACES = """0 0 0 kernel.cl:3:13
0 0 1 kernel.cl:5:20
0 1 0 kernel.cl:3:13
1 0 0 kernel.cl:3:13
1 0 1 kernel.cl:5:20
1 1 0 kernel.cl:3:13
"""
BUFFERS = "g 0 64 input\ng 128 32 output\nl 0 64 16 tile\nl 1 64 16 tile\n"
SIDES = {"kernel.cl": KERNEL, "places": PLACES, "buffers": BUFFERS}


def info(kernel, launch, groups=1, more=""):
    """The file info.txt of a launch of groups of two items."""
    return f"kernel {kernel}\nlaunch {launch}\nglobal {2 * groups} 1 1\nlocal 2 1 1\ngroups {groups}\nitems {2 * groups}\nrecords 9\n{more}"


def put_launch(folder, streams, files):
    """Writes the streams of these texts, and these files."""
    folder.mkdir(parents=True)
    for number, text in enumerate(streams):
        (folder / f"group{number:02}.gpurace").write_bytes(pack(text))
    for name, text in files.items():
        (folder / name).write_text(text, encoding="utf-8")


def put_script(path, text):
    """Writes a script that can be run at once: another process does so, since each that is forked here meanwhile would keep the file open for writing,
    and what is open for writing can't be run."""
    subprocess.run(["sh", "-c", 'cat > "$0" && chmod 755 "$0"', str(path)], input=f"#!/bin/sh\n{text}".encode(), check=True)


def put_racy(folder, launch=0, kernel="sums", added_lines=0, more=""):
    """A launch in which items 0 and 1 race on tile[8], at lines 3 and 5 of its text, or so many further down."""
    lines = [3 + added_lines, 5 + added_lines]
    places = f"0 0 0 kernel.cl:{lines[0]}:13\n0 0 1 kernel.cl:{lines[1]}:20\n0 1 0 kernel.cl:{lines[0]}:13\n"
    files = {"info.txt": info(kernel, launch, more=more), "kernel.cl": "\n" * added_lines + KERNEL, "places": places, "buffers": BUFFERS}
    put_launch(folder / f"{launch:03}-{kernel}", [f"group 0 items 2 launch {launch}\n0 w l 64\n0 r l 72\n1 w l 72\nend\n"], files)


def put_right(folder, launch=0, kernel="right", more=""):
    """A launch in which nothing is found."""
    put_launch(folder / f"{launch:03}-{kernel}", [f"group 0 items 2 launch {launch}\n0 w l 64\n1 w l 65\nend\n"], {"info.txt": info(kernel, launch, more=more)})
