"""The crates of this repository, as crates.txt lists them."""

import pathlib

TOP = pathlib.Path(__file__).resolve().parent.parent
PROGRAM = "gr_cli"
# where rt leaves the program that it built
BUILT = TOP / "crates" / PROGRAM / "out" / PROGRAM


def lines_of_crates():
    """The line of each crate, without its comment."""
    found = {}
    for line in (TOP / "crates.txt").read_text().splitlines():
        text = line.partition("#")[0].strip()
        if text:
            found[text.partition(":")[0].split()[0]] = text
    return found


def crates_of_program():
    """The program's crate and all of this repository that it needs, by name, and the line of each."""
    lines = lines_of_crates()
    found, left = {}, [PROGRAM]
    while left:
        name = left.pop()
        if name in lines and name not in found:
            found[name] = lines[name]
            left += lines[name].partition(":")[2].split()
    return dict(sorted(found.items()))
