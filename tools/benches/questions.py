"""How long races, explain and history take beside replay, on traces with races."""

import tempfile

from benches.measured import kernel_trace, measured, median, parser, program

RACY = [("histogram", "grp"), ("reduction", "missing"), ("messages", "grp"), ("messages", "noack"), ("sparse", "")]


def questions(report):
    """The commands that are asked, by their names: races of all, the others of the first racy word."""
    yield "replay", ["replay"]
    yield "races", ["races"]
    yield "races --causes", ["races", "--causes"]
    first = next((line.split()[1:] for line in report.decode().splitlines() if line.startswith("race ")), None)
    if first:
        word = ["g", first[1]] if first[0] == "global" else [f"l{first[1]}", first[2]]
        for command in (["explain"], ["explain", "--long"], ["history"]):
            yield " ".join(command), command + word


def main(words):
    made = parser(__doc__)
    made.add_argument("records", type=int, nargs="?", default=1_000_000, metavar="RECORDS")
    made.add_argument("--groups", type=int, default=8)
    made.add_argument("--items", type=int, default=64, help="of a group")
    given = made.parse_args(words)
    for kernel, variant in RACY:
        with tempfile.TemporaryDirectory() as folder:
            path, count = kernel_trace(kernel, folder, given.records, given.groups, given.items, variant)
            report = measured([program(), "replay"], path).text
            print(f"{kernel} {variant}: {count} records, {report.count(b'race ')} racy words", flush=True)
            for name, command in questions(report):
                run = median([measured([program(), *command, path]) for _ in range(given.turns)])
                print(f"  {name:16} {run.costs()}", flush=True)
    return 0
