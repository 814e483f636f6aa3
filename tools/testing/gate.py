"""./test --prove: everything is proved, and the program that is kept is the one that was proved."""

import collections
import re
import resource
import subprocess
import time

COUNTS = re.compile(rb"(\d+) passed, (\d+) failed")


def proved(top):
    """Proves everything and compares the program that is kept, and counts what passed and what failed."""
    counts = count_of_proof(top)
    if counts["failed"]:
        return counts
    checked = subprocess.run([top / "tools" / "release", "check"], cwd=top, check=False).returncode
    counts["failed" if checked else "passed"] += 1
    return counts


def count_of_proof(top):
    """Calls rt ci, shows what it says, and counts by its last line."""
    begun, last = time.monotonic(), b""
    with subprocess.Popen(["rt", "ci"], cwd=top, stdin=subprocess.DEVNULL, stdout=subprocess.PIPE, stderr=subprocess.STDOUT) as ran:
        for last in ran.stdout:
            print(last.decode(errors="replace"), end="", flush=True)
    used = resource.getrusage(resource.RUSAGE_CHILDREN)
    print(f"proved in {(time.monotonic() - begun) / 60:.0f} minutes, {(used.ru_utime + used.ru_stime) / 60:.0f} minutes of processors")
    counts = COUNTS.match(last)
    passed, failed = (int(it) for it in counts.groups()) if counts else (0, 0)
    return collections.Counter(passed=passed, failed=failed or (1 if ran.returncode or not counts else 0))
