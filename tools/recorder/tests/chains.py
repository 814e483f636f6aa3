"""Whether each acquire of chains.cl names the operation that wrote the count which it read, and no two wrote one.

chains.py GPURACE FOLDER SAID: the folder of the launch, and what oclgrind-kernel said, with the counts
"""
import collections
import re
import subprocess
import sys

OPERATIONS, ITEMS = 20, 4
program, folder, said = sys.argv[1:]
with open(said) as text:
    seen = [int(count) for count in re.findall(r"seen\[\d+\] = (\d+)", text.read())]
trace = subprocess.run([program, "dump", folder], stdout=subprocess.PIPE, text=True, check=True).stdout
writers, reads = {}, []
done, releases = collections.Counter(), collections.Counter()
for words in (line.split() for line in trace.splitlines() if " " in line):
    if words[0] == "group":
        group = int(words[1])
    elif words[1] in ("rmw", "ld"):
        who = (group, int(words[0]))
        word, count = words[3], seen[(group * ITEMS + who[1]) * OPERATIONS + done[who]]
        reads.append((word, count, " ".join(words).partition(" < ")[2].partition(" @")[0]))
        done[who] += 1
        if words[1] == "rmw":
            if (word, count + 1) in writers:
                sys.exit(f"word {word}: {count + 1} was written twice")
            writers[word, count + 1] = f"{group} {who[1]} {releases[who]}"
            releases[who] += 1
for word, count, name in reads:
    if name != writers.get((word, count), ""):
        sys.exit(f"word {word}: who read {count} named '{name}', and not '{writers.get((word, count), '')}'")
print(f"{len(reads)} operations, {len(writers)} of which wrote a count: {len(reads) - len(writers)} failed")
