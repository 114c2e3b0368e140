#!/usr/bin/env python3
"""What a run of the gate takes of the processor, by crate.

gate.py watch FILE  looks twice a second at each process of the prover, until it is stopped, and keeps in FILE what it saw
gate.py table FILE FOLDER  prints the seconds of a processor of the run in that checkout: proofs, tests, and edits with their seeds

`watch` begins before `rt ci` does. A process that lives less than half a second may be missed. Tests and edits of several runs at once
can't be told apart, since the kit checks edits in folders of their own: watch one run."""
import collections
import json
import os
import re
import sys
import time

TICK = os.sysconf("SC_CLK_TCK")


def process(pid):
    """Its key, the folder that it works in, its words, and the seconds that it has taken; None where it is no prover's or has ended."""
    try:
        with open(f"/proc/{pid}/stat", encoding="utf-8") as file:
            name, _, rest = file.read().partition(") ")
        fields = rest.split()
        if not name.split("(")[1].startswith("rattle"):
            return None
        with open(f"/proc/{pid}/cmdline", encoding="utf-8") as file:
            words = file.read().split("\0")
        if not words[0]:
            # it has ended, and keeps its name alone
            return None
        seconds = (int(fields[11]) + int(fields[12])) / TICK
        return f"{pid}:{fields[19]}", os.readlink(f"/proc/{pid}/cwd"), words, seconds
    except (OSError, IndexError):
        return None


def watch(file):
    seen, written = {}, 0.0
    while True:
        for pid in filter(str.isdigit, os.listdir("/proc")):
            found = process(pid)
            if found:
                seen[found[0]] = found[1:]
        if time.time() - written > 20:
            written = time.time()
            with open(f"{file}.new", "w", encoding="utf-8") as new:
                json.dump(seen, new)
            os.replace(f"{file}.new", file)
        time.sleep(0.5)


def table(file, folder):
    with open(file, encoding="utf-8") as it:
        seen = json.load(it)
    spent = collections.defaultdict(lambda: collections.Counter())
    for at, words, seconds in seen.values():
        crate = re.search(r"--crate-name (\w+)", " ".join(words))
        kind = "edits" if "/rt-edit-" in at else "tests" if "--test" in words else "proofs"
        if crate and (kind == "edits" or at.startswith(f"{os.path.abspath(folder)}/")):
            spent[crate[1]][kind] += seconds
    print("| crate | proofs | tests | edits |\n|---|---|---|---|")
    for crate, of in sorted(spent.items(), key=lambda it: -it[1].total()):
        print(f"| `{crate}` | {of['proofs']:.0f} | {of['tests']:.0f} | {of['edits']:.0f} |")
    for kind in ("proofs", "tests", "edits"):
        print(f"{kind}: {sum(of[kind] for of in spent.values()) / 60:.0f} minutes of a processor")


if __name__ == "__main__":
    if sys.argv[1:2] == ["watch"] and len(sys.argv) == 3:
        watch(sys.argv[2])
    elif sys.argv[1:2] == ["table"] and len(sys.argv) == 4:
        table(*sys.argv[2:])
    else:
        sys.exit(__doc__)
