#!/usr/bin/env python3
"""started.py COUNT FILE WORDS..: the milliseconds of processor time that a command takes on a file, its start counted: the mean of COUNT runs."""
import resource
import subprocess
import sys


def spent():
    """Processor time of all commands that have ended, in milliseconds."""
    usage = resource.getrusage(resource.RUSAGE_CHILDREN)
    return 1000 * (usage.ru_utime + usage.ru_stime)


count, file, words = int(sys.argv[1]), sys.argv[2], sys.argv[3:]
before = spent()
for _ in range(count):
    with open(file, "rb") as source:
        subprocess.run(words, stdin=source, stdout=subprocess.DEVNULL, check=True)
print(f"{(spent() - before) / count:.2f}")
