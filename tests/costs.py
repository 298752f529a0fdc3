#!/usr/bin/env python3
"""Tells what processor time each crate takes of the full test:
    tests/costs.py MARK
It looks once a second at the checker's processes that have FULL_TEST=MARK in their environment, until it is sent SIGTERM, and then prints a row a
crate with minutes of processor time: its proof, that of its tests, and that with its edits.
What a process takes after the last look at it is not counted, a second at the most.
"""

import collections
import os
import re
import signal
import sys
import time

KINDS = ("proof", "tests", "edits")
TICKS = os.sysconf("SC_CLK_TCK")


def text_of(path):
    with open(path, "rb") as file:
        return file.read().decode("utf-8", "replace")


def kind_of(words, incremental):
    """Returns what a process checks: an edit is checked over the folder `kept` of the full test or a copy of it."""
    if re.search(r"/kept(-|/|$)", incremental):
        return "edits"
    return "tests" if os.path.basename(words[0]) == "rattle-test" else "proof"


def seconds_of(process):
    """Returns the processor time of a process so far. (The name in parentheses may have blanks.)"""
    fields = text_of(f"{process}/stat").rpartition(")")[2].split()
    return (int(fields[11]) + int(fields[12])) / TICKS


def look(mark, taken):
    """Notes the processor time of each of the full test's checks, by process."""
    for pid in filter(str.isdigit, os.listdir("/proc")):
        process = f"/proc/{pid}"
        try:
            words = text_of(f"{process}/cmdline").split("\0")
            named = re.search(r"--crate-name\0(\w+)", "\0".join(words))
            if not named or f"FULL_TEST={mark}\0" not in text_of(f"{process}/environ"):
                continue
            incremental = words[words.index("--incremental") + 1] if "--incremental" in words else ""
            taken[pid, named[1], kind_of(words, incremental)] = seconds_of(process)
        except OSError:
            # the process has ended
            pass


def rows(taken):
    """Returns the crates with their minutes by kind, dearest first."""
    minutes = collections.defaultdict(lambda: dict.fromkeys(KINDS, 0.0))
    for (_, crate, kind), seconds in taken.items():
        minutes[crate][kind] += seconds / 60
    return sorted(minutes.items(), key=lambda it: -sum(it[1].values()))


def main(mark):
    taken, ended = {}, []
    signal.signal(signal.SIGTERM, lambda *_: ended.append(True))
    while not ended:
        look(mark, taken)
        time.sleep(1)
    table = rows(taken)
    print(f"| {'Crate':20} | {' | '.join(f'{it:>9}' for it in KINDS)} | together |")
    together = dict.fromkeys(KINDS, 0.0)
    for crate, parts in [*table, ("together", together)]:
        print(f"| {crate:20} | {' | '.join(f'{parts[it]:9.1f}' for it in KINDS)} | {sum(parts.values()):8.1f} |")
        for it in KINDS if crate != "together" else ():
            together[it] += parts[it]


if __name__ == "__main__":
    main(sys.argv[1])
