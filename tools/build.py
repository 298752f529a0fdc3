#!/usr/bin/env python3
"""Proves the crates of the program, from what earlier runs kept, and builds it as bin/kcount:
    tools/build.py
Crates that don't stand on each other are proved side by side, and one that is alone gets the processors that are idle. A line a crate
says how far it is. What the checker prints goes to crates/NAME/out/build.log, which is named where a crate is not proved.
"""

import os
import subprocess
import sys
import threading
import time

import kit

PROGRAM = "kcount"


class Progress:
    """Says how many crates are proved, each time one more is."""

    def __init__(self, count):
        self.count, self.proved, self.begun, self.printing = count, 0, time.monotonic(), threading.Lock()

    def minutes(self):
        return round((time.monotonic() - self.begun) / 60)

    def say_proved(self, name):
        with self.printing:
            self.proved += 1
            print(f"proved {name}, {self.proved} of {self.count}, {self.minutes()} min", flush=True)

    def say_failed(self, name, log):
        with self.printing:
            print(f"NOT PROVED: {name}: see {os.path.relpath(log, kit.TOP)}", flush=True)


def log_of(crate):
    os.makedirs(f"{crate.folder}/out", exist_ok=True)
    return f"{crate.folder}/out/build.log"


def prove_library(crate, given, jobs, progress):
    """Returns whether the library is proved and built, which it is not where one below it isn't."""
    if not all(given[it.name, "proof"] for it in crate.below()):
        return False
    with open(log_of(crate), "w", encoding="utf-8") as crate.out:
        status = crate.build_rlib(["--jobs", str(jobs)], anew=False)
    if status:
        progress.say_failed(crate.name, log_of(crate))
    else:
        progress.say_proved(crate.name)
    return not status


def prove_libraries(rt, crates, progress):
    """Returns whether all of them are proved, as many side by side as there are processors and memory."""
    tasks = {}
    for it in crates:
        waits = [(below.name, "proof") for below in it.below()]
        call = lambda given, jobs, it=it: prove_library(it, given, jobs, progress)
        tasks[it.name, "proof"] = (waits, it.count(rb"\n"), rt.need(it), call)
    return all(rt.in_lanes(tasks).values())


def build_program(crate, progress):
    """Returns whether the program is proved and built, over libraries that are."""
    with open(log_of(crate), "w", encoding="utf-8") as log:
        built = subprocess.run(["rt", "run", "--", "--version"], cwd=crate.folder, stdin=subprocess.DEVNULL, stdout=log, stderr=log)
    if built.returncode:
        progress.say_failed(crate.name, log_of(crate))
        return False
    subprocess.run(["install", "-D", f"{crate.folder}/out/{crate.name}", f"{kit.TOP}/bin/{crate.name}"], check=True)
    progress.say_proved(crate.name)
    return True


def main():
    rt = kit.load()
    program = next(it for it in kit.crates_of(rt) if it.name == PROGRAM)
    libraries = program.below()
    progress = Progress(len(libraries) + 1)
    held = rt.rtlib.lock(libraries)
    is_proved = prove_libraries(rt, libraries, progress)
    for it in held:
        os.close(it)
    return 0 if is_proved and build_program(program, progress) else 1


if __name__ == "__main__":
    sys.exit(main())
