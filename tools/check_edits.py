#!/usr/bin/env python3
"""Checks that each edit can be tried, without a proof:
    tools/check_edits.py [CRATE..]
It reads each file of crates/NAME/edits as the tool that tries it does: the old text occurs exactly once in the file, or
in the function that the edit names, the function of each line `refused:` is in the crate and is one of those that the
edit changes, and what a new line calls exists. It prints each edit that can't be tried, and then the status is 1. It
takes seconds; `make edits` tries the edits.
"""

import os
import re
import sys

import edits
import judging
import kit

CALLED = re.compile(r"(?<![\w'])([a-z_]\w*)(?:::<[^()]*>)?\(")
# Functions of std and memchr that edits call and the sources don't, and words before a parenthesis that call nothing.
ELSEWHERE = set("and drop filter first_mut is_some_and memchr memchr2 or readonly rev rotate_left shrink_to split_last".split())
ELSEWHERE |= set("swap_bytes then_some".split()) | set("for if in match return while".split())


def calls_in(text):
    """Returns the names that are called in a text, or defined in it."""
    return set(CALLED.findall(text))


def called_in_all(rt):
    """Returns the names that the sources of all crates call or define."""
    sources = [(it.folder, path) for it in kit.crates_of(rt) for path in judging.files_in(it.folder, "src/**/*.rt")]
    return set().union(*(calls_in(judging.text_of(folder, path)) for folder, path in sources))


def unknown_calls(edit, known):
    """Returns the names that the edit's lines call and that are neither known nor defined by the edit."""
    text = "\n".join(edit.lines.values())
    return calls_in(text) - known - ELSEWHERE - set(re.findall(r"\bfn (\w+)", text))


def functions_in(folder):
    """Returns the names of the functions in the sources of the crate in this folder."""
    return {it.name for path in judging.files_in(folder, "src/**/*.rt") for it in judging.functions_of(folder, path)}


def is_there(edit, there):
    """Returns whether one of these functions, or one that the edit adds, is the one that has to be refused."""
    added = f"fn {edit.refused.rpartition('::')[2]}("
    return edit.refused in there or any(added in it for it in edit.lines.values())


def faults_of_edits(rt, crate, known):
    """Returns for each file of edits/ that can't be tried its path and why."""
    read, failed = edits.read_all(rt, crate)
    there = functions_in(crate.folder)
    failed |= {it.name: f"there is no function {it.refused}" for it in read if not is_there(it, there)}
    failed |= {it.name: "it changes nothing" for it in read if not it.lines}
    for it in (it for it in read if it.changed and it.refused in there - it.changed):
        failed[it.name] = f"its text is in {', '.join(sorted(it.changed))}, and not in {it.refused}"
    for it in read:
        if unknown := unknown_calls(it, known):
            failed[it.name] = f"there is no {', '.join(sorted(unknown))}"
    return {f"{edits.FOLDER}/{name}.edit": why for name, why in failed.items()}


def main(names):
    rt = kit.load()
    count = bad = 0
    known = called_in_all(rt)
    for crate in (it for it in kit.crates_of(rt) if not names or it.name in names):
        count += len(edits.files_of(crate.folder))
        faults = faults_of_edits(rt, crate, known)
        for path, why in faults.items():
            print(f"{os.path.relpath(crate.folder, kit.TOP)}/{path}: {why}")
        bad += len(faults)
    print(f"{count - bad} edits can be tried, {bad} can't")
    return 1 if bad or not count else 0


if __name__ == "__main__":
    sys.exit(main(sys.argv[1:]))
