#!/usr/bin/env python3
"""Tries the edits that the prover must refuse, many by one check:
    tools/edits.py [--anew] [--kept FOLDER [--beside LOG]] [CRATE..]
The crates are proved first, from what earlier runs kept. With --kept they are taken as the full test has proved and
built them, and the folder has what checks of edits kept of them, if there were any. With --beside `rt ci` still runs
and writes LOG: the edits of a crate are tried, at a low priority, as soon as that has proved the crate, so that no
processor is idle while it goes through the longest chain of crates.

An edit is a file crates/NAME/edits/WHAT_IS_WRONG.edit. Besides the lines of a must-fail edit of the toolchain (`file:`,
`old:`, `new:`) it has a line `refused:` with the function that has to be refused by it, as the checker names it,
without the crate's name.

A function is proved against the contracts of those that it calls, so edits of different functions don't hide one
another, and the edits of a crate are put together into few groups. A second edit of a function in a group is made in a
copy of the function, of another name and with a copy of its proof. A function of a trait can't be copied, nor one that
another proof names, so there is one edit of it in a group. An edit that changes more than bodies of functions, or adds
more than the function that it names, is tried alone. Each group is made in a copy of the crate, and its functions are
checked by one check, which takes all others by their contracts, over a copy of what the crate's first check kept. Of
each function that an edit names a goal or an answer of its own has to be open: that it calls what is not proved doesn't
count, nor that the edited text can't be read, nor that the checker could not tell. What isn't refused so in its group is
tried once more alone, which decides.
Where nothing of a group is refused, one of its edits most likely can't be read, and first each half is tried.

An edit that an earlier run on this machine saw refused, over the same files and by the same toolchain, isn't tried
again: `rt ci` does the same with proofs. With --anew all are tried.

A line is printed for each crate once its edits were tried. The last line is `N refused, M failed`.
"""

import collections
import os
import re
import sys
import time
from concurrent.futures import FIRST_COMPLETED, ThreadPoolExecutor, wait
from contextlib import nullcontext
from dataclasses import dataclass, field

import judging
import kit
from judging import text_of
from refused import Refused

FOLDER = "edits"
# How many edits a check has at the most: those of any crate today, since what a check loads is paid once then.
MAX_GROUP = 96


@dataclass
class Edit:
    """An edit of a crate: the function that it has to be refused by, the lines that it changes, the names of the
    functions of these lines, and, where it changes the body of the named function alone and that can be copied, it."""

    name: str
    refused: str
    lines: dict = field(default_factory=dict)
    changed: set = field(default_factory=set)
    is_of_bodies: bool = True
    copied: judging.Function | None = None

    def functions(self):
        return self.changed | {self.refused}

    def goes_with(self, other):
        is_apart = not self.functions() & other.functions() and not self.lines.keys() & other.lines.keys()
        are_copies = self.copied and self.copied == other.copied
        return self.is_of_bodies and other.is_of_bodies and bool(is_apart or are_copies)


class BadEdit(Exception):
    """Why an edit can't be tried."""


def made_within(folder, edit, refused):
    """Returns the text that the edit makes of its file where its old text is once in the function that it names."""
    told = re.fullmatch(r"refused: .*\nfile: (.*)\nold: (.*)\nnew: (.*)\n", edit)
    if not told or not os.path.isfile(f"{folder}/{told[1]}"):
        return {}
    path, old, new = told.groups()
    lines = text_of(folder, path).split("\n")
    functions = (it for it in judging.functions_of(folder, path) if it.name == refused)
    found = [at for it in functions for at in range(it.first, it.last + 1) if old in lines[at]]
    if len(found) != 1 or lines[found[0]].count(old) != 1:
        return {}
    lines[found[0]] = lines[found[0]].replace(old, new)
    return {path: "\n".join(lines)}


def read(rt, folder, file):
    """Returns the edit in this file of the crate in this folder."""
    if not file.endswith(".edit"):
        raise BadEdit("it is no .edit file")
    named = re.findall(r"(?m)^refused: (\S+)$", text_of(folder, f"{FOLDER}/{file}"))
    if len(named) != 1:
        raise BadEdit("it wants one line 'refused:' with a function's name")
    texts, why = rt.read_edit(f"{folder}/{FOLDER}/{file}", folder)
    if why:
        texts = made_within(folder, text_of(folder, f"{FOLDER}/{file}"), named[0])
    if not texts:
        raise BadEdit(why)
    edit = Edit(file.removesuffix(".edit"), named[0])
    for path, text in texts.items():
        if not path.startswith("src/"):
            raise BadEdit(f"{path} is no code")
        for at, (old, new) in enumerate(zip(text_of(folder, path).split("\n"), text.split("\n"))):
            if old != new:
                edit.lines[path, at] = new
                around = [it for it in judging.functions_of(folder, path) if it.first <= at <= it.last]
                edit.changed |= {it.name for it in around}
                edit.is_of_bodies &= bool(around) or is_added(named[0], old, new)
                edit.copied = next((it for it in around if it.name == edit.refused and can_be_copied(folder, it)), None)
    if edit.changed != {edit.refused}:
        edit.copied = None
    return edit


def is_added(function, old, new):
    """Returns whether the new line adds this function and leaves the old line as it was."""
    return new.endswith(old) and f"fn {function.rpartition('::')[2]}(" in new


def can_be_copied(folder, function):
    """Returns whether a copy of the function is proved as the function is."""
    is_plain = all(os.path.isfile(f"{folder}/{it}") for it in judging.proofs_of(folder, function.name))
    return is_plain and not function.is_of_trait and not judging.is_cited(folder, function.name)


def grouped(edits):
    """Returns the edits in groups, each edit in the first one where it goes with all, the smallest group first."""
    groups = []
    for edit in edits:
        fits = (it for it in groups if len(it) < MAX_GROUP and all(edit.goes_with(other) for other in it))
        group = next(fits, None)
        if group is None:
            groups.append(group := [])
        group.append(edit)
    return sorted(groups, key=len)


def names_of(group):
    """Returns for each edit of the group the function that it is made in: the named one, or a further copy of it."""
    names, counts = {}, collections.Counter()
    for edit in group:
        counts[edit.refused] += 1
        names[edit.name] = edit.refused if counts[edit.refused] == 1 else f"{edit.refused}_copy_{counts[edit.refused]}"
    return names


def copy_of(folder, edit, name):
    """Returns the lines of a copy of the edit's function under this name, attributes included, with the edit."""
    function = edit.copied
    lines = text_of(folder, function.path).split("\n")
    copied = [edit.lines.get((function.path, at), lines[at]) for at in range(function.head, function.last + 1)]
    own, other = (it.rpartition("::")[2] for it in (function.name, name))
    signature = function.first - function.head
    copied[signature] = re.sub(rf"\bfn {own}\b", f"fn {other}", copied[signature])
    return ["", *copied]


def made(folder, group):
    """Returns the texts of the files that the edits of the group change or add, as the proofs of copies."""
    names, changed, added, texts = names_of(group), {}, collections.defaultdict(list), {}
    for edit in group:
        name = names[edit.name]
        if name == edit.refused:
            changed |= edit.lines
            continue
        added[edit.copied.path, edit.copied.last] += copy_of(folder, edit, name)
        for path in judging.proofs_of(folder, edit.refused):
            there, citing = f"proofs/{name.replace('::', '/')}/{os.path.basename(path)}", name.replace("::", ".")
            texts[there] = re.sub(judging.citing(edit.refused), f"proofs.{citing}", text_of(folder, path))
    for path in {it for it, _ in [*changed, *added]}:
        lines = enumerate(text_of(folder, path).split("\n"))
        texts[path] = "\n".join(it for at, line in lines for it in [changed.get((path, at), line), *added[path, at]])
    return texts


def judge(rt, crate, group, kept, is_first=False):
    """Checks the crate with these edits over a copy of that folder or, where it is the first, over the folder itself,
    which then has what is proved beside the edits. Returns for each why it failed, or None where it is refused."""
    texts, names = made(crate.folder, group), names_of(group)
    with nullcontext(kept) if is_first else judging.copied(crate, kept) as room:
        ran = judging.checked(rt, crate, texts, names.values(), room)
    found = judging.judged(rt, crate.name, ran, texts, names.values())
    return {edit: found[function] for edit, function in names.items()}


def files_of(folder):
    """Returns the names of the files among the edits of the crate in this folder, in order."""
    return sorted(os.listdir(f"{folder}/{FOLDER}")) if os.path.isdir(f"{folder}/{FOLDER}") else []


def read_all(rt, crate):
    """Returns the edits of a crate, and for each that can't be tried why."""
    edits, failed = [], {}
    for file in files_of(crate.folder):
        try:
            edits.append(read(rt, crate.folder, file))
        except BadEdit as why:
            failed[file.removesuffix(".edit")] = str(why)
    return edits, failed


def try_group(rt, crate, group, kept, is_first=False):
    """Tries the edits of a group, and once more in smaller groups those that aren't refused. Returns for each why it
    failed, or None."""
    judged = judge(rt, crate, group, kept, is_first)
    failed = [it for it in group if judged[it.name]]
    half = len(group) // 2
    smaller = [group[:half], group[half:]] if len(failed) == len(group) else [[it] for it in failed]
    for it in smaller if half else ():
        judged |= try_group(rt, crate, it, kept)
    return judged


@dataclass
class Tried:
    """What came of a crate's edits: how many groups were tried, how many edits an earlier run saw refused, and for each
    why it failed, or None."""

    groups: int
    earlier: int
    failed: dict


def try_crates(rt, crates, kept, refused):
    """Tries the edits of these crates that no earlier run saw refused, groups side by side, over what that folder has
    of them, or each over its own. Where the folder has nothing of a crate its smallest group comes first, and the
    others are tried over what that check proved. Returns for each crate its name and what came of its edits."""
    tasks, tried, stamps = {}, {}, {}
    for crate in (it for it in crates if files_of(it.folder)):
        stamp = stamps[crate.name] = refused.stamp(crate)
        edits, failed = read_all(rt, crate)
        earlier = [it for it in edits if refused.has(crate, it.name, stamp)]
        groups, folder = grouped([it for it in edits if it not in earlier]), kept or judging.kept_of(crate)
        tried[crate.name] = Tried(len(groups), len(earlier), failed | dict.fromkeys(it.name for it in earlier))
        comes_first = not judging.has_proofs(crate, folder)
        for at, group in enumerate(groups):
            waits = [(crate.name, "edits", 0)] if comes_first and at > 0 else []
            given = crate, group, folder, comes_first and at == 0
            call = lambda _, jobs, given=given: try_group(rt, *given)
            tasks[crate.name, "edits", at] = waits, crate.count(rb"\n"), rt.need(crate), call
    for (name, _, _), judged in rt.in_lanes(tasks).items():
        tried[name].failed.update(judged)
    for crate in (it for it in crates if it.name in tried):
        refused.keep(crate, tried[crate.name].failed, stamps[crate.name])
    return list(tried.items())


def try_beside(rt, crates, kept, path, refused):
    """Tries the edits of these crates as `try_crates` does, each crate's as soon as `rt ci` has proved it, and yields
    the same. Until that has ended half of the processors are used at the most."""
    os.nice(10)
    # (the most edits take longest, so they begin first)
    left, running = sorted(crates, key=lambda it: -len(files_of(it.folder))), set()
    with ThreadPoolExecutor(rt.processors()) as pool:
        while left or running:
            log = text_of(*os.path.split(path))
            most = rt.processors() if judging.has_ended(log) else max(rt.processors() // 2, 1)
            for crate in [it for it in left if judging.is_proved(it.name, log)][: most - len(running)]:
                left.remove(crate)
                running.add(pool.submit(try_crates, rt, [crate], kept, refused))
            for it in wait(running, timeout=2, return_when=FIRST_COMPLETED).done if running else time.sleep(2) or ():
                running.remove(it)
                yield from it.result()


def are_proved(crates):
    """Proves and builds the libraries of these crates from what earlier runs kept, and returns whether all are."""
    libraries = dict.fromkeys(it for crate in crates for it in [*crate.below(), crate] if it.makes_rlib())
    return not any(it.build_rlib(["--jobs", "1"], anew=False) for it in libraries)


def main(words):
    rt = kit.load()
    anew, words = (True, words[1:]) if words[:1] == ["--anew"] else (False, words)
    kept, names = (words[1], words[2:]) if words[:1] == ["--kept"] else (None, words)
    log, names = (names[1], names[2:]) if names[:1] == ["--beside"] else (None, names)
    crates = [it for it in kit.crates_of(rt) if not names or it.name in names]
    if not kept and not are_proved(crates):
        return 1
    known = Refused(rt, kit.crates_of(rt), anew)
    refused = failures = 0
    for name, tried in try_beside(rt, crates, kept, log, known) if log else try_crates(rt, crates, kept, known):
        for edit, why in tried.failed.items():
            if why:
                print(f"NOT REFUSED: {name}/{FOLDER}/{edit}: {why}", flush=True)
        bad = sum(bool(it) for it in tried.failed.values())
        good = len(tried.failed) - bad
        refused, failures = refused + good, failures + bad
        by_whom = f"{tried.groups} checks" + (f" and {tried.earlier} of them earlier" if tried.earlier else "")
        print(f"edits of {name}: {good} refused by {by_whom}, {bad} failed", flush=True)
    print(f"{refused} refused, {failures} failed")
    return 1 if failures or not refused else 0


if __name__ == "__main__":
    sys.exit(main(sys.argv[1:]))
