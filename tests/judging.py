#!/usr/bin/env python3
"""Reads recorded samples of what the toolchain prints and writes by tools/judging.py:
    tests/judging.py [--record]
tests/judging/ has a small crate, edits of it, and what checks printed: of the crate without an edit, of edits that are
refused beside some that aren't, and of one each where a proof names what is gone, where a goal is open besides, where
the text can't be read or doesn't compile, the function isn't there, and the edit can't be placed. Where `rt` is of another version than the samples, they are made
anew and read too, for half a minute, so that what differs is named before any edit is tried. With --record they replace
those in tests/judging/. Where there is no `rt` only the recorded ones are read.
"""

import os
import re
import shutil
import subprocess
import sys
import tempfile
from types import SimpleNamespace

TOP = os.path.dirname(os.path.dirname(os.path.abspath(__file__)))
FOLDER = f"{TOP}/tests/judging"
sys.path.insert(0, f"{TOP}/tools")
sys.dont_write_bytecode = True

import edits
import judging
import kit
from judging import files_in, text_of

REFUSED, OPEN = "refused", "{} is not refused for a goal or an answer of its own"
UNREAD, UNTOLD = "the edited text can't be read: src/lib.rt:", "the checker could not tell: rattle: error: "
# Of each recorded check of edits what is judged of functions, or how that begins.
CHECKS = {
    "refused": {
        "add_one": REFUSED,
        "add_one_copy_2": REFUSED,
        "add_two": OPEN,
        "add_three": OPEN,
        "Seats::at": REFUSED,
    },
    "names": {"Seats::at": OPEN},
    "mixed": {"Seats::at": REFUSED},
    "uncompiled": {"add_one": OPEN},
    "unread": {"add_six": UNREAD},
    "missing": {"add_nothing": "there is no function {}", "add_one": UNTOLD},
}
# The crates with whose proofs `rt ci` is done after each line of its recorded log.
DONE = [{"plain"}, {"plain", "small"}, {"plain", "small"}, {"plain", "small", "later"}]
# The function without a body, which the checker doesn't name, and the one that an impl has of its trait.
UNEQUAL = {"numbers::Numbered::number", "numbers::TicketNumberedU8::is_numbered"}
# A line that names a file of the toolchain by its path, which differs from machine to machine. Nothing reads it.
PLACED = re.compile(r"(?m)^logic /.*\n")
# A stand-in for what of `rt` reads a check.
NO_RT = SimpleNamespace(unread=lambda line, code: False, rtlib=SimpleNamespace(STALE=re.compile("(?!)")))


def crate_in(folder):
    """Makes the sample crate in this folder, and returns its own."""
    for path in files_in(f"{FOLDER}/crate", "**/*.*"):
        there = f"{folder}/crates/small/{path.removesuffix('.in')}"
        os.makedirs(os.path.dirname(there), exist_ok=True)
        shutil.copyfile(f"{FOLDER}/crate/{path}", there)
    with open(f"{folder}/crates.txt", "w", encoding="utf-8") as file:
        file.write("small:\n")
    return f"{folder}/crates/small"


def version():
    return subprocess.run(["rt", "version"], check=True, capture_output=True, text=True).stdout


def record(rt, to):
    """Checks the sample crate and its edits as tools/edits.py does, and writes what is printed into this folder."""

    def write(name, text):
        with open(f"{to}/{name}.txt", "w", encoding="utf-8") as file:
            file.write(PLACED.sub("", text))

    with tempfile.TemporaryDirectory() as room:
        folder, kept = crate_in(room), f"{room}/kept"
        crate = rt.rtlib.crates_below(room)[0]
        os.mkdir(kept)
        found, failed = edits.read_all(rt, crate)
        for name in ("named", *CHECKS):
            group = [it for it in found if it.name.startswith(f"{name}-")]
            texts, functions = edits.made(folder, group), edits.names_of(group).values()
            ran = judging.checked(rt, crate, texts, functions, kept)
            write(name, f"status {ran.returncode}\n{ran.stdout}")
        files = files_in(kept, "**/*add_one.Proof*") + [it for it in files_in(kept, "*/*") if "Rattle-" not in it]
        write("kept", "".join(f"{it}\n" for it in files if os.path.isfile(f"{kept}/{it}")))
        write("unplaced", "".join(f"{why}\n" for why in failed.values()))
        write("version", version())


def wrong_checks(rt, folder):
    """Returns which functions of the recorded checks are not judged as they should be."""
    wrong = []
    for name, functions in CHECKS.items():
        status, _, said = text_of(folder, f"{name}.txt").partition("\n")
        ran = SimpleNamespace(returncode=int(status.removeprefix("status ")), stdout=said)
        found = judging.judged(rt, "small", ran, ["src/lib.rt"], functions)
        for it, why in functions.items() if rt != NO_RT or name != "unread" else ():
            if not (found[it] or REFUSED).startswith(why.format(it)):
                wrong.append(f"{name}.txt: {it}: {found[it] or REFUSED}; wanted: {why.format(it)}")
    return wrong


def wrong_functions(folder):
    """Returns which functions of the sample crate are not found as the checker names them, or with another one."""
    with tempfile.TemporaryDirectory() as room:
        crate = crate_in(room)
        found = [it for path in files_in(crate, "src/*.rt") for it in judging.functions_of(crate, path)]
        texts = {it.name: text_of(crate, it.path).split("\n")[it.head : it.last + 1] for it in found}
    named = set(re.findall(r"(?m)^fn small::(\S+): depends on a hole", text_of(folder, "named.txt")))
    unequal = named ^ texts.keys() ^ UNEQUAL
    wrong = [f"named.txt: {it}: {'not found' if it in named else 'not named so'}" for it in sorted(unequal)]
    spans = {it: len(re.findall(r"\bfn ", " ".join(text))) for it, text in texts.items()}
    return wrong + [f"crate: {it}: its lines have {count} functions" for it, count in spans.items() if count != 1]


def wrong_files(folder):
    """Returns for which crates the recorded names of kept proofs are not read as they should be."""
    with tempfile.TemporaryDirectory() as room:
        for path in text_of(folder, "kept.txt").splitlines():
            os.makedirs(os.path.dirname(f"{room}/kept/{path}"), exist_ok=True)
            with open(f"{room}/kept/{path}", "w", encoding="utf-8"):
                pass
        wrong = []
        for name in ("small", "small_tests", "smal"):
            crate = SimpleNamespace(name=name)
            with judging.copied(crate, f"{room}/kept") as copy:
                proofs = [it for it in files_in(copy, "**/*") if "Rattle-" in it]
            if judging.has_proofs(crate, f"{room}/kept") != (name == "small") or bool(proofs) != (name == "small"):
                wrong.append(f"kept.txt: {name}: {' '.join(proofs) or 'no proofs'}")
        return wrong


def wrong_log():
    """Returns after which lines of the recorded log of `rt ci` other crates are done than should be."""
    lines, wrong = text_of(FOLDER, "ci.txt").splitlines(True), []
    for at, wanted in enumerate(DONE, 1):
        done = {it for it in ("plain", "small", "later") if judging.is_proved(it, "".join(lines[:at]))}
        if done != wanted:
            wrong.append(f"ci.txt:{at}: done: {' '.join(sorted(done))}; wanted: {' '.join(sorted(wanted))}")
    return wrong


def lost_in(rt):
    """Returns what this `rt` names or says otherwise than tools/judging.py and the samples, without a check."""
    text = text_of(*os.path.split(rt.__file__))
    # (" is kept: " is not looked for: a version that proves each crate anew has no such line)
    words = [" passed, ", *judging.NAMES.split("|")]
    lost = [f"rt has no {it!r}" for it in words if it not in text]
    kept = judging.kept_of(SimpleNamespace(folder="."))[2:]
    if rt.rtlib.KEPT != ["--incremental", kept] or not {"src", "specs", "proofs"} <= {*rt.rtlib.PARTS}:
        lost.append(f"rt's folders are {rt.rtlib.KEPT} and {rt.rtlib.PARTS}")
    with tempfile.TemporaryDirectory() as room:
        failed = edits.read_all(rt, SimpleNamespace(folder=crate_in(room)))[1]
    if (said := "".join(f"{why}\n" for why in failed.values())) != text_of(FOLDER, "unplaced.txt"):
        lost.append(f"unplaced.txt: rt says: {said}")
    return lost


def wrong_in(rt, folder):
    return [*wrong_checks(rt, folder), *wrong_functions(folder), *wrong_files(folder)]


def main(words):
    rt = kit.load() if shutil.which("rt") else NO_RT
    if words == ["--record"]:
        record(rt, FOLDER)
    wrong = [*wrong_in(rt, FOLDER), *wrong_log(), *(lost_in(rt) if rt != NO_RT else [])]
    recorded = text_of(FOLDER, "version.txt")
    if rt != NO_RT and version() != recorded:
        print(f"judging: rt is {version().strip()}, and the samples are of {recorded.strip()}: they are made anew")
        with tempfile.TemporaryDirectory() as room:
            record(rt, room)
            wrong += [f"made anew: {it}" for it in wrong_in(rt, room)]
    print("\n".join(f"judging: {it}" for it in wrong or ["what the toolchain prints is read as it should be"]))
    return 1 if wrong else 0


if __name__ == "__main__":
    sys.exit(main(sys.argv[1:]))
