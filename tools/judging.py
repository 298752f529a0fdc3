"""What tools/edits.py relies on of the toolchain's files and texts: how `rt fmt` lays out a source file, how the
checker names functions, where proofs are, the command line of a check, and what a check and `rt ci` print.

tests/judging.py reads recorded samples by this module, so a toolchain that differs is noticed there first. What is
called of `rt` itself is in tools/kit.py.
"""

import functools
import glob
import os
import re
import shutil
import subprocess
import tempfile
from contextlib import contextmanager, suppress
from dataclasses import dataclass

PUB = r"(?:pub(?:\(\w+\))? )?"
# What the checker says of a proof that names what is not there (an edit may have taken it away).
NAMES = r"is not in scope|has no field|has no `|was not admitted|is no name"
# What `rt ci` says once it has proved a crate, or has given back what an earlier run proved (some versions do).
PROVED = r"(?m)^rt: {}( proved$| is kept: )"


@dataclass(frozen=True)
class Function:
    """A function of a source file: how the checker names it, the first line of its attributes, the first and the last
    line of its item, whether it is a trait's or of an impl of one, and whether a proof with a hole can be put in place
    of its own: it has a body, doesn't call itself, and no type in its name is a tuple."""

    name: str
    path: str
    head: int
    first: int
    last: int
    is_of_trait: bool
    can_be_taken: bool


def text_of(folder, path):
    with open(f"{folder}/{path}", encoding="utf-8") as file:
        return file.read()


def files_in(folder, pattern):
    """Returns the paths of what matches the pattern below the folder, from there."""
    return sorted(glob.glob(pattern, root_dir=folder, recursive=True))


def module_of(path):
    return [it for it in path.removeprefix("src/").removesuffix(".rt").split("/") if it not in ("lib", "main", "mod")]


@functools.cache
def homes_of(folder):
    """Returns the module in which each type of the crate is declared."""
    sources = {it: text_of(folder, it) for it in files_in(folder, "src/**/*.rt")}
    types = rf"(?m)^{PUB}(?:struct|enum) (\w+)"
    return {it: module_of(path) for path, text in sources.items() for it in re.findall(types, text)}


def parameters_of(text):
    """Returns the parameters at the front of the text, between < and >, or nothing."""
    depth = 0
    for at, letter in enumerate(text):
        depth += (letter == "<") - (letter == ">" and text[at - 1] != "-")
        if depth == 0:
            return text[: at + 1] if at else ""
    return ""


def owner_of(header, path, folder):
    """Returns the path that an impl or a trait gives its functions, and whether there is a trait: in sources.rt
    `impl Source<u8> for FromBytes<'a>` gives sources::FromBytesSourceU8. Its own parameters are left out."""
    kind, rest = re.fullmatch(rf"{PUB}(impl|trait)\b(.*)", header).groups()
    if kind == "trait":
        return [*module_of(path), re.match(r" (\w+)", rest)[1]], True
    parameters = parameters_of(rest)
    own = re.findall(r"(?:^<|, *)(\w+)", parameters)
    first, _, implementor = re.split(r" where\b", rest.removeprefix(parameters))[0].strip().partition(" for ")
    names = re.findall(r"(?<![\w'])[A-Za-z_]\w*(?!\w*::)", f"{implementor} {first}")
    name = "".join(it[0].upper() + it[1:] for it in names if it not in own)
    home = module_of(path) if implementor else homes_of(folder).get(name, module_of(path))
    return [*home, name], bool(implementor)


def end_of(lines, at, indent):
    """Returns the line in which a function's body is closed, in the function's column, or its signature ends."""
    has_body = False
    for end in range(at, len(lines)):
        has_body |= lines[end].endswith("{")
        if re.fullmatch(rf"{indent}(\}}|\S.*\{{.*\}})", lines[end]) or not has_body and lines[end].endswith(";"):
            return end
    return len(lines) - 1


@functools.cache
def functions_of(folder, path):
    """Returns the functions of a source file."""
    text, owner, is_of_trait, has_tuple, found = text_of(folder, path), [], False, False, []
    lines = text.split("\n")
    items = rf"(?ms)^(?:({PUB}(?:impl|trait)\b.*?)[{{}};]$|( *){PUB}(?:const |final )?fn (\w+))"
    for item in re.finditer(items, text):
        (header, indent, name), at = item.groups(), text.count("\n", 0, item.start())
        if header:
            owner, is_of_trait = owner_of(" ".join(header.split()).rstrip("{} "), path, folder)
            has_tuple = "<(" in header
        elif not found or at > found[-1].last:
            full = "::".join([*(owner if indent else module_of(path)), name])
            above = (it for it in range(at, 0, -1) if not lines[it - 1] or lines[it - 1].endswith(("{", "}")))
            last = end_of(lines, at, indent)
            calls = re.search(rf"(?<![.:\w]){name}\(|\b(?:Self::|self\.){name}\(", "\n".join(lines[at + 1 : last + 1]))
            can_be_taken = lines[last].endswith("}") and not calls and not (indent and has_tuple)
            found.append(Function(full, path, next(above, 0), at, last, is_of_trait and bool(indent), can_be_taken))
    return found


def proofs_of(folder, function):
    """Returns the paths of what is in the folder of the function's own proof."""
    return files_in(folder, f"proofs/{function.replace('::', '/')}/*")


def citing(function):
    """Returns a pattern of how files of proofs name the function's own proof."""
    return rf"\bproofs\.{re.escape(function.replace('::', '.'))}\b"


def is_cited(folder, function):
    """Returns whether another file of proofs names the function's own proof."""
    others = {*files_in(folder, "proofs/**/*.antt")} - {*proofs_of(folder, function)}
    return any(re.search(citing(function), text_of(folder, it)) for it in others)


def kept_of(crate):
    """Returns the folder in which checks of the crate keep proofs."""
    return f"{crate.folder}/out/incremental"


def has_proofs(crate, kept):
    return bool(files_in(kept, f"**/Rattle-{crate.name}-proofs*"))


@contextmanager
def copied(crate, kept):
    """Gives a folder with links to the proofs that that folder has of the crate, and copies of its other files. (The
    checker makes a proof's file anew where it writes it, and writes into the others.)"""
    with tempfile.TemporaryDirectory(prefix="kept-", dir=os.path.dirname(kept)) as room:
        for at, _, names in os.walk(kept):
            there = os.path.join(room, os.path.relpath(at, kept))
            for it in (it for it in names if re.match(rf"(?!Rattle-)|Rattle-{crate.name}\b", it)):
                os.makedirs(there, exist_ok=True)
                # (what a check of another crate is about to write may be gone)
                with suppress(FileNotFoundError):
                    (os.link if it.endswith(".oantt") else shutil.copyfile)(f"{at}/{it}", f"{there}/{it}")
        yield room


def stub_of(crate, function):
    """Returns the text of a proof with a hole, which the checker takes for a proof of what the contract states."""
    path, name = function.name.replace("::", "."), f"{function.name.rpartition('::')[2]}_spec"
    uses = f"use Rattle.{crate.name}.proofs.{path}.Statement.{{statement}}"
    return f"-- Taken by its contract. Assumes `Logic`.\n{uses}\n\npub {name} : {{M : Type 1}} → statement M\n{name} = ?\n"


def put_stubs(crate, room, functions):
    """Puts a proof with a hole in place of that of each function of this copy of the crate, but for these functions and
    for those whose proofs others name, so that no check proves what isn't edited."""
    for path in files_in(crate.folder, "src/**/*.rt"):
        for it in functions_of(crate.folder, path):
            if it.name in functions or not it.can_be_taken or is_cited(crate.folder, it.name):
                continue
            folder = f"{room}/proofs/{it.name.replace('::', '/')}"
            for proof in proofs_of(crate.folder, it.name):
                if os.path.isfile(f"{room}/{proof}"):
                    os.remove(f"{room}/{proof}")
            os.makedirs(folder, exist_ok=True)
            with open(f"{folder}/Proof.antt", "w", encoding="utf-8") as file:
                file.write(stub_of(crate, it))


def checked(rt, crate, texts, functions, kept):
    """Checks these functions of a copy of the crate, with these texts beside or in place of its own, over a folder."""
    with tempfile.TemporaryDirectory(prefix="rt-edit-") as room:
        for part in filter(lambda it: os.path.isdir(f"{crate.folder}/{it}"), rt.rtlib.PARTS):
            shutil.copytree(f"{crate.folder}/{part}", f"{room}/{part}")
        for path, text in texts.items():
            os.makedirs(os.path.dirname(f"{room}/{path}"), exist_ok=True)
            with open(f"{room}/{path}", "w", encoding="utf-8") as file:
                file.write(text)
        put_stubs(crate, room, functions)
        flags = ["--jobs", "1", "--allow-holes", *(word for it in sorted(functions) for word in ("--only", it))]
        words = [*rt.rtlib.guarded(), rt.rtlib.RATTLE, "check", *crate.words(flags, keeps=False), "--incremental", kept]
        how = {"stdin": subprocess.DEVNULL, "stdout": subprocess.PIPE, "stderr": subprocess.STDOUT, "errors": "replace"}
        return subprocess.run(words, cwd=room, check=False, **how)


def own_refusal(crate, function, said):
    """Returns the line by which the checker refuses this function for a goal or an answer of its own, or None."""
    name = re.escape(f"{crate}::{function}")
    told = re.search(rf"(?m)^fn {name}: (not proved|no proof)(.*)$", said)
    if not told:
        return None
    if "did not prove" in told[2]:
        return told[0]
    # (the goals that are open come before the function's own line, behind that of the one before)
    goal = re.search(rf"(?m)^(note: src/\S+: it is not proved .*)\n(?:(?!fn ).*\n)*fn {name}: ", said)
    errors = re.findall(rf"(?m)^(?:\./)?proofs/{re.escape(function.replace('::', '/'))}/\S+: error: .*$", said)
    answers = [it for it in errors if not re.search(NAMES, it)] if told[1] == "not proved" else []
    return goal[1] if goal else next(iter(answers), None)


def judged(rt, crate, ran, texts, functions):
    """Returns for each of these functions of the crate of that name None where the check with these texts refuses it
    for a goal or an answer of its own, or else why it doesn't."""
    # (a copy's proof file is refused for its text where the copy's body is wrong)
    code = [it for it in texts if it.startswith("src/")]
    lines = ran.stdout.strip().split("\n")
    unread = next((it for it in lines if rt.unread(it, code)), None)
    if unread:
        return dict.fromkeys(functions, f"the edited text can't be read: {unread[:200]}")
    found = dict.fromkeys(functions)
    for it in functions:
        if f"`{crate}` has no function `{it}`" in ran.stdout:
            found[it] = f"there is no function {it}"
        elif ran.returncode not in (0, 1) or rt.rtlib.STALE.search(ran.stdout):
            found[it] = f"the checker could not tell: {lines[-1][:200]}"
        elif not own_refusal(crate, it, ran.stdout):
            found[it] = f"{it} is not refused for a goal or an answer of its own"
    return found


def has_ended(log):
    """Returns whether `rt ci`, which writes this log, has come to its last line."""
    return bool(re.search(r"(?m)^\d+ passed, \d+ failed$", log))


def is_proved(name, log):
    """Returns whether `rt ci`, which writes this log, is done with the proof of the crate of that name."""
    return has_ended(log) or bool(re.search(PROVED.format(name), log))
