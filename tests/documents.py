#!/usr/bin/env python3
"""Compares what the documents name with what is there:
    tests/documents.py
Each name of docs/DEFINITIONS.md is declared in that file of the crate's specs/; the tables of docs/ARCHITECTURE.md and docs/PROVED.md have the
crates of crates.txt in its order, and those that are gone stand nowhere; each file that a document names is there. The example at the front
of each library is a part of a test, and no two source files but the libraries' fronts have one name. No line of the code, of the definitions
or of a document's prose is too long. tests/README.md has each script of tests/ and each module of a crate of tests, and docs/STATUS.md the minutes that README.md gives. The sections of docs/FORMATS.md that definitions cite are there. Where something isn't so, it is
printed and the status is 1.
"""

import glob
import os
import re
import sys

TOP = os.path.dirname(os.path.dirname(os.path.abspath(__file__)))
# (what a file of specs/ declares: a definition, a record, its fields)
DECLARED = r"(?m)^ *(?:(?:pub|abbrev|unfoldable|opaque|data|record) +)+(\S+)"
# (the most columns of a line)
COLUMNS = 120


def text_of(path):
    with open(f"{TOP}/{path}", encoding="utf-8") as file:
        return file.read()


def documents():
    """Returns the paths of the documents, from the top."""
    folders = ("", "docs/", "tests/", "workflow/")
    return [os.path.relpath(it, TOP) for folder in folders for it in sorted(glob.glob(f"{TOP}/{folder}*.md"))]


def listed_crates():
    """Returns the names in crates.txt, in order."""
    return re.findall(r"(?m)^(\w+)(?: \S+)*?:", text_of("crates.txt"))


def declared_in(crates, file):
    """Returns what the files of this name below the specs/ of these crates declare, or None where there is none."""
    found = [it for crate in crates for it in glob.glob(f"{TOP}/crates/{crate}/specs/**/{file}.antt", recursive=True)]
    texts = [text_of(os.path.relpath(it, TOP)) for it in found]
    return {name for it in texts for name in re.findall(DECLARED, it)} if found else None


def lost_definitions():
    """Returns the names of docs/DEFINITIONS.md that nothing declares: under a heading that names crates, `File.name` stands in their specs/."""
    lost, crates = [], []
    for number, line in enumerate(text_of("docs/DEFINITIONS.md").split("\n"), 1):
        if line.startswith("## "):
            crates = re.findall(r"crates/(\w+)/specs", line)
        cells = line.split(" | ")
        for file, name in re.findall(r"`([A-Z]\w*)\.(\w+)`", cells[1]) if len(cells) > 1 else []:
            declared = declared_in(crates, file)
            if declared is None or name not in declared:
                lost.append(f"docs/DEFINITIONS.md:{number}: {file}.{name} is not declared in {' or '.join(crates)}")
    return lost


def wrong_tables(listed):
    """Returns which tables don't have the crates in the order of crates.txt."""
    libraries = [it for it in listed if not it.endswith("_tests")]
    wanted = {
        ("docs/ARCHITECTURE.md", r"(?m)^\| [a-z ]*\| `(\w+)` \|"): libraries,
        ("docs/PROVED.md", r"(?m)^\| `(\w+)` \| \d+ \|"): listed,
    }
    wrong = []
    for (path, rows), crates in wanted.items():
        found = re.findall(rows, text_of(path))
        if found != crates:
            wrong.append(f"{path}: its table has the crates {' '.join(found)}, and crates.txt {' '.join(crates)}")
    return wrong


def lost_crates(listed):
    """Returns the crates that a document names and crates.txt doesn't have."""
    lost = []
    for path in documents():
        named = set(re.findall(r"\bkc_[a-z_]+\b", text_of(path)))
        lost += [f"{path}: there is no crate {it}" for it in sorted(named - set(listed) - {"kc_"})]
    return lost


def lost_files():
    """Returns the files that a document names by a path from the top and that are not there."""
    lost = []
    for path in documents():
        named = set(re.findall(r"`((?:docs|tests|tools|bench|share|examples|crates)/[\w./-]*\w)`", text_of(path)))
        links = set(re.findall(r"\]\(([\w./-]+\.md)(?:#[\w-]+)?\)", text_of(path)))
        here = {f"{os.path.dirname(path)}/{it}".removeprefix("/") for it in links}
        lost += [f"{path}: there is no {it}" for it in sorted(named | here) if not os.path.exists(f"{TOP}/{it}") and "NAME" not in it]
    return lost


def sources(crates):
    """Returns the paths of the source files of these crates, from the top."""
    return [os.path.relpath(it, TOP) for crate in crates for it in sorted(glob.glob(f"{TOP}/crates/{crate}/src/*.rt"))]


def code_alone(text):
    """Returns code without its comments, its blanks and the commas that only its layout asks for."""
    text = re.sub(r"(?m)^ *//!? ?", "", text)
    text = re.sub(r"(?m) +// .*$", "", text)
    return re.sub(r",([)\]}])", r"\1", re.sub(r"\s+", "", text))


def untested_examples(listed):
    """Returns the libraries whose front has no example, or one that is no part of a test. A library of lemmas needs none."""
    tested = "".join(code_alone(text_of(it)) for it in sources(it for it in listed if it.endswith("_tests")))
    untested = []
    for crate in listed:
        if crate.endswith("_tests") or crate in ("kc_lemmas", "kcount"):
            continue
        examples = re.findall(r"(?m)^//! ```\w*\n((?:^//!.*\n)*?)^//! ```$", text_of(f"crates/{crate}/src/lib.rt"))
        if not examples:
            untested.append(f"crates/{crate}/src/lib.rt: it has no example")
        untested += [f"crates/{crate}/src/lib.rt: its example is in no test" for it in examples if code_alone(it) not in tested]
    return untested


def files_of_one_name(listed):
    """Returns the source files that have the name of another one."""
    paths = [it for it in sources(listed) if not it.endswith(("/lib.rt", "/main.rt"))]
    names = [os.path.basename(it) for it in paths]
    return [f"{path}: another file has this name" for path, name in zip(paths, names) if names.count(name) > 1]


def unlisted_tests(listed):
    """Returns the scripts and the modules of tests that tests/README.md doesn't have."""
    scripts = [os.path.basename(it) for it in sorted(glob.glob(f"{TOP}/tests/*.*")) if not it.endswith(".md")]
    modules = [os.path.basename(it)[:-3] for it in sources(it for it in listed if it.endswith("_tests"))]
    named = set(re.findall(r"`([\w.]+)`", text_of("tests/README.md")))
    return [f"tests/README.md: it lacks {it}" for it in [*scripts, *modules] if it not in named | {"lib"}]


def lost_minutes():
    """Returns the minutes that README.md gives and docs/STATUS.md doesn't."""
    pairs = re.findall(r"(?<!\d)(\d+)(?: to (\d+))?\s+minutes", text_of("README.md"))
    measured = set(re.findall(r"(?<!\d)(\d+)(?=\s+minutes| and \d+\s+minutes| to \d+\s+minutes)", text_of("docs/STATUS.md")))
    return [f"README.md: docs/STATUS.md has no {it} minutes" for pair in pairs for it in pair if it and it not in measured]


def lost_sections(listed):
    """Returns the sections of docs/FORMATS.md that the definitions cite and that are not there."""
    lost, sections = [], set(re.findall(r"(?m)^#+ (.*)$", text_of("docs/FORMATS.md")))
    for crate in listed:
        for path in sorted(glob.glob(f"{TOP}/crates/{crate}/specs/**/*.antt", recursive=True)):
            here = os.path.relpath(path, TOP)
            cited = re.findall(r"formats\s+(?:-- )?page\s+(?:-- )?\(([^)]*)\)", text_of(here))
            named = {name for it in cited for name in re.findall(r'"([^"]*)"', it)}
            lost += [f"{here}: docs/FORMATS.md has no section {it}" for it in sorted(named - sections)]
    return lost


def prose(text):
    """Returns the lines of a document with nothing in place of those of tables and of blocks of code."""
    return re.sub(r"(?m)^\|.*$", "", re.sub(r"(?ms)^```.*?^```$", lambda it: "\n" * it[0].count("\n"), text))


def long_lines(listed):
    """Returns which lines of the code, of the definitions and of the documents' prose have more than COLUMNS columns."""
    specs = [os.path.relpath(it, TOP) for it in sorted(glob.glob(f"{TOP}/crates/*/specs/**/*.antt", recursive=True))]
    texts = {path: text_of(path) for path in [*sources(listed), *specs]} | {path: prose(text_of(path)) for path in documents()}
    lines = [(path, number, line) for path, text in texts.items() for number, line in enumerate(text.split("\n"), 1)]
    return [f"{path}:{number}: more than {COLUMNS} columns" for path, number, line in lines if len(line) > COLUMNS]


def main():
    listed = listed_crates()
    wrong = [*lost_definitions(), *wrong_tables(listed), *lost_crates(listed), *lost_files()]
    wrong += [*lost_sections(listed), *untested_examples(listed), *files_of_one_name(listed), *unlisted_tests(listed), *lost_minutes(), *long_lines(listed)]
    print("\n".join(wrong) if wrong else "documents: each name that they have is there, each example is a part of a test, and no line is too long")
    return 1 if wrong else 0


if __name__ == "__main__":
    sys.exit(main())
