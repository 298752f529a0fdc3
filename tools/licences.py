#!/usr/bin/env python3
"""Prints the licences of the toolchain's libraries that the program is linked with, from the toolchain's own files:
    tools/licences.py [--debian]
The libraries are those that crates.txt names below the program, and what these use. Most of them follow Rust crates of
the same names, and have the licences of these. Without --debian it prints each text once; with it, a copyright file of
Debian's layout, which begins with the program's own licence. A text that Debian has no name for is refused there.
"""

import glob
import os
import re
import sys

import kit

PROGRAM = "kcount"
# What the files of a library with its licence may be called.
FILES = ("LICEN[CS]E*", "UNLICENSE*", "COPYING*", "COPYRIGHT*", "NOTICE*")
HEADER = """\
Format: https://www.debian.org/doc/packaging-manuals/copyright-format/1.0/
Upstream-Name: kcount
Comment: Below the first paragraph are the libraries of the Rattle toolchain
 that the program is linked with, by their folders there."""
APACHE = """\
License: Apache-2.0
 On Debian systems the text of the Apache License, version 2.0, is in
 /usr/share/common-licenses/Apache-2.0."""


def text_of(path):
    with open(path, encoding="utf-8", errors="replace") as file:
        return file.read()


def linked(rt):
    """Returns the names of the toolchain's libraries that the program is linked with."""
    program = next(it for it in kit.crates_of(rt) if it.name == PROGRAM)
    left, found = [name for it in [program, *program.below()] for name in it.of_kit], set()
    while left:
        name = left.pop()
        if name not in found:
            found.add(name)
            left += re.findall(r"(?m)^dep (\w+)$", text_of(f"{rt.rtlib.KIT}/rlibs/{name}.rlib/format"))
    return sorted(found)


def licences(rt):
    """Returns for each of these libraries that has a licence the paths of its texts."""
    folders = {it: f"{rt.rtlib.KIT}/rattle/{it}" for it in linked(rt)}
    files = {name: [it for word in FILES for it in sorted(glob.glob(f"{at}/{word}"))] for name, at in folders.items()}
    return {name: found for name, found in files.items() if found}


def third_party(files):
    """Returns all texts, each once, below the names of those that have it."""
    texts = {}
    for name, paths in files.items():
        for it in paths:
            texts.setdefault(text_of(it).strip("\n"), []).append(f"{name}/{os.path.basename(it)}")
    rule = "=" * 80
    head = f"{PROGRAM} is linked with libraries of the Rattle toolchain that have these licences.\n"
    return "\n".join([head, *(f"{rule}\n{', '.join(names)}\n{rule}\n\n{text}\n" for text, names in texts.items())])


def permission(text):
    """Returns what a text of the Expat licence permits, without its heading and without its line breaks."""
    return " ".join(text[text.find("Permission") :].split())


def debian_name(path):
    """Returns Debian's name of the licence with this text: the MIT licence is called Expat."""
    text = text_of(path)
    if permission(text) == permission(text_of(f"{kit.TOP}/LICENSE")):
        return "Expat"
    if re.match(r"\s*Apache License\s+Version 2\.0", text):
        return "Apache-2.0"
    sys.exit(f"licences: {path} is neither the Expat nor the Apache licence")


def paragraph(of, paths):
    """Returns the paragraph of a copyright file of what has these texts."""
    holders = [it for path in paths for it in re.findall(r"(?m)^ *Copyright (?:\(c\) )?(\w.*)$", text_of(path))]
    # (a longer field goes on in lines that begin with a blank)
    copyright = "\n ".join(dict.fromkeys(holders)) or "its authors, whom the licence does not name"
    names = " or ".join(sorted({debian_name(it) for it in paths}, reverse=True))
    return f"Files: {of}\nCopyright: {copyright}\nLicense: {names}"


def debian(files):
    """Returns a copyright file of Debian's layout."""
    own = text_of(f"{kit.TOP}/LICENSE")
    paragraphs = [paragraph("*", [f"{kit.TOP}/LICENSE"]), *(paragraph(f"{it}/*", files[it]) for it in files)]
    # (an empty line of a text is a dot)
    expat = "".join(f"\n {it or '.'}" for it in own[own.find("Permission") :].rstrip("\n").split("\n"))
    named = [APACHE] if any("Apache-2.0" in it for it in paragraphs) else []
    return "\n\n".join([HEADER, *paragraphs, f"License: Expat{expat}", *named]) + "\n"


def main(words):
    found = licences(kit.load())
    print(debian(found) if words == ["--debian"] else third_party(found), end="")
    return 0


if __name__ == "__main__":
    sys.exit(main(sys.argv[1:]))
