#!/usr/bin/env python3
"""Compares the options of the man page with those of the help, command by command:
    tests/man_options.py
In both an option has the same names and the same name of its value, and the same range (as `1 to 64`), values to choose
from and default; and both or neither contain `(required)`. Where the page has `As for` and another command, that
command's option counts. What differs is printed, and the status is 1. It needs bin/kcount.
"""

import os
import re
import sys
from collections import Counter

TOP = os.path.dirname(os.path.dirname(os.path.abspath(__file__)))
sys.path.insert(0, f"{TOP}/tools")
sys.dont_write_bytecode = True

import completions
from completions import Option

# The section for the options of each command, and the one of these that only the program itself has.
COMMON = "OPTIONS OF EACH COMMAND"
OF_PROGRAM = "--version"


def plain(lines):
    """Returns lines of the page as a line of text, with the name of a value as in the help, `<N>`."""
    text = " ".join(re.sub(r"^\.[BIR]{1,2} ", "", it) for it in lines)
    text = re.sub(r"\\fI(\w+)\\fR", r"<\1>", text).replace(r"\-", "-").replace('"', "")
    return re.sub(r" +([,.;])", r"\1", " ".join(text.split()))


def options_in(section):
    """Returns the options of a section of the page, which are in the line below each .TP, one or several of them."""
    options = []
    for paragraph in section.split("\n.TP\n")[1:]:
        tag, *lines = paragraph.split("\n.PP\n")[0].split("\n")
        for short, long, value in re.findall(r"(?:(-\w), )?(--[\w-]+)(?: <(\w+)>)?", plain([tag])):
            options.append(Option([it for it in (short, long) if it], value, plain(lines)))
    return options


def options_of_page():
    """Returns the options of each command in the page, by the command's name."""
    with open(f"{TOP}/share/kcount.1", encoding="utf-8") as file:
        _, *parts = re.split(r"(?m)^\.SH (.*)$", file.read())
    sections = {heading: options_in(text) for heading, text in zip(parts[::2], parts[1::2])}
    common = [it for it in sections[COMMON] if OF_PROGRAM not in it.names]
    return {heading.lower(): [*options, *common] for heading, options in sections.items()}


def text_of(option, page):
    """Returns what the page says of an option, which may be what it says of it with another command."""
    other = re.match(r"As for (\w+)", option.text)
    if not other:
        return option.text
    named = [it for it in page[other[1]] if it.names[-1] == option.names[-1]]
    return text_of(named[0], page) if named else option.text


def facts(option, text):
    """Returns an option in one line: its names and value, and the range, the values and the default in the text."""
    value = [f"<{option.value}>"] if option.value else []
    ranges = re.findall(r"\d+ to [\d^]+", text)[:1]
    listed = completions.listed_values(text) if option.value else []
    others = re.findall(r"\[default: [^]]*\]|\(required\)", text)
    return " ".join([", ".join(option.names), *value, *ranges, *listed, *others])


def main():
    page = options_of_page()
    wrong = []
    for command in completions.program()[1]:
        of_help = Counter(facts(it, it.text) for it in command.options)
        of_page = Counter(facts(it, text_of(it, page)) for it in page.get(command.name, []))
        wrong += [f"options: only the help of {command.name} has: {it}" for it in of_help - of_page]
        wrong += [f"options: only the man page has for {command.name}: {it}" for it in of_page - of_help]
    if wrong:
        print("\n".join(wrong))
    return 1 if wrong else 0


if __name__ == "__main__":
    sys.exit(main())
