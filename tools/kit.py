"""The toolchain's own command `rt`, as a module: how it reads crates.txt and edits, calls the checker, and runs tasks side by side.

No command of the toolchain builds crates side by side with several processors for one crate, or judges several edits by one check, so
`tools/build.py` and `tools/edits.py` call what `rt` itself is made of. Where another version of the toolchain lacks a part, they stop here.
"""

import importlib.machinery
import importlib.util
import os
import shutil
import sys

USED = ("in_lanes", "need", "processors", "read_edit", "rtlib", "unread")
TOP = os.path.dirname(os.path.dirname(os.path.abspath(__file__)))


def load():
    """Returns the module, or ends the program where there is no such toolchain."""
    found = shutil.which("rt")
    if not found:
        sys.exit("there is no rt: install the Rattle toolchain")
    sys.dont_write_bytecode = True
    loader = importlib.machinery.SourceFileLoader("rt", os.path.realpath(found))
    rt = importlib.util.module_from_spec(importlib.util.spec_from_loader("rt", loader))
    sys.modules["rt"] = rt
    loader.exec_module(rt)
    lacking = [it for it in USED if not hasattr(rt, it)]
    if lacking:
        sys.exit(f"this version of rt has no {', '.join(lacking)}: tools/kit.py says what that is for")
    # (sets a handler of a signal, which only the main thread may)
    rt.rtlib.guarded()
    return rt


def crates_of(rt):
    """Returns the repository's crates, each after those that it stands on."""
    return rt.rtlib.crates_below(TOP)
