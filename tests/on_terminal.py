#!/usr/bin/env python3
"""Runs a command line of bash on a terminal of its own, and prints all that it shows there:
    tests/on_terminal.py COMMAND
    tests/on_terminal.py COMMAND PROMPT TYPED
TYPED is typed once PROMPT has been shown. A command that has not ended after 60 seconds is killed, and the status is 1.
"""

import os
import pty
import select
import signal
import sys
import time

MAX_SECONDS = 60


def shown_by(terminal, prompt, typed):
    """All that is shown until every program has closed the terminal, or None where that takes too long."""
    shown = b""
    deadline = time.monotonic() + MAX_SECONDS
    while time.monotonic() < deadline:
        if typed and prompt in shown:
            os.write(terminal, typed)
            typed = b""
        if not select.select([terminal], [], [], 1)[0]:
            continue
        try:
            more = os.read(terminal, 65536)
        except OSError:
            # (Linux answers EIO where the last program has closed its side)
            more = b""
        if not more:
            return shown
        shown += more
    return None


def main(command, prompt="", typed=""):
    child, terminal = pty.fork()
    if child == 0:
        os.execvp("bash", ["bash", "-c", command])
    shown = shown_by(terminal, prompt.encode(), typed.encode())
    if shown is None:
        os.kill(child, signal.SIGKILL)
        sys.exit(f"{command} has not ended after {MAX_SECONDS} seconds")
    os.waitpid(child, 0)
    sys.stdout.buffer.write(shown)


if __name__ == "__main__":
    if len(sys.argv) not in (2, 4):
        sys.exit(__doc__)
    main(*sys.argv[1:])
