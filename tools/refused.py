"""Edits that an earlier run on this machine saw refused. They are kept where `rt` keeps what it has proved and tried,
under a sum of all that decides: the edit, the crate and those below it, the toolchain, and the tools that judge. So an
entry never goes stale. Where a version of `rt` keeps nothing, nor does this.
"""

import hashlib
import os

TOOLS = os.path.dirname(os.path.abspath(__file__))
JUDGES = ("edits.py", "judging.py", "kit.py", "refused.py")
REFUSED = "refused"


def sum_of_judges():
    """Returns a sum of the tools by which edits are judged."""
    judges = hashlib.sha256()
    for it in JUDGES:
        with open(f"{TOOLS}/{it}", "rb") as file:
            judges.update(file.read())
    return judges.hexdigest()


class Refused:
    """What is kept of edits. With `anew` none of it is taken, and all is kept again."""

    def __init__(self, rt, crates, anew=False):
        keeps = hasattr(rt, "Kept") and hasattr(rt, "stamp_of")
        self.rt, self.kept, self.judges = rt, rt.Kept(crates, anew) if keeps else None, sum_of_judges()

    def stamp(self, crate):
        """Returns a sum of all that judges an edit of the crate but the edit, or None where nothing is kept."""
        return f"{self.judges} {self.rt.stamp_of(crate, {})}" if self.kept else None

    def name(self, crate, edit, stamp):
        return self.kept.of_edit(f"{crate.folder}/edits/{edit}.edit", stamp)

    def has(self, crate, edit, stamp):
        """Returns whether the edit of that name was refused under that stamp."""
        return bool(stamp and self.kept.tried(self.name(crate, edit, stamp)))

    def keep(self, crate, judged, stamp):
        """Keeps which of these edits were refused, those without a reason why not, unless the crate has changed since
        the stamp was taken."""
        if stamp and stamp == self.stamp(crate):
            for it in (edit for edit, why in judged.items() if why is None):
                self.kept.keep_tried(self.name(crate, it, stamp), REFUSED, "")
