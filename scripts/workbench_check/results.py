"""What has passed and what has failed"""
from __future__ import annotations

import sys

MOST_SHOWN = 8


class Results:
    def __init__(self):
        self.passed = self.failed = self.skipped = 0

    def note(self, what, differences):
        """A check with the differences that it found: none is a pass"""
        if not differences:
            self.passed += 1
            return
        self.failed += 1
        print("FAILED %s: %d differences" % (what, len(differences)))
        for line in differences[:MOST_SHOWN]:
            print("    " + line)
        sys.stdout.flush()

    def check(self, what, holds, shown=""):
        self.note(what, [] if holds else [str(shown)[:400]])

    def skip(self, reason):
        self.skipped += 1
        print("skipped: " + reason)

    def finish(self):
        print("%d passed, %d failed" % (self.passed, self.failed) + (", %d skipped" % self.skipped if self.skipped else ""))
        return 1 if self.failed else 0
