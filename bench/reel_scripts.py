#!/usr/bin/env python3
"""reel_scripts.py SEED STEPS: a random script as those of scripts.py, of one exchange at level Round, subscribed."""

import sys

from scripts import Writer


class RoundWriter(Writer):
    def level(self):
        return b"level 10 4 subscribed active"

    def write_script(self):
        self.one_level = True
        self.write_level()
        while self.left:
            self.write_mood()


if __name__ == "__main__":
    if len(sys.argv) != 3:
        sys.exit("usage: reel_scripts.py SEED STEPS")
    RoundWriter(int(sys.argv[1]), int(sys.argv[2])).write_script()
