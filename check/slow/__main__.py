# SPDX-License-Identifier: Apache-2.0
"""python3 -m slow [--whole] PROGRAM WORD ...: the slow program on real files, with the words of the program named.

With --whole the nearest edge of each sample is sought over the whole page, however large it is.
"""
import sys

from . import PROGRAMS, rule, run
from .outside import Disk


def main(words):
    if words[:1] == ["--whole"]:
        rule.large_page = sys.maxsize
        words = words[1:]
    if not words or words[0] not in PROGRAMS:
        print("slow: the program's name is one of " + ", ".join(PROGRAMS), file=sys.stderr)
        return 2
    return run(words[0], words[1:], Disk())


sys.exit(main(sys.argv[1:]))
