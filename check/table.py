# SPDX-License-Identifier: Apache-2.0
"""The table of programs, programs.txt: their names, in its order, and their usage lines."""
import os

TOP = os.path.dirname(os.path.dirname(os.path.abspath(__file__)))


def rows():
    """The rows of the table: name, exit statuses, heap settings and usage line."""
    with open(os.path.join(TOP, "programs.txt"), encoding="utf-8") as table:
        return [line.rstrip("\n").split(None, 3) for line in table if line.strip() and not line.startswith("#")]


USAGES = {name: usage for name, _, _, usage in rows()}
NAMES = list(USAGES)
