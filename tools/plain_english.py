#!/usr/bin/env python3
# SPDX-License-Identifier: Apache-2.0
"""Finds words and sentences in text that users read which are not plain English, each with what to write instead.

Text in backquotes, code blocks and lines with the comment "style: keep" are left out. The status is 1 if there is a hit."""
import argparse
import io
import re
import sys
import tokenize
from collections.abc import Iterator
from dataclasses import dataclass
from pathlib import Path

TOP = Path(__file__).resolve().parent.parent
PATTERNS = ("*.md", "docs/*.md", "*/README.md", "examples/*/README.md", "man/*", "press/*", "python/press/*.py",
            "python/press/desk/*.py", "python/trapping/*.py", "library/trap.h")
# Tests, which users do not read.
TESTS = ("test.sh", "try.sh")
# What is written, and what to write instead.
RULES = [(re.compile(pattern), better) for pattern, better in (
    (r"\bstands?\b(?! for| alone| out)", "is, has"),
    (r"\bstood\b", "was"),
    (r"\btold\b|\btells\b", "prints, reports"),
    (r"\bjudged?\b|\bjudging\b", "checks, validates"),
    (r"\bbegun\b", "opened, started"),
    (r"\bheed(s|ed)?\b", "honours"),
    (r"\bof a processor\b", "CPU time"),
    (r"\bby the clock\b", "wall time"),
    (r"\bby (one|two|four|eight|\d+) workers?\b", "with N threads"),
    (r"\bpixels an inch\b", "dpi"),
    (r"\bmisregister\b(?!s)", "misregistration"),
    (r"\bbares?\b|\bbared\b", "gap"),
    (r"\breckon(s|ed|ing)?\b", "estimate"),
    (r"\bdear(er|est)?\b", "expensive"),
    (r"\bis at\b", "is in, works on"),
    (r"\blook(s|ed)? through\b", "validates"),
    (r"\bput out\b", "written"),
    (r"\blet go\b", "released"),
    (r"\bwords of (the|a) command\b|\bwords are no\b|\bcommand'?s words\b", "arguments"),
    (r"\bthese very\b|\bthe very\b", "the same"),
    (r"\bthe (other|second) (program|one)\b", "the reference implementation"),
    (r"\bwrong bod(y|ies)\b", "mutant"),
    (r"\bmade into\b|\bmakes? .{0,30}\bof it\b", "convert"),
    (r"\bcounts before\b|\bcomes before\b", "overrides, precedes"),
    (r"\bis long by\b", "bottleneck"),
    (r"(^|[.;:] )(Of|By|Where) [a-z]", "a sentence that begins with a subject"),
    (r"\bwhere it (is|was|has|does|can)\b", "if, when"),
    (r"\bwhere (memory|one|there|no|none|a|an|that|this) ", "if, when"),
    (r"\bas (many|much|little) as may be\b", "minimal"),
    (r"\bnought\b|\bbeside it\b", "0, next to it"),
    (r"\bby itself\b|\bfor itself\b", "alone, automatically"),
)]


@dataclass(frozen=True)
class Hit:
    """A place that is not plain English."""

    place: str
    line: int
    word: str
    better: str
    text: str


def python_texts(text: str) -> Iterator[tuple[int, str]]:
    """The lines of the strings and comments of a Python program."""
    for token in tokenize.generate_tokens(io.StringIO(text).readline):
        if token.type in (tokenize.STRING, tokenize.COMMENT):
            yield from enumerate(token.string.split("\n"), token.start[0])


def prose(path: Path) -> Iterator[tuple[int, str]]:
    """The numbered lines of a file that a reader sees as text, without code."""
    try:
        text = path.read_text(encoding="utf-8")
    except (UnicodeDecodeError, IsADirectoryError):
        return
    if path.suffix == ".py" or text.startswith("#!/usr/bin/env python3"):
        yield from ((number, line) for number, line in python_texts(text) if "style: keep" not in line)
        return
    lines = text.split("\n")
    fenced = False
    for number, line in enumerate(lines, 1):
        if line.lstrip().startswith("```"):
            fenced = not fenced
        elif not fenced and "style: keep" not in line and not (path.suffix == ".md" and line.startswith("    ")):
            yield number, re.sub(r"`[^`]*`", "``", line)


def default_files() -> list[Path]:
    """The files that users read."""
    found = {path: None for pattern in PATTERNS for path in sorted(TOP.glob(pattern)) if path.is_file()}
    return [path for path in found if path.name not in TESTS]


def hits(paths: list[Path]) -> Iterator[Hit]:
    """What is found in these files."""
    for path in paths:
        place = str(path.relative_to(TOP)) if path.is_relative_to(TOP) else str(path)
        for number, line in prose(path):
            for rule, better in RULES:
                for found in rule.finditer(line):
                    yield Hit(place, number, found[0].strip(" .;:"), better, line.strip())


def main() -> int:
    parser = argparse.ArgumentParser(prog="tools/plain_english.py", description=__doc__)
    parser.add_argument("files", nargs="*", type=Path, metavar="FILE")
    parser.add_argument("--count", action="store_true", help="print the number of hits of each file alone")
    asked = parser.parse_args()
    found = list(hits([path.resolve() for path in asked.files] or default_files()))
    if asked.count:
        for place in dict.fromkeys(hit.place for hit in found):
            print(f"{sum(hit.place == place for hit in found):5}  {place}")
    else:
        for hit in found:
            print(f"{hit.place}:{hit.line}: {hit.word} ({hit.better}): {hit.text[:140]}")
    print(f"{len(found):5} in all")
    return 1 if found else 0


if __name__ == "__main__":
    sys.exit(main())
