#!/usr/bin/env python3
# SPDX-License-Identifier: Apache-2.0
"""Checks the spelling of the documents by hunspell, in British English, and of all texts by codespell.

Hunspell also knows the first columns of docs/GLOSSARY.md and the crates. Code, names of files and words with capitals
inside are left out. The status is 1 if a word is unknown."""
import argparse
import re
import subprocess
import sys

import plain_english
import workspace

TOP = workspace.TOP
DOCUMENTS = ("*.md", "docs/*.md", "*/README.md", "examples/*/README.md")
# Words that are right here and look like misspelt others: of Rust, of manual pages, and of names.
PASSED = "crate,crates,nd,te,bu,fo,inforce,rouge"
PLAIN = {"src", "ok", "th", "rects", "inkedits", "hotfolder", "icc", "png", "readmes"}
# Programs and libraries, and words of code that goes on over the end of a line.
NAMES = {"cairo", "gs", "inkscape", "libjs", "libtrap", "poppler", "zlib", "lineto", "moveto", "rw", "settrapzone"}
SKIPPED = re.compile(r"^(crates|release|press/tests/inputs|press/inks)/|\.(png|gz|pdf|pgm|icc|edit|zip)$")
NAME = re.compile(r"\S*[_/\\.=@<>]\S*\w|\S*\d\S*")


def words_of(line: str) -> list[str]:
    """The words of a line, without links, names of files and numbers."""
    line = re.sub(r"\[([^\]]*)\]\([^)]*\)", r"\1", line)
    found = re.findall(r"[^\W\d_][^\W\d_']*(?:'[^\W\d_]+)?", NAME.sub(" ", line))
    return [re.sub(r"'s?$", "", word) for word in found if not re.search(r"[a-z][A-Z]", word)]


def known() -> set[str]:
    """The words of the glossary's first columns and of the crates' names, in lower case."""
    lines = (TOP / "docs" / "GLOSSARY.md").read_text(encoding="utf-8").splitlines()
    rows = [line.split("|")[1] for line in lines if line.startswith("|")]
    names = [part for name in workspace.crates() for part in (name, *name.split("_"))]
    words = {word.lower() for row in rows for word in words_of(row.replace("`", ""))}
    return words | PLAIN | NAMES | set(names)


def unknown_words() -> list[str]:
    """The words of the documents that neither the dictionary nor the glossary has, each with its first place."""
    places: dict[str, str] = {}
    for path in [path for pattern in DOCUMENTS for path in sorted(TOP.glob(pattern))]:
        for number, line in plain_english.prose(path):
            for word in words_of(line):
                places.setdefault(word, f"{path.relative_to(TOP)}:{number}")
    passed = known()
    asked = [word for word in places if len(word) > 1 and not word.isupper() and word.lower() not in passed]
    words = ["hunspell", "-d", "en_GB", "-i", "utf-8", "-l"]
    done = subprocess.run(words, input="\n".join(asked), capture_output=True, text=True, check=True)
    return [f"{places[word]}: unknown word: {word}" for word in done.stdout.split()]


def misspelt() -> list[str]:
    """What codespell finds in the texts of the repository."""
    listed = subprocess.run(["git", "ls-files"], cwd=TOP, capture_output=True, text=True, check=True)
    names = [name for name in listed.stdout.splitlines() if not SKIPPED.search(name) and (TOP / name).is_file()]
    done = subprocess.run(["codespell", "-L", PASSED, *names], cwd=TOP, capture_output=True, text=True, check=False)
    return done.stdout.splitlines()


def has_dictionary() -> bool:
    """Whether hunspell has a British dictionary."""
    done = subprocess.run(["hunspell", "-D"], capture_output=True, text=True, check=False, stdin=subprocess.DEVNULL)
    return "/en_GB" in done.stdout + done.stderr


def main() -> int:
    argparse.ArgumentParser(prog="tools/spelling.py", description=__doc__).parse_args()
    if not has_dictionary():
        print("hunspell: skipped, there is no dictionary en_GB (Debian: apt install hunspell-en-gb)", file=sys.stderr)
    found = misspelt() + (unknown_words() if has_dictionary() else [])
    print("\n".join(found) if found else "no word is misspelt")
    return 1 if found else 0


if __name__ == "__main__":
    sys.exit(main())
