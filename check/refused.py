#!/usr/bin/env python3
# SPDX-License-Identifier: Apache-2.0
"""Refuses each allocation of a run in turn, on small pages, by a library that is preloaded into the built programs.

refused.py [PROGRAM ..]     (all of them where none is named; what is not built is skipped)

Every such run has to end with the status, the text and the files of the run without a refusal, or with 7, the line
`out of memory` (none where the words themselves found no room), and the files as they were before. It needs a C compiler (cc).
"""
import os
import shutil
import subprocess
import sys
import tempfile

import programs

HERE = os.path.dirname(os.path.abspath(__file__))
CRATES = os.path.join(os.path.dirname(HERE), "crates")
PROGRAMS = os.environ.get("CHECK_PROGRAMS")
MOST = 20_000


def program_of(name):
    """The built program, or None."""
    file = os.path.join(PROGRAMS, name) if PROGRAMS else os.path.join(CRATES, name, "out", name)
    return file if os.path.isfile(file) else None


def held(folder):
    """What the files of the folder hold, by their names."""
    found = {}
    for name in sorted(os.listdir(folder)):
        with open(os.path.join(folder, name), "rb") as file:
            found[name] = file.read()
    return found


def outcome(program, words, files, number, library, mark):
    """The status, the text told and the files after a run in which the request of that number is refused, none where it is 0."""
    if os.path.exists(mark):
        os.remove(mark)
    with tempfile.TemporaryDirectory() as folder:
        for name, data in files.items():
            with open(os.path.join(folder, name), "wb") as file:
                file.write(data)
        surroundings = {"LD_PRELOAD": library, "REFUSE": str(number), "REFUSED": mark}
        ran = subprocess.run([program, *words], cwd=folder, env=surroundings, capture_output=True, timeout=180)
        return ran.returncode, ran.stdout, held(folder)


def is_right(name, found, plain, before):
    """Whether the run came out as the one without a refusal, or wanted memory and left all as it was."""
    status, told, files = found
    if found == plain:
        return True
    wanted = 9 if told.startswith(b"job 0") else 7
    if programs.of(name, "keeps_earlier_pages", lambda *_: False)(found, plain, before):
        return True
    return status == wanted and told in programs.of(name, "MEMORY_LINES", [b"out of memory\n"]) and files == before


def refuse_all(name, program, words, files, library, mark):
    """Refuses each request in turn. How many runs there were, how many wanted memory, and the numbers of those that went wrong."""
    plain = outcome(program, words, files, 0, library, mark)
    short, wrong, has_words = 0, [], False
    for number in range(1, MOST):
        found = outcome(program, words, files, number, library, mark)
        if not os.path.exists(mark):
            return number - 1, short, wrong
        short += found != plain
        # `main` copies the words first; where these find no room nothing else is begun, and nothing told.
        has_words = has_words or found[1] != b""
        if not is_right(name, found, plain, files) and (has_words or found != (7, b"", files)):
            wrong.append((number, found[0], found[1]))
    raise SystemExit("check/refused: %s %s asks for memory more than %d times" % (name, " ".join(words), MOST))


def main():
    names = sys.argv[1:] or programs.NAMES
    if not shutil.which("cc"):
        print("check/refused: skipped, there is no C compiler")
        return 0
    bad = 0
    with tempfile.TemporaryDirectory() as room:
        library, mark = os.path.join(room, "refuse.so"), os.path.join(room, "mark")
        subprocess.run(["cc", "-shared", "-fPIC", "-O1", "-o", library, os.path.join(HERE, "refuse.c"), "-ldl"], check=True)
        for name in names:
            program = program_of(name)
            if not program:
                print("%s: skipped, it is not built" % name)
                continue
            for words, files in programs.of(name, "REFUSED"):
                runs, short, wrong = refuse_all(name, program, words, files, library, mark)
                print("%s %s: %d requests, %d runs wanted memory, %d wrong" % (name, " ".join(words), runs, short, len(wrong)))
                for number, status, told in wrong[:5]:
                    print("  request %d: status %d, %r" % (number, status, told))
                bad += len(wrong) + (short == 0)
    return 1 if bad else 0


if __name__ == "__main__":
    sys.exit(main())
