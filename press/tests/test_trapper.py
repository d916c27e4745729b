# SPDX-License-Identifier: Apache-2.0
"""The program trap by its second name: the same bytes, lines that say what is wrong, and outputs that stand whole or not at all."""
import os
import subprocess
from pathlib import Path

import pytest
from room import TOP, Room

PLATES = ("Cyan:two/Cyan.pgm:c.out", "Warm_Red:two/Warm_Red.pgm:r.out")
KILLED = """#!/bin/sh
for one; do :; done
echo half >"${one##*:}"
kill -9 $$
"""


@pytest.mark.quick
@pytest.mark.plain
def test_help_and_version(room: Room, programs: Path) -> None:
    """--help prints the usage; --version prints the project's and the program's."""
    assert room.goes("trapper", "--help").out.startswith("Usage: trapper page")
    if (programs / "trap").exists():
        assert room.goes("trapper", "--version").out.startswith(f"trapper (trap) {(TOP / 'VERSION').read_text().strip()}: the program ")


@pytest.mark.usefixtures("built", "two")
def test_bytes_of_trap(room: Room, programs: Path) -> None:
    """The outputs are those of trap, also where a plate comes into its own place, with two workers."""
    room.goes("trapper", "page", "two/page.job", "rep", *PLATES)
    words = [programs / "trap", "page", "two/page.job", "rep2", "Cyan:two/Cyan.pgm:c2.out", "Warm_Red:two/Warm_Red.pgm:r2.out"]
    subprocess.run(words, cwd=room.folder, check=True)
    for one, two in (("rep", "rep2"), ("c.out", "c2.out"), ("r.out", "r2.out")):
        assert (room / one).read_bytes() == (room / two).read_bytes()
    room.write("own.pgm", (room / "two/Cyan.pgm").read_bytes())
    room.goes("trapper", "page", "--workers", "2", "--band=16", "two/page.job", "rep", "Cyan:own.pgm:own.pgm", PLATES[1])
    assert (room / "own.pgm").read_bytes() == (room / "c.out").read_bytes()


@pytest.mark.usefixtures("built", "two")
def test_owner_and_rights_stay(room: Room) -> None:
    """A file that is replaced keeps its owner, group and rights."""
    own = room.write("own.pgm", "")
    try:
        os.chown(own, 12345, 23456)
    except PermissionError:
        pytest.skip("no leave to give a file away")
    own.chmod(0o640)
    room.goes("trapper", "page", "two/page.job", "rep", "Cyan:two/Cyan.pgm:own.pgm", PLATES[1])
    told = own.stat()
    assert (told.st_uid, told.st_gid, told.st_mode & 0o777) == (12345, 23456, 0o640)


@pytest.mark.usefixtures("two")
def test_program_that_is_killed(room: Room) -> None:
    """A program that is killed at its work leaves the plate as it was."""
    own = room.write("own.pgm", (room / "two/Cyan.pgm").read_bytes())
    room.script("trap", KILLED)
    room.refused(137, "trapper: trap ended with -9", "trapper", "page", "two/page.job", "rep", "Cyan:own.pgm:own.pgm",
                 env={"TRAP_BIN": str(room.beside / "stand-ins")})
    assert own.read_bytes() == (room / "two/Cyan.pgm").read_bytes()


@pytest.mark.usefixtures("built", "two")
def test_refusals(room: Room) -> None:
    """Usage errors, and what the program refuses with the file that it speaks of."""
    room.write("c.out", "stays")
    (room / "link.out").symlink_to("c.out")
    (room / "same").symlink_to(".")
    room.write("faulty.job", "%!PS\ngsave\n")
    job, cyan = "two/page.job", "Cyan:two/Cyan.pgm:"
    one_file = r"the OUT of Warm_Red, {}, and the OUT of Cyan, {}, are one file .*"
    for status, line, words in (
            (2, "unknown command pages .*", ["pages"]),
            (2, "--workers is a whole number from 1 to 64, and not '65' .*", ["page", "--workers", "65", job, "rep", *PLATES]),
            (2, "the ink Cyan stands there twice .*", ["page", job, "rep", "Cyan:a:b", "Cyan:c:d"]),
            (2, "'Cy an' in 'Cy an:a:b' is no name of an ink: .*", ["page", job, "rep", "Cy an:a:b"]),
            (2, "'Cyan:a' is not NAME:IN:OUT, .*", ["page", job, "rep", "Cyan:a"]),
            (2, "REPORT is missing .*", ["page", job]),
            (2, one_file.format(r"\./c\.out", r"c\.out"), ["page", job, "rep", cyan + "c.out", "Warm_Red:two/Warm_Red.pgm:./c.out"]),
            (2, one_file.format(r"link\.out", r"c\.out"), ["page", job, "rep", cyan + "c.out", "Warm_Red:two/Warm_Red.pgm:link.out"]),
            (2, one_file.format(r"same/new\.out", r"new\.out"), ["page", job, "rep", cyan + "new.out", "Warm_Red:two/Warm_Red.pgm:same/new.out"]),
            (1, "'Cyan:#E9.pgm:q' is not UTF-8", ["page", job, "rep", "Cyan:\udce9.pgm:q"]),
            (3, r"faulty\.job: line 2: job: UnknownOperator at 5", ["page", "faulty.job", "rep", *PLATES]),
            (4, r"two\.pdf \(Cyan\): plate 0: .*", ["page", job, "rep", "Cyan:two.pdf:c.out"]),
            (5, r"none\.pgm: No such file or directory: read fault: plate 0", ["page", job, "rep", "Cyan:none.pgm:c.out"]),
            (6, r"none/c\.out: No such file or directory: write fault: plate 0", ["page", job, "rep", cyan + "none/c.out"])):
        room.refused(status, f"trapper: {line}", "trapper", *words)
    room.refused(8, "trapper: the program trap is not there: .*", "trapper", "page", job, "rep", *PLATES, env={"TRAP_BIN": "/none"})
