# SPDX-License-Identifier: Apache-2.0
"""Tools and programs that are not there: one line says which, and which Debian package has it."""
import shutil
from pathlib import Path

from room import TOP, Room


def test_missing_tools(room: Room, two: Path) -> None:
    """A command that lacks a tool says so before it begins."""
    assert two.is_dir()
    (room / "hot").mkdir()
    room.refused(3, r"press-plates: gs is not there \(Debian: apt install ghostscript\)", "plates", "two.pdf", "new", env=room.without("gs"))
    path = room.without("parallel")
    room.refused(3, r"press-farm: parallel is not there \(Debian: apt install parallel\)", "farm", "two.pdf", "new", env=path)
    room.refused(3, r"press-watch: gs is not there \(Debian: apt install ghostscript\)", "watch", "hot", env=room.without("gs"))


def test_no_converters(room: Room, two: Path) -> None:
    """Plates and TIFF files need none of Netpbm's tools."""
    path = room.without("tifftopnm", "pamtotiff")
    room.goes("plates", "two.pdf", "new", "--kind", "Gold Foil=Normal", env=path)
    assert (room / "new/Cyan.pgm").read_bytes() == (two / "Cyan.pgm").read_bytes()
    room.goes("tiff", "--untrapped", "two", "tiffs", env=path)
    assert (room / "tiffs/two-1(Cyan).tif").stat().st_size > 0


def test_missing_programs(room: Room, two: Path) -> None:
    """The programs trapsheet and presscheck are looked for in TRAP_BIN alone where that is set."""
    assert two.is_dir()
    room.refused(3, r"press-trap: the program trapsheet is not there: no /none/trapsheet", "trap", "two", env={"TRAP_BIN": "/none"})
    room.refused(3, r"press-all: the program trapsheet is not there: .*", "all", "two.pdf", "new", env={"TRAP_BIN": "/none"})
    room.script("trapsheet", "#!/bin/sh\n")
    room.refused(3, r"press-trap: the program presscheck is not there: .*", "trap", "two", "--check", "1",
                 env={"TRAP_BIN": str(room.beside / "stand-ins")})


def test_missing_python_library(room: Room, two: Path) -> None:
    """A Python library that is missing is named with its package."""
    assert two.is_dir()
    (room.beside / "no").mkdir()
    (room.beside / "no" / "numpy.py").write_text('raise ImportError("none", name="numpy")\n')
    room.refused(3, r"press-look: Python's numpy is not there \(Debian: apt install python3-numpy\)", "look", "--untrapped", "two", "new.png",
                 env={"PYTHONPATH": str(room.beside / "no"), "PRESS_PYTHON": "tried"})


def test_repository_without_built_programs(room: Room, two: Path) -> None:
    """In a repository where trapsheet is not built, none is built, and the line says what to do."""
    assert two.is_dir()
    fresh = room.beside / "fresh"
    for name in ("crates/trapsheet", "press", "tools", "bin"):
        (fresh / name).mkdir(parents=True)
    for name in ("VERSION", "programs.txt", "crates.txt", "press/trap", "tools/program"):
        shutil.copy(TOP / name, fresh / name)
    shutil.copytree(TOP / "python" / "press", fresh / "python" / "press", ignore=shutil.ignore_patterns("__pycache__", "static"))
    (fresh / "bin" / "trapsheet").write_text('#!/bin/sh\ntouch "${0%/*}/ran"\nexit 2\n')
    (fresh / "bin" / "trapsheet").chmod(0o755)
    room.refused(3, r"press-trap: the program trapsheet is not built yet: /.*/fresh/bin/trapsheet does it, .*; or TRAP_BIN names .*",
                 fresh / "press" / "trap", "two", env={"TRAP_BIN": None, **room.without("trapsheet")})
    assert not (fresh / "ran").exists(), "a program was built without being asked for"
