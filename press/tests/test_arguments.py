# SPDX-License-Identifier: Apache-2.0
"""Usage errors, --help, --version and completion of all press commands."""
import re
import subprocess

import pytest
from room import COMMANDS, TOP, Room

pytestmark = [pytest.mark.quick, pytest.mark.plain]

COMMAND_NAMES = ("preflight", "plates", "zones", "trap", "tiff", "pdf", "screen", "look", "proof", "all", "compare", "desk", "farm", "watch", "slurm-here", "press")
# A command line of each command that lacks nothing.
COMPLETE = {"plates": ["two.pdf", "new"], "zones": ["two"], "trap": ["two"], "tiff": ["two", "new"], "look": ["two", "new.png"], "all": ["two.pdf", "new"], "compare": ["two", "two"],
            "farm": ["two.pdf", "new"], "watch": ["hot"], "preflight": ["two.pdf"], "proof": ["two"]}
SEE = r" \(see press-{} --help\)"
# Usage errors: the words, and how the line begins after the command's name.
WRONG_VALUES = [
    ("plates", "--dpi needs a value .*", ["two.pdf", "new", "--dpi"]),
    ("plates", "--dpi is a whole number from 1 to 10000, and not '0' .*", ["two.pdf", "new", "--dpi", "0"]),
    ("plates", "--dpi is a whole number from 1 to 10000, and not '6e2' .*", ["two.pdf", "new", "--dpi=6e2"]),
    ("plates", "--page is a whole number .* '-1' .*", ["two.pdf", "new", "--page", "-1"]),
    ("plates", "--box is one of .*", ["two.pdf", "new", "--box", "paper"]),
    ("plates", "--force takes no value .*", ["two.pdf", "new", "--force=yes"]),
    ("plates", "--density Gold: a density is .* 'much' .*", ["two.pdf", "new", "--density", "Gold=much"]),
    ("plates", "--density Gold: a density is .* '11' .*", ["two.pdf", "new", "--density", "Gold=11"]),
    ("plates", "--density is NAME=VALUE, and not 'Gold' .*", ["two.pdf", "new", "--density", "Gold"]),
    ("plates", "--kind Gold: a kind is Normal, .* 'Metal' .*", ["two.pdf", "new", "--kind", "Gold=Metal"]),
    ("plates", "bad.inks: line 2: an ink is .*", ["two.pdf", "new", "--inks", "bad.inks"]),
    ("trap", "--workers is a whole number from 1 to 64, and not '65' .*", ["two", "--workers", "65"]),
    ("trap", "--check is a whole number from 0 to 16, and not '17' .*", ["two", "--check", "17"]),
    ("farm", "--jobs is a whole number .*", ["two.pdf", "new", "--jobs", "0"]),
    ("watch", "--settle is a whole number .*", ["hot", "--settle", "soon"]),
    ("slurm-here", "start or stop, .*", ["restart", "hot"]),
    ("plates", "--preset: there is no web; there are flexo, gravure, offset, screen .*", ["two.pdf", "new", "--preset", "web"]),
    *[("plates", "--width is a width with its unit, .*", ["two.pdf", "new", f"--width={value}"])
      for value in ("0.1", "0mm", "1e3mm", "200pt", "mm", "-1mm")],
    ("plates", "--scale is a number from 0 to 1, .*", ["two.pdf", "new", "--scale", "2"]),
    ("plates", "--step is a number from 0 to 100, .*", ["two.pdf", "new", "--step", "101%"]),
    ("plates", "--tiff is NAME=FILE, .*", ["--tiff", "Cyan", "new"]),
    ("all", "--page is a whole number from 3 to 999999, and not '2' .*", ["--page", "3-2", "two.pdf", "new"]),
]


@pytest.fixture(name="folder")
def fixture_folder(room: Room) -> Room:
    """A folder with a file, a folder that is no page, and a wrong table."""
    room.sample("two.pdf")
    (room / "hot").mkdir()
    (room / "hot" / "note").write_text("stays\n")
    room.write("bad.inks", "Gold\t1\nno ink\n")
    return room


@pytest.mark.parametrize("command", COMMAND_NAMES)
def test_help_has_usage_and_all_statuses(room: Room, command: str) -> None:
    """--help prints the usage and the table of statuses."""
    told = room.goes(command, "--help").out
    assert told.startswith("Usage: "), told
    assert "\n  10 " in told, told


@pytest.mark.parametrize("command", COMMAND_NAMES)
def test_version(room: Room, command: str) -> None:
    """--version prints the command's name and the project's version."""
    name = "press" if command == "press" else f"press-{command}"
    assert room.goes(command, "--version").out == f"{name} (trap) {(TOP / 'VERSION').read_text().strip()}\n"


@pytest.mark.parametrize("command", COMPLETE)
def test_unknown_options_and_operands(folder: Room, command: str) -> None:
    """Each command refuses options that it does not have, an operand too many, and one too few."""
    words, see = COMPLETE[command], SEE.format(command)
    folder.refused(2, f"press-{command}: unknown option --dip{see}", command, "--dip=600", *words)
    folder.refused(2, f"press-{command}: unknown option -x{see}", command, *words, "-x")
    folder.refused(2, f"press-{command}: a word too many: much{see}", command, *words, "much")
    folder.refused(2, rf"press-{command}: (IN|IN\.pdf|DIR|A) is missing{see}", command)


@pytest.mark.parametrize("command, line, words", WRONG_VALUES, ids=[f"{one[0]} {' '.join(one[2])}" for one in WRONG_VALUES])
def test_wrong_values(folder: Room, command: str, line: str, words: list[str]) -> None:
    """A value that an option does not take is a usage error that names the option and the value."""
    folder.refused(2, f"press-{command}: {line}", command, *words)


def test_press_has_all_commands(room: Room) -> None:
    """`press NAME` is press/NAME, for each command that its help lists."""
    names = re.findall(r"^  ([a-z][a-z-]+)  ", room.goes("press", "--help").out, re.M)
    assert names == list(COMMAND_NAMES[:-1])
    for name in names:
        assert room.goes("press", name, "--version").out == room.goes(name, "--version").out


def test_press_has_no_other_commands(folder: Room) -> None:
    """press refuses a command that there is none of; farm.sbatch runs under Slurm alone."""
    folder.refused(2, "press: no command print .*", "press", "print")
    folder.refused(2, "farm.sbatch: it is run by sbatch, .*", "farm.sbatch", "two.pdf", "new")


@pytest.mark.parametrize("words, expected", [
    (["preflight", "--js"], "--json"), (["slurm-here", "st"], "start stop"), (["plates", "--kind", "Gold", "=", "Opa"], "Opaque OpaqueIgnore")])
def test_completion(words: list[str], expected: str) -> None:
    """The shell completes options, arguments and kinds of ink."""
    script = '. "$1"; shift; COMP_WORDS=(press "$@"); COMP_CWORD=$#; _press press "${@: -1}" "${@: -2:1}"; echo "${COMPREPLY[*]}"'
    done = subprocess.run(["bash", "-c", script, "-", COMMANDS / "completion" / "press", *words], capture_output=True, text=True, check=True)
    assert done.stdout.strip() == expected, done
