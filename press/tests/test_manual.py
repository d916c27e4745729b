# SPDX-License-Identifier: Apache-2.0
"""Manual pages: each command has one with all options of its --help, they lint, and they are what tools/pages makes."""
import os
import re
import subprocess
from pathlib import Path

import pytest
from room import COMMANDS, TOP, Room, needs

PAGES = {"check": "press-preflight", "farm.sbatch": "press-farm", "press": "press", "trapper": "trapper"}
# Pages of other packages that they speak of need not be installed.
PASSED_OVER = ("referenced manual not found", "operating system explicitly specified")
# What the shell commands share.
NO_COMMANDS = {"press.sh"}
ELSEWHERE = {"--help", "--version", "--sshlogin"}
COMMAND_FILES = sorted(path.name for path in COMMANDS.iterdir() if path.is_file() and os.access(path, os.X_OK) and path.name not in NO_COMMANDS)


@pytest.mark.plain
@pytest.mark.parametrize("command", COMMAND_FILES)
def test_options_stand_in_the_page(room: Room, command: str) -> None:
    """A command's --help has no option that its manual page, or one that this names, does not have."""
    page = PAGES.get(command, f"press-{command}")
    text = (TOP / "man" / f"{page}.1").read_text(encoding="utf-8")
    named = sorted(set(re.findall(r"^\.Xr (press[a-z-]*) 1", text, re.MULTILINE)))
    assert named, f"{page} names no other page"
    texts = [text, *((TOP / "man" / f"{one}.1").read_text(encoding="utf-8") for one in named)]
    told = room.goes(command, "--help").out
    for option in set(re.findall(r"(?<![\w-])--[a-z][a-z-]*[a-z]", told)) - ELSEWHERE:
        found = re.compile(rf"(^|[^a-z-])-{{1,2}}{option[2:]}([^a-z-]|$)", re.MULTILINE)
        assert any(found.search(one.replace(r"\-", "-")) for one in texts), f"{page} has no {option}"


@pytest.mark.plain
@needs("mandoc")
@pytest.mark.parametrize("page", sorted(path.name for path in (TOP / "man").glob("*.[1357]")))
def test_pages_lint(page: str) -> None:
    """mandoc finds nothing wrong."""
    done = subprocess.run(["mandoc", "-Tlint", page], cwd=TOP / "man", capture_output=True, text=True, check=False)
    assert not [line for line in done.stdout.splitlines() if not any(text in line for text in PASSED_OVER)]


@pytest.mark.plain
@needs("pandoc")
def test_pages_are_made(room: Room) -> None:
    """tools/pages has nothing to make anew."""
    done = room.run(Path(TOP / "tools" / "pages"), "--check")
    assert done.status == 0, done


@pytest.mark.plain
def test_functions_are_those_of_the_header() -> None:
    """libtrap(3) has the functions of trap.h, with their types and arguments."""
    page = (TOP / "man" / "libtrap.3").read_text(encoding="utf-8")
    header = re.sub(r"/\*.*?\*/", "", (TOP / "library" / "trap.h").read_text(encoding="utf-8"), flags=re.S)
    declared = {name: (kind, [" ".join(one.split()) for one in arguments.split(",")]) for kind, name, arguments in
                re.findall(r"^(?:static inline )?([a-z_0-9]+|const char \*) ?(trap_\w+)\(([^)]*)\)(?:;| \{)", header, re.M)}
    shown = {name: (kind.strip('"'), re.findall(r'^\.Fa "(.*)"$', arguments, re.M))
             for kind, name, arguments in re.findall(r"^\.Ft (.*)\n\.Fo (\w+)\n((?:\.Fa .*\n)+)\.Fc$", page, re.M)}
    shown |= {name: (kind.strip('"'), re.findall(r'"([^"]*)"', arguments) or [arguments])
              for kind, name, arguments in re.findall(r"^\.Ft (.*)\n\.Fn (\w+) (.*)$", page, re.M)}
    assert shown == declared and len(shown) == 16
    assert set(re.findall(r"^\.Nm (\w+)", page, re.M)) == set(declared)
