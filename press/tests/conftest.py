# SPDX-License-Identifier: Apache-2.0
"""Fixtures of the press room's tests. Every test works in a folder of its own, with an environment that says nothing of the machine."""
import os
import shutil
import subprocess
import sys
from dataclasses import dataclass, field
from pathlib import Path
from typing import Iterator

import pytest

sys.dont_write_bytecode = True
sys.path[:0] = [os.path.dirname(os.path.abspath(__file__)), os.path.join(os.path.dirname(os.path.abspath(__file__)), "..", "..", "python")]
import small_pdf  # noqa: E402
from room import COMMANDS, TOP, Room, there  # noqa: E402

# Variables by which a user, a cluster or a farm changes what a command does.
FOREIGN = ("GS_OPTIONS", "GS_DEVICE", "GS_LIB", "PARALLEL", "PRESS", "PRESS_HELD", "PRESS_LOCAL", "PRESS_PYTHON", "PRESS_HOUSE",
           "SLURM_ARRAY_TASK_ID", "SLURM_SUBMIT_DIR", "TRAP_BIN", "PYTHONPATH")


def pytest_addoption(parser: pytest.Parser) -> None:
    """The dpi of the hostile files."""
    parser.addoption("--worst-dpi", default="300", help="the resolution at which -m worst runs, 300 where it is left out")


def pytest_collection_modifyitems(config: pytest.Config, items: list[pytest.Item]) -> None:
    """The hostile files run by -m worst alone, the browser by -m browser, the linters by -m lint, the soak by -m soak."""
    for mark in ("worst", "browser", "lint", "soak"):
        if mark not in config.getoption("markexpr"):
            left = [item for item in items if item.get_closest_marker(mark)]
            items[:] = [item for item in items if not item.get_closest_marker(mark)]
            if left:
                config.hook.pytest_deselected(items=left)


def program_path(name: str) -> Path | None:
    """Where a program stands: in TRAP_BIN, or where it is built, or unpacked from the release. Nothing here builds one."""
    named = os.environ.get("TRAP_BIN")
    found = Path(named) / name if named else Path(subprocess.run(
        [TOP / "tools" / "program", "--there", name], capture_output=True, text=True, check=False).stdout.strip() or "/nonexistent")
    return found.resolve() if os.access(found, os.X_OK) and found.is_file() else None


@pytest.fixture(scope="session", name="programs")
def fixture_programs(tmp_path_factory: pytest.TempPathFactory) -> Path:
    """A folder with the programs of the press room."""
    folder = tmp_path_factory.mktemp("programs")
    for name in ("trap", "trapsheet", "presscheck", "trapkeep"):
        place = program_path(name)
        if place:
            (folder / name).symlink_to(place)
    return folder


@pytest.fixture(scope="session", name="samples")
def fixture_samples(tmp_path_factory: pytest.TempPathFactory) -> Path:
    """A folder with the small sample files, made once."""
    folder = tmp_path_factory.mktemp("samples")
    small_pdf.write_samples(str(folder))
    return folder


@pytest.fixture(scope="session", name="environment")
def fixture_environment() -> dict[str, str]:
    """The environment of all commands. python3 itself stands first on the PATH, and no wrapper of it, which would start anew each time."""
    environment = {name: value for name, value in os.environ.items() if name not in FOREIGN}
    shell_python = shutil.which("python3") or sys.executable
    python = subprocess.run([shell_python, "-c", "import sys; print(sys.executable)"], capture_output=True, text=True, check=True).stdout.strip()
    environment["PATH"] = f"{os.path.dirname(python)}:{environment['PATH']}"
    environment["LC_ALL"] = "C.UTF-8"
    return environment


def make_room(folder: Path, samples: Path, programs: Path, environment: dict[str, str]) -> Room:
    """A room in a folder."""
    for name in ("work", "temporary", "house"):
        (folder / name).mkdir()
    own = {"TMPDIR": str(folder / "temporary"), "PRESS_HOUSE": str(folder / "house"), "TRAP_BIN": str(programs)}
    return Room(folder / "work", folder, samples, programs, {**environment, **own})


@pytest.fixture(name="room")
def fixture_room(request: pytest.FixtureRequest, tmp_path: Path, samples: Path, programs: Path,
                 environment: dict[str, str]) -> Iterator[Room]:
    """The room of a test. At its end no temporary file may be left."""
    room = make_room(tmp_path, samples, programs, environment)
    room.is_quick = bool(request.node.get_closest_marker("quick")) and COMMANDS == TOP / "press"
    try:
        yield room
    finally:
        room.close()
    assert not os.listdir(room.temporary), f"left among the temporary files: {os.listdir(room.temporary)}"


@dataclass
class Pages:
    """Page folders that several tests need, each made once and copied."""

    room: Room
    made: dict[str, Path] = field(default_factory=dict)

    def plates(self, name: str, *options: str) -> Path:
        """The folder of plates of a sample, with these options."""
        key = f"{name} {' '.join(options)}"
        if key not in self.made:
            folder = self.room / f"page{len(self.made)}"
            self.room.sample(f"{name}.pdf")
            self.room.goes("plates", f"{name}.pdf", folder, *options)
            self.made[key] = folder
        return self.made[key]

    def trapped(self, name: str, *options: str) -> Path:
        """The same, trapped."""
        key = f"trapped {name} {' '.join(options)}"
        if key not in self.made:
            folder = self.room / f"page{len(self.made)}"
            shutil.copytree(self.plates(name, *options), folder)
            self.room.goes("trap", folder)
            self.made[key] = folder
        return self.made[key]


@pytest.fixture(scope="session", name="pages")
def fixture_pages(tmp_path_factory: pytest.TempPathFactory, samples: Path, programs: Path, environment: dict[str, str]) -> Pages:
    """Page folders, made once for all tests of this process."""
    room = make_room(tmp_path_factory.mktemp("pages"), samples, programs, environment)
    room.is_quick = COMMANDS == TOP / "press"
    return Pages(room)


@pytest.fixture(name="two")
def fixture_two(room: Room, pages: Pages) -> Path:
    """The plates of two.pdf as the folder `two`, with the PDF beside it."""
    room.sample("two.pdf")
    shutil.copytree(pages.plates("two", "--kind", "Gold Foil=Normal"), room / "two")
    return room / "two"


@pytest.fixture(name="trapped_two")
def fixture_trapped_two(room: Room, pages: Pages) -> Path:
    """The same, trapped."""
    room.sample("two.pdf")
    shutil.copytree(pages.trapped("two", "--kind", "Gold Foil=Normal"), room / "two")
    return room / "two"


@pytest.fixture(name="built", autouse=False)
def fixture_built(programs: Path) -> None:
    """Skips a test where the program trapsheet is not there."""
    if not (programs / "trapsheet").exists():
        pytest.skip("the program trapsheet is not built")


def pytest_runtest_setup(item: pytest.Item) -> None:
    """A test of commands needs Ghostscript unless it is marked `plain`."""
    if "room" in getattr(item, "fixturenames", ()) and not item.get_closest_marker("plain") and not there("gs"):
        pytest.skip("Ghostscript is not installed")


__all__ = ["COMMANDS"]
