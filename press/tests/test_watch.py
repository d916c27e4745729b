# SPDX-License-Identifier: Apache-2.0
"""A hot folder: what is taken and what is not, names with anything in them, and a watch that is stopped."""
import configparser
import json
import os
import re
import subprocess
from pathlib import Path
from typing import Iterator

import pytest
from room import LABEL, TOP, Room, needs
from watch_soak import colour, soak, version

pytestmark = [pytest.mark.usefixtures("built"), needs("mutool")]
NAMES = ("$(touch ran).pdf", ' "b]".pdf', "*.PDF")
LOG_LINE = re.compile(r"\d{4}-\d{2}-\d{2} [0-9:]{8} .*: (taken$|done: |failed: )")
FIRST_BYTES = 300
QUICK = ("--settle", "0", "--lenient", "--dpi", "72", "--no-proof")
# The label has traps of 0.15 pt, which would be warned of where they are less than a pixel.
LABEL_DPI = ("--dpi", "480")


class Hot:
    """A hot folder that is watched."""

    def __init__(self, room: Room) -> None:
        self.room, self.folder = room, room / "hot"
        self.folder.mkdir()
        self.child: subprocess.Popen[str] | None = None

    def watch(self, *options: str, env: dict[str, str] | None = None) -> None:
        """Starts to watch the folder."""
        self.watch_all("hot", *options, env=env)

    def watch_all(self, *arguments: str, env: dict[str, str] | None = None) -> None:
        """Starts a watch with these arguments."""
        self.child = self.room.start("watch", *arguments, env=env)
        self.room.wait_until(lambda: "watching" in self.room.complained(), "it does not watch", self.child)

    def claimed(self, name: str) -> Path:
        """The path of a file that is claimed."""
        path, = self.folder.glob(f".claimed/*/in/{name}")
        return path

    def ended(self) -> int:
        """How many files were done or failed."""
        return len(re.findall(": done: |: failed: ", self.room.printed()))

    def wait(self, count: int) -> None:
        """Waits until so many files were done or failed."""
        self.room.wait_until(lambda: self.ended() >= count, f"{count} files are not done", self.child)

    def stop(self) -> None:
        """Stops the watch, which ends well."""
        assert self.child and self.room.stop(self.child) == 0, self.room.complained()
        self.room.rests()
        assert not self.room.left_over()


@pytest.fixture(name="hot")
def fixture_hot(room: Room) -> Iterator[Hot]:
    """A hot folder."""
    yield Hot(room)


def test_files_are_done(room: Room, hot: Hot) -> None:
    """Files that lay there before, that come, and whose names a shell would expand, are done, an EPS among them."""
    room.sample("two.pdf", "drawn.eps")
    data = (room / "two.pdf").read_bytes()
    (hot.folder / "first.pdf").write_bytes(data)
    hot.watch("--settle", "1", "--lenient", "--dpi", "72")
    for name in NAMES:
        (hot.folder / name).write_bytes(data)
    (room / "drawn.eps").rename(hot.folder / "drawn.eps")
    hot.wait(2 + len(NAMES))
    hot.stop()
    for name in ("first.pdf", *NAMES, "drawn.eps"):
        done = hot.folder / "done" / os.path.splitext(name)[0]
        assert (done / "page-001" / "trapped").is_dir(), room.printed()
        assert name == "drawn.eps" or (done / name).read_bytes() == data
    assert "\nresolution\t72\n" in (hot.folder / "done/first/page-001/colorants.txt").read_text()
    assert not list(room.folder.rglob("ran"))
    assert all(LOG_LINE.match(line) for line in room.printed().splitlines()), room.printed()


def test_what_is_no_page(room: Room, hot: Hot) -> None:
    """What cannot be done is moved away with a reason; a file that is being written by its name stays."""
    room.sample("two.pdf", "text.pdf")
    (hot.folder / "note").write_text("stays\n")
    (hot.folder / "folder.pdf").mkdir()
    os.mkfifo(hot.folder / "pipe.pdf")
    (hot.folder / "link.pdf").symlink_to("../two.pdf")
    (hot.folder / "writing.part").touch()
    hot.watch("--settle", "0", "--lenient", "--dpi", "72")
    (room / "text.pdf").rename(hot.folder / "text.pdf")
    hot.wait(5)
    hot.stop()
    for name, reason in (("text", "Ghostscript cannot read it"), ("link", "a link: "), ("folder", "a folder"), ("pipe", "no regular file"),
                         ("note", "no page")):
        assert reason in (hot.folder / "failed" / name / "why.txt").read_text(), room.printed()
    assert (hot.folder / "writing.part").exists()


def test_files_that_are_open(room: Room, hot: Hot) -> None:
    """A file that another process has open to write is left until it is closed."""
    room.sample("two.pdf")
    data = (room / "two.pdf").read_bytes()
    with open(hot.folder / "open.pdf", "wb", buffering=0) as file:
        file.write(data[:FIRST_BYTES])
        hot.watch("--settle", "0", "--lenient", "--dpi", "72")
        (hot.folder / "other.pdf").write_bytes(data)
        hot.wait(1)
        assert (hot.folder / "open.pdf").exists(), room.printed()
        file.write(data[FIRST_BYTES:])
    hot.wait(2)
    hot.stop()
    assert (hot.folder / "done/open/open.pdf").read_bytes() == data


def test_one_watch_for_a_folder(room: Room, hot: Hot) -> None:
    """A second watch of a folder is refused."""
    hot.watch()
    done = room.run("watch", "hot")
    assert done.status == 8, done
    assert re.search(rf"^press-watch: hot: another run is at work here \(process {hot.child.pid} on .*: press-watch\)$", done.err), done
    hot.stop()
    room.refused(4, "press-watch: none: No such directory", "watch", "none")


def test_work_that_is_stopped_is_done_later(room: Room, hot: Hot) -> None:
    """A file that is at work when the watch is stopped stays claimed; the next watch makes it."""
    room.sample("two.pdf")
    data = (room / "two.pdf").read_bytes()
    (room.beside / "slow-now").touch()
    hot.watch(*QUICK, env=room.slow_ghostscript())
    (hot.folder / "slow.pdf").write_bytes(data)
    room.wait_until((room.beside / "slow-begun").exists, "slow.pdf is not taken", hot.child)
    hot.stop()
    assert hot.claimed("slow.pdf").read_bytes() == data and not (hot.folder / "done" / "slow").exists()
    hot.watch(*QUICK)
    hot.wait(1)
    hot.stop()
    assert (hot.folder / "done/slow/slow.pdf").read_bytes() == data and not list(hot.folder.glob(".claimed/*"))
    assert "slow.pdf: taken again" in room.printed()


def test_replaced_while_it_is_made(room: Room, hot: Hot) -> None:
    """A file that is replaced while it is made, or whose name has a newline, is made: each version has the plates of its bytes."""
    room.sample("two.pdf")
    first, second = (room / "two.pdf").read_bytes(), version(200, 0)
    (room.beside / "slow-now").touch()
    hot.watch(*QUICK, env=room.slow_ghostscript())
    (hot.folder / "a\nb.pdf").write_bytes(first)
    room.wait_until((room.beside / "slow-begun").exists, "a file is not taken", hot.child)
    (hot.folder / "a\nb.pdf").write_bytes(second)
    assert hot.child and room.stop(hot.child, 9) == -9
    room.rests()
    (room.beside / "slow-now").unlink()
    hot.watch(*QUICK)
    hot.wait(2)
    hot.stop()
    assert (hot.folder / "done/a\nb/a\nb.pdf").read_bytes() == first and (hot.folder / "done/a\nb-2/a\nb.pdf").read_bytes() == second
    assert (hot.folder / "done/a\nb/page-001/Warm_Red.pgm").exists() and colour(hot.folder / "done/a\nb-2/page-001") == 200


def test_half_written(room: Room, hot: Hot) -> None:
    """Also --lenient refuses a file of which a writer has written the first bytes alone, and says so."""
    hot.watch(*QUICK, "--wait", "1")
    (hot.folder / "half.pdf").write_bytes(version(1, 1000)[:900])
    hot.wait(1)
    hot.stop()
    assert (hot.folder / "failed/half/why.txt").read_text() == "incomplete: there is no %%EOF at its end\n"


FOLDERS = """
[log]
file = "watch.log"
[[folder]]
path = "hot"
dpi = 72
lenient = true
settle = 0
outputs = ["pdf", "plates"]
width = "2pt"
command = ["sh", "-c", 'echo "$PRESS_STATE $0" >>told']
[[folder]]
path = "other"
dpi = 144
lenient = true
settle = 0
files = 2
done = "made"
outputs = ["tiff"]
"""


def test_several_folders(room: Room, hot: Hot) -> None:
    """A configuration file has several folders, each with its own options and kinds of output, a command and a log."""
    room.sample("two.pdf")
    (room / "other").mkdir()
    room.write("watch.toml", FOLDERS)
    for name in ("hot/a.pdf", "hot/b.pdf", "other/c.pdf"):
        room.write(name, (room / "two.pdf").read_bytes())
    room.write("hot/b.pdf", "no PDF")
    hot.watch_all("--config", "watch.toml")
    log = room / "watch.log"
    room.wait_until(lambda: len(re.findall(": done: |: failed: ", log.read_text())) == 3, "not all is done", hot.child)
    done = room.run("watch", "--status", "--config", "watch.toml", "--json")
    found = [json.loads(line) for line in done.out.splitlines()]
    room.wait_until(lambda: (room / "told").exists() and (room / "told").read_text().count("\n") == 2, "the command does not run", hot.child)
    hot.stop()
    assert [(one["done"], one["failed"]) for one in found] == [(1, 1), (1, 0)] and f"process {hot.child.pid} " in found[0]["watched_by"]
    assert sorted((room / "told").read_text().splitlines()) == [f"done {hot.folder}/done/a/job.json", f"failed {hot.folder}/failed/b/job.json"]
    assert sorted(path.name for path in (room / "hot/done/a").iterdir() if path.suffix == ".pdf") == ["a-trapped.pdf", "a.pdf"]
    assert (room / "hot/done/a/page-001/Cyan.pgm").exists() and not (room / "hot/done/a/page-001/tiff").exists()
    assert "/TrapWidth 2 " in (room / "hot/done/a/page-001/page.job").read_text()
    assert (room / "made/c/page-001/tiff").is_dir() and not (room / "made/c/page-001/Cyan.pgm").exists()
    assert "\nresolution\t144\n" in (room / "made/c/page-001/colorants.txt").read_text()
    why = json.loads((room / "hot/failed/b/job.json").read_text())["watch"]
    assert why["state"] == "failed" and "Ghostscript cannot read it" in why["why"][0]


def test_json_lines(room: Room, hot: Hot) -> None:
    """With --json the log has an object for each event, those of the run among them."""
    room.sample("two.pdf")
    (hot.folder / "a.pdf").write_bytes((room / "two.pdf").read_bytes())
    hot.watch(*QUICK, "--json")
    room.wait_until(lambda: '"event": "done"' in room.printed(), "a.pdf is not done", hot.child)
    hot.stop()
    lines = [json.loads(line) for line in room.printed().splitlines()]
    assert all(one["folder"] == "hot" and one["name"] == "a.pdf" and re.match(r"\d{4}-\d\d-\d\dT", one["time"]) for one in lines)
    assert [one["event"] for one in lines][::len(lines) - 1] == ["taken", "done"] and "page-done" in [one["event"] for one in lines]
    assert lines[-1]["place"] == "hot/done/a"


def test_warnings_refuse_a_file(room: Room, hot: Hot) -> None:
    """Without --lenient a file that is warned of is refused."""
    room.sample("damaged.pdf")
    hot.watch("--settle", "0")
    (room / "damaged.pdf").rename(hot.folder / "damaged.pdf")
    hot.wait(1)
    hot.stop()
    why = (hot.folder / "failed/damaged/why.txt").read_text()
    assert re.search(r"damaged\.pdf: .*Ghostscript finds faults .* \(a warning, and --lenient is not given\)$", why), why


def test_slow_writer_and_moved_file(room: Room, hot: Hot) -> None:
    """A label that is written slowly, one that is moved in, and a file that is no PDF. Tables and zones beside them stay."""
    for file in LABEL.parent.iterdir():
        if file.suffix in (".inks", ".zones"):
            (hot.folder / file.name).write_bytes(file.read_bytes())
            (hot.folder / file.name.replace("label", "moved")).write_bytes(file.read_bytes())
    data = LABEL.read_bytes()
    hot.watch("--settle", "1", *LABEL_DPI)
    (hot.folder / "broken.pdf").write_text("no PDF")
    with open(hot.folder / "label.pdf", "wb", buffering=0) as file:
        file.write(data[:30_000])
        room.write("moved.pdf", data).rename(hot.folder / "moved.pdf")
        hot.wait(2)
        file.write(data[30_000:])
    hot.wait(3)
    hot.stop()
    assert (hot.folder / "failed/broken/why.txt").stat().st_size > 0
    for name in ("label", "moved"):
        assert (hot.folder / "done" / name / f"{name}.pdf").read_bytes() == data
    room.goes("all", "--quiet", *LABEL_DPI, LABEL, "label")
    assert same_pages(room / "label", hot.folder / "done" / "label") == 2


def same_pages(one: Path, two: Path) -> int:
    """Asserts that the pages of two runs have the same files, byte for byte; answers how many pages there are."""
    pages = sorted(one.glob("page-*"))
    for page in pages:
        for file in (path for path in page.rglob("*") if path.is_file()):
            assert file.read_bytes() == (two / page.name / file.relative_to(page)).read_bytes(), file
    return len(pages)


def test_killed_watch(room: Room, hot: Hot) -> None:
    """Nothing of a watch that is killed outright goes on, and its file stays claimed."""
    (room.beside / "slow-now").touch()
    hot.watch("--settle", "0", "--lenient", "--dpi", "300", env=room.slow_ghostscript("*tiffsep*-r300*"))
    (hot.folder / "big.pdf").write_bytes(LABEL.read_bytes())
    room.wait_until((room.beside / "slow-begun").exists, "big.pdf is not taken", hot.child)
    assert hot.child and room.stop(hot.child, 9) == -9
    room.rests()
    assert hot.claimed("big.pdf").read_bytes() == LABEL.read_bytes()
    room.clear_temporary()


def test_usage(room: Room) -> None:
    """Without a folder the house's watch.toml is taken, if there is one."""
    room.refused(2, r"press-watch: DIR is missing \(see press-watch --help\)", "watch")
    room.refused(4, r"press-watch: none: No such directory", "watch", "--status", "none")
    (room.beside / "house/watch.toml").write_text('[[folder]]\npath = "none"\n')
    room.refused(4, rf"press-watch: {room.beside}/house/none: No such directory", "watch")


def test_systemd_unit(room: Room, hot: Hot) -> None:
    """The unit of the Debian package starts the installed command with the user's watch.toml, stops it by SIGTERM alone, and starts it
    again if it was killed."""
    unit = configparser.ConfigParser(strict=False, interpolation=None)
    unit.read(TOP / "debian" / "trap.press-watch@.service")
    program, *arguments = unit["Service"]["ExecStart"].split()
    assert (program, arguments) == ("/usr/bin/press", ["watch"])
    assert [unit["Service"][key] for key in ("User", "KillMode", "Restart")] == ["%i", "mixed", "on-failure"]
    assert unit["Unit"]["Documentation"] == "man:press-watch(1)" and (TOP / "man" / "press-watch.1").is_file()
    home = room.beside / "home"
    (home / ".config/press").mkdir(parents=True)
    (home / ".config/press/watch.toml").write_text(f"[[folder]]\npath = '{hot.folder}'\n")
    hot.child = room.start("press", *arguments, env={"HOME": str(home), "PRESS_HOUSE": None})
    room.wait_until(lambda: f"watching {hot.folder}\n" in room.complained(), "it does not watch", hot.child)
    hot.stop()


def test_small_soak(tmp_path: Path, built: None) -> None:
    """A few files of three writers, with kills: the soak of watch_soak.py in small."""
    counts = soak(tmp_path, 9, 2, 1)
    assert counts["done"] > 0 and counts["kills"] == 2


@pytest.mark.soak
@pytest.mark.parametrize("seed", [1, 2, 3])
def test_soak(tmp_path: Path, built: None, seed: int) -> None:
    """The soak: 300 files, some of which are replaced, renamed, truncated, overwritten or withdrawn, with 30 kills."""
    counts = soak(tmp_path, 300, 30, seed)
    assert counts["versions"] >= 300 and counts["kills"] == 30
