#!/usr/bin/env python3
# SPDX-License-Identifier: Apache-2.0
"""Compares what the press commands of two commits make of the same files: compare_commits.py ONE TWO [OPTION ...]

Runs press/check and press/all of both commits on the files of examples/, of press/tests/inputs, on the small files of the
tests and on the hostile ones, and compares statuses, printed lines, and each file of the page folders: plates, jobs, tables,
reports and texts byte for byte, TIFF files by their samples and tags, pictures within one level. What differs is printed, and
the status is 1 then. Times and sizes on the disk in printed lines are left aside, and so is how a TIFF file is laid out.

  --dpi N       the resolution, 72 if it is left out
  --only TEXT   the files alone whose names have this text in them; it may be given several times
  --small, --hostile, --inputs   these files alone; all if none of these options is given
  --both OPTION an option that both commits are given, --both=--width=2pt say; it may be given several times
  --two OPTION  the same for the second commit alone, --two=--no-thin-zones say, by which it does what the first one does
  --two-all OPTION   the same for its press/all alone, --two-all=--composite say, which press/check does not have
  --asked       leaves aside and counts what was asked for since the press commands were scripts, by asked_changes.py
  --aside NAME  files of this name are left aside; it may be given several times
  --keep DIR    keeps in DIR what the commits made
"""
import argparse
import base64
import collections
import io
import json
import os
import re
import shutil
import subprocess
import sys
import tempfile
from collections.abc import Iterator
from concurrent.futures import ThreadPoolExecutor
from pathlib import Path
from typing import Any

sys.dont_write_bytecode = True
HERE = Path(__file__).resolve().parent
TOP = HERE.parents[1]
sys.path.insert(0, str(HERE))
import numpy  # noqa: E402
from PIL import Image  # noqa: E402
from asked_changes import FILES, OPTIONS, respelled, rewritten, why_added, without_added  # noqa: E402
from readers import tiff_tags  # noqa: E402
import small_pdf  # noqa: E402
import worst_files  # noqa: E402

Image.MAX_IMAGE_PIXELS = None
JOBS, LONGEST = 2, 1800
# Tags that say how a file is laid out; and texts that another writer of TIFF files put of itself.
LAYOUT = {254, 266, 269, 273, 278, 279, 305}
OTHER_WRITER = {270: b"converted PNM file"}
DEFAULTS = {277: [1], 284: [1]}
PICTURE = re.compile(r"data:image/(?:png|jpeg);base64,([A-Za-z0-9+/=]+)")
# What two runs never have in common: seconds, bytes on the disk, and a process's number.
CHANGING = ((re.compile(r", \d+\.\d s, [\d.]+ [MG]B of disk"), ", SECONDS, SIZE"), (re.compile(r"process \d+"), "process N"))


def tags_of(path: Path) -> list[dict[int, object]]:
    """The tags of each page of a TIFF file that say something of its samples."""
    names = {tag: str(tag) for tag in range(254, 400) if tag not in LAYOUT}
    pages = []
    for page in tiff_tags(path, names):
        tags: dict[int, object] = {**DEFAULTS, **{int(name): value for name, value in page.items()}}
        pages.append({tag: value for tag, value in tags.items()
                      if not (tag in OTHER_WRITER and OTHER_WRITER[tag] in bytes(str(value), "utf-8"))})
    return pages


def samples_of(path: Path) -> list[numpy.ndarray]:
    """The samples of each page of a TIFF file."""
    with Image.open(path) as image:
        pages = []
        for page in range(getattr(image, "n_frames", 1)):
            image.seek(page)
            pages.append(numpy.asarray(image).copy())
        return pages


def tiffs_differ(one: Path, two: Path) -> str | None:
    """How two TIFF files differ, or None. A file that Pillow has no mode for is compared byte for byte."""
    first, second = tags_of(one), tags_of(two)
    if first != second:
        return f"tags {first} and {second}"
    try:
        pairs = list(zip(samples_of(one), samples_of(two), strict=True))
    except (OSError, SyntaxError):
        return None if one.read_bytes() == two.read_bytes() else "bytes, of channels that are not read here"
    return None if all(numpy.array_equal(a, b) for a, b in pairs) else "samples"


def pictures_differ(one: bytes, two: bytes) -> str | None:
    """How two pictures differ by more than one level, or None."""
    first, second = (numpy.asarray(Image.open(io.BytesIO(data))).astype("i2") for data in (one, two))
    if first.shape != second.shape:
        return f"sizes {first.shape} and {second.shape}"
    most = int(abs(first - second).max(initial=0))
    return f"pictures by {most} levels" if most > 1 else None


def text_of(text: str) -> str:
    """A text without what two runs never have in common."""
    for pattern, instead in CHANGING:
        text = pattern.sub(instead, text)
    return text


def sheet_pictures_differ(one: str, two: str) -> str | None:
    """How the pictures of two proof sheets differ by more than one level, or None."""
    first, second = PICTURE.findall(one), PICTURE.findall(two)
    if len(first) != len(second):
        return f"{len(first)} and {len(second)} pictures"
    pairs = ((base64.b64decode(a), base64.b64decode(b)) for a, b in zip(first, second) if a != b)
    return next(filter(None, (pictures_differ(*pair) for pair in pairs)), None)


def flat(name: str, value: Any) -> Iterator[str]:
    """A text of JSON as lines, of each value the keys that lead to it."""
    for key, one in value.items() if isinstance(value, dict) else enumerate(value) if isinstance(value, list) else ():
        yield from flat(f"{name}.{key}" if name else str(key), one)
    if not isinstance(value, (dict, list)):
        yield f"{name}: {value}"


def lines_of(path: Path) -> list[str]:
    """The lines of a text file; of a proof sheet its tags with what follows each, of JSON its values."""
    text = path.read_text(errors="surrogateescape")
    if path.suffix == ".json":
        return list(flat("", json.loads(text)))
    if is_sheet(path):
        sheet = PICTURE.sub("PICTURE", text)
        text = re.sub("(?=<)", "\n", without_added(sheet) if ASIDE.counts is not None else sheet)
    if ASIDE.counts is not None and (is_sheet(path) or path.name == "page.job"):
        text = respelled(text)
    return [line for line in text_of(text).splitlines() if line or not is_sheet(path)]


def is_sheet(path: Path) -> bool:
    """Whether a file is a proof sheet or a part of one."""
    return path.suffix == ".html" or path.name == "proof.part"


def texts_differ(what: str, one: list[str], two: list[str]) -> Iterator[str]:
    """The lines that one of two texts has and the other has not; or that their order is another one."""
    first, second = ([rewritten(f"{what}: {line}") if ASIDE.counts is not None else f"{what}: {line}" for line in lines]
                     for lines in (one, two))
    lost, more = (list((collections.Counter(a) - collections.Counter(b)).elements()) for a, b in ((first, second), (second, first)))
    yield from (f"only the first has {line}" for line in lost if not ASIDE.takes(line))
    yield from (f"only the second has {line}" for line in more if not ASIDE.takes(line))
    if not lost and not more and first != second:
        yield f"{what}: another order"


class Aside:
    """The differences that were asked for, counted by their reason; or none, if they are not left aside."""

    counts: collections.Counter[str] | None = None

    def takes(self, line: str) -> bool:
        """Whether a line or a file that one commit alone has was asked for."""
        why = why_added(line) if self.counts is not None else None
        if why and self.counts is not None:
            self.counts[why] += 1
        return bool(why)


ASIDE = Aside()


def files_differ(name: str, one: Path, two: Path) -> Iterator[str]:
    """How two files of page folders differ."""
    found: str | None = None
    if one.suffix == ".tif":
        found = tiffs_differ(one, two)
    elif one.suffix == ".png":
        found = pictures_differ(one.read_bytes(), two.read_bytes())
    elif one.suffix == ".pgm":
        found = None if one.read_bytes() == two.read_bytes() else "bytes"
    else:
        yield from texts_differ(name, lines_of(one), lines_of(two))
        if is_sheet(one):
            found = sheet_pictures_differ(one.read_text(errors="replace"), two.read_text(errors="replace"))
    if found:
        yield f"{name}: {found}"


def folders_differ(one: Path, two: Path, aside: list[str]) -> Iterator[str]:
    """How what two runs made differs, but for files of some names."""
    first, second = ({str(path.relative_to(place)) for path in place.rglob("*") if path.is_file() and path.name not in aside}
                     for place in (one, two))
    yield from (f"{name}: only the first commit has it" for name in sorted(first - second))
    yield from (f"{name}: only the second commit has it" for name in sorted(second - first) if not ASIDE.takes(name))
    for name in sorted(first & second):
        yield from files_differ(name, one / name, two / name)


class Commit:
    """A commit's commands, in a work tree of their own, and what they make."""

    def __init__(self, name: str, place: Path) -> None:
        self.tree, self.out = place / "tree", place / "out"
        subprocess.run(["git", "-C", TOP, "worktree", "add", "--quiet", "--detach", self.tree, name], check=True)
        self.out.mkdir()

    def remove(self) -> None:
        """Takes the work tree away."""
        subprocess.run(["git", "-C", TOP, "worktree", "remove", "--force", self.tree], check=True)

    def run(self, command: str, inputs: Path, words: list[str]) -> subprocess.CompletedProcess[str]:
        """Runs a command in the folder of inputs."""
        foreign = ("GS_OPTIONS", "PRESS_HELD", "PRESS_PYTHON", "SLURM_ARRAY_TASK_ID", "PYTHONPATH")
        environment = {name: value for name, value in os.environ.items() if name not in foreign}
        environment.update(TRAP_BIN=str(programs()), PRESS_HOUSE="/nonexistent", LC_ALL="C.UTF-8")
        return subprocess.run([self.tree / "press" / command, *words], cwd=inputs, env=environment, stdin=subprocess.DEVNULL,
                              capture_output=True, encoding="utf-8", errors="surrogateescape", timeout=LONGEST, check=False)


def programs() -> Path:
    """The folder of the trapping programs, the same for both commits."""
    named = os.environ.get("TRAP_BIN")
    return Path(named).resolve() if named else TOP / "out" / "release"


def compare(name: str, inputs: Path, commits: tuple[Commit, Commit], options: argparse.Namespace) -> list[str]:
    """How the commits differ on a file."""
    found: list[str] = []
    both = ["--dpi", options.dpi, *options.both, *(OPTIONS.get(name, []) if options.asked else [])]
    for command, words in (("check", both), ("all", [*both, "--look"])):
        ends = []
        for commit, own in zip(commits, ([], options.two_options + options.two_all * (command == "all"))):
            place = [os.path.relpath(commit.out / name, inputs)] if command == "all" else []
            ends.append(commit.run(command, inputs, [*words, *own, "--", name, *place]))
            ends[-1].stdout, ends[-1].stderr = (text.replace(place[0], "OUT") if place else text
                                                for text in (ends[-1].stdout, ends[-1].stderr))
        one, two = ends
        if one.returncode != two.returncode:
            found.append(f"{command}: status {one.returncode} and {two.returncode}: {one.stderr[-300:]} {two.stderr[-300:]}")
        for first, second in ((one.stdout, two.stdout), (one.stderr, two.stderr)):
            # Pages may end in another order.
            lines = [sorted(text_of(text).splitlines()) for text in (first, second)]
            found += [f"{command}: {line}" for line in texts_differ("printed", *lines)]
    found += folders_differ(commits[0].out / name, commits[1].out / name, options.aside)
    if ASIDE.counts is None or name not in FILES:
        return found
    ASIDE.counts[FILES[name]] += len(found)
    return []


def write_inputs(folder: Path, options: argparse.Namespace) -> list[str]:
    """Writes the inputs into a folder. Answers the files to compare."""
    every = not (options.small or options.hostile or options.inputs)
    if every or options.inputs:
        for place in [HERE / "inputs", *(TOP / "examples").iterdir()]:
            for path in place.iterdir() if place.is_dir() else ():
                if path.suffix in (".pdf", ".inks", ".zones"):
                    shutil.copyfile(path, folder / path.name)
    if every or options.small:
        small_pdf.write_samples(str(folder))
        (folder / "huge.pdf").unlink()
    if every or options.hostile:
        list(worst_files.write_files(str(folder)))
    names = [path.name for path in sorted(folder.iterdir()) if path.suffix in (".pdf", ".eps", ".ps", ".ai")]
    return [name for name in names if not options.only or any(text in name for text in options.only)]


def parsed() -> argparse.Namespace:
    """The arguments."""
    parser = argparse.ArgumentParser(usage=__doc__, allow_abbrev=False)
    parser.add_argument("one")
    parser.add_argument("two")
    parser.add_argument("--dpi", default="72")
    parser.add_argument("--only", action="append")
    parser.add_argument("--both", action="append", default=[])
    parser.add_argument("--two", action="append", dest="two_options", default=[])
    parser.add_argument("--two-all", action="append", default=[])
    parser.add_argument("--aside", action="append", default=[])
    parser.add_argument("--asked", action="store_true")
    parser.add_argument("--keep", type=Path)
    for name in ("--small", "--hostile", "--inputs"):
        parser.add_argument(name, action="store_true")
    return parser.parse_args()


def main() -> int:
    """Compares the commits, and answers 1 where they differ."""
    options = parsed()
    ASIDE.counts = collections.Counter() if options.asked else None
    different = 0
    with tempfile.TemporaryDirectory(prefix="compare-") as scratch:
        place = options.keep.resolve() if options.keep else Path(scratch)
        for name in ("inputs", "one", "two"):
            (place / name).mkdir(parents=True)
        commits = Commit(options.one, place / "one"), Commit(options.two, place / "two")
        try:
            names = write_inputs(place / "inputs", options)
            with ThreadPoolExecutor(JOBS) as pool:
                for name, found in zip(names, pool.map(lambda name: compare(name, place / "inputs", commits, options), names)):
                    print(f"{name}: {'the same' if not found else 'DIFFERENT'}", flush=True)
                    for line in found:
                        print(f"    {line}", flush=True)
                    different += bool(found)
        finally:
            for commit in commits:
                commit.remove()
    for why, count in (ASIDE.counts or {}).items():
        print(f"asked for: {why}: {count} lines and files")
    print(f"{len(names)} files, {different} differ")
    return 1 if different else 0


if __name__ == "__main__":
    sys.exit(main())
