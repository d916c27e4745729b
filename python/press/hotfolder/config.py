# SPDX-License-Identifier: Apache-2.0
"""What each hot folder does with its files: from the options of press/watch, or from a configuration file in TOML."""
import argparse
import os
import tomllib
from collections.abc import Sequence
from dataclasses import dataclass
from typing import Any

from ..command import Parser
from ..errors import PressError, Status, UsageError
from ..files import refusing
from ..settings import MOST_JOBS, Settings, add_made_options, house_file, whole

USUAL_SECONDS, USUAL_SETTLE, USUAL_WAIT = 600, 2, 30
HOUSE_CONFIG = "watch.toml"
MOST_MEGABYTES, MOST_KEPT = 100_000, 1000
# Keys of a folder that are no options of press/watch, and options whose value is the path of a file.
OWN_KEYS, PATHS = ("path", "done", "failed", "outputs", "command"), ("inks", "zones", "pairs", "icc")
# Kinds of output: the option that asks for one, or that leaves one out.
ASKED, LEFT_OUT = {"pdf": "pdf", "pictures": "look"}, {"tiff": "no-tiff", "plates": "tiff-only", "proof": "no-proof"}
OUTPUTS = (*LEFT_OUT, *ASKED)
LOG_KEYS = ("file", "megabytes", "keep")


@dataclass(frozen=True)
class HotFolder:
    """A hot folder: its place and those of its files afterwards, what pages are made with, how many files are made at
    once, for how many seconds a file has to be unchanged, how many an incomplete one is waited for, and the command
    that runs after each file."""

    path: str
    settings: Settings
    done: str
    failed: str
    files: int = 1
    settle: int = USUAL_SETTLE
    wait: int = USUAL_WAIT
    command: tuple[str, ...] = ()


@dataclass(frozen=True)
class LogFile:
    """A log on disk: after so many bytes it is renamed, and so many old ones are kept."""

    path: str
    most_bytes: int = 10_000_000
    keep: int = 5


@dataclass(frozen=True)
class Config:
    """All hot folders of a configuration file, and its log."""

    folders: tuple[HotFolder, ...]
    log: LogFile | None = None


def add_folder_options(parser: argparse.ArgumentParser) -> None:
    """The options of one hot folder. They are keys of a configuration file too."""
    add = parser.add_argument
    add("--settle", metavar="S", type=whole("--settle", 0, 3600), default=USUAL_SETTLE,
        help="how many seconds a file is unchanged before it is taken; the default is 2")
    add("--wait", metavar="S", type=whole("--wait", 0, 86_400), default=USUAL_WAIT,
        help="how many seconds an incomplete file is unchanged before it is refused; the default is 30")
    add("--files", metavar="N", type=whole("--files", 1, MOST_JOBS), default=1,
        help="how many files are made at once; the default is 1")
    add("--lenient", action="store_true",
        help="makes pages with warnings too; without it they are refused, as by --strict of press/all")
    add("-j", "--jobs", metavar="N", type=whole("--jobs", 1, MOST_JOBS),
        help="how many pages of a file are made at once; the default is 1")
    add("-s", "--strict", action="store_true", help="refuses a page with a warning, as without --lenient")
    add_made_options(parser)
    parser.set_defaults(time=USUAL_SECONDS)


def folder_of(path: str, options: argparse.Namespace, keys: dict[str, Any] | None = None) -> HotFolder:
    """A hot folder with these options, and the keys of a configuration file that are none."""
    own = keys or {}
    chosen = Settings.of(options).but(strict=not options.lenient)
    # A record names files from the folder that it is in, which is another one in the end.
    chosen = chosen.but(**{name: os.path.abspath(value) for name in PATHS if (value := getattr(chosen, name))})
    path = path.rstrip("/") or "/"
    done, failed = (os.path.join(path, own.get(name, name)) for name in ("done", "failed"))
    return HotFolder(path, chosen, done, failed, options.files, options.settle, options.wait,
                     tuple(own.get("command", ())))


# The configuration file

def find_config(named: str | None) -> str:
    """The configuration file: the one that is named, or the house's watch.toml."""
    path = named or house_file(HOUSE_CONFIG)
    if path is None:
        raise UsageError("DIR is missing")
    return path


def read_config(path: str) -> Config:
    """The hot folders of a configuration file. Refuses a key that is not known, a value that an option does not
    take, and two folders of one path."""
    try:
        with refusing(path), open(path, "rb") as file:
            text = tomllib.load(file)
    except (tomllib.TOMLDecodeError, UnicodeDecodeError) as fault:
        raise PressError(Status.INPUT, f"no TOML: {fault}", path) from fault
    need_keys(text, ("log", "folder"), path)
    tables = text.get("folder", [])
    if not isinstance(tables, list) or not tables or not all(isinstance(one, dict) for one in tables):
        raise PressError(Status.INPUT, "no [[folder]] in it", path)
    parser, base = Parser(""), os.path.dirname(os.path.abspath(path))
    add_folder_options(parser)
    folders = tuple(read_folder(table, parser, base, f"{path}: [[folder]] {number}")
                    for number, table in enumerate(tables, 1))
    paths = [os.path.realpath(one.path) for one in folders]
    for number, one in enumerate(paths):
        if one in paths[:number]:
            raise PressError(Status.INPUT, f"two folders have the path {folders[number].path}", path)
    return Config(folders, read_log(text.get("log"), base, path))


def need_keys(table: dict[str, Any], known: Sequence[str], place: str) -> None:
    """Refuses a key that is not known."""
    for key in table:
        if key not in known:
            raise PressError(Status.INPUT, f"unknown key {key}; there are {', '.join(known)}", place)


def read_log(table: Any, base: str, path: str) -> LogFile | None:
    """The log of a configuration file, if it has one."""
    if table is None:
        return None
    place = f"{path}: [log]"
    if not isinstance(table, dict):
        raise PressError(Status.INPUT, "it is no table", place)
    need_keys(table, LOG_KEYS, place)
    if not isinstance(table.get("file"), str):
        raise PressError(Status.INPUT, "file is missing, or no string", place)
    megabytes, keep = table.get("megabytes", 10), table.get("keep", 5)
    for key, value, most in (("megabytes", megabytes, MOST_MEGABYTES), ("keep", keep, MOST_KEPT)):
        if not isinstance(value, (int, float)) or isinstance(value, bool) or not 0 < value <= most:
            raise PressError(Status.INPUT, f"{key} is a number above 0, to {most}", place)
    return LogFile(os.path.join(base, table["file"]), int(megabytes * 1_000_000), int(keep))


def read_folder(table: dict[str, Any], parser: Parser, base: str, place: str) -> HotFolder:
    """A hot folder of a configuration file."""
    options = {name[2:] for names, _, _ in parser.options() for name in names if name.startswith("--")}
    need_keys(table, (*OWN_KEYS, *sorted(options)), place)
    for key in ("path", "done", "failed"):
        if not isinstance(table.get(key, ""), str):
            raise PressError(Status.INPUT, f"{key} is no string", place)
    if not table.get("path"):
        raise PressError(Status.INPUT, "path is missing", place)
    for key in ("outputs", "command"):
        if key in table and not is_list_of_texts(table[key]):
            raise PressError(Status.INPUT, f"{key} is a list of strings, and not {table[key]!r}", place)
    try:
        words = [word for key, value in {**table, **output_options(table)}.items() if key not in OWN_KEYS
                 for word in words_of(key, value, base)]
        own = {**table, **{key: os.path.join(base, table[key]) for key in ("done", "failed") if key in table}}
        return folder_of(os.path.join(base, table["path"]), parser.read(words), own)
    except PressError as refusal:
        raise PressError(Status.INPUT, str(refusal), place) from refusal


def is_list_of_texts(value: Any) -> bool:
    """Whether a value is a list of strings that is not empty."""
    return isinstance(value, list) and bool(value) and all(isinstance(one, str) for one in value)


def output_options(table: dict[str, Any]) -> dict[str, bool]:
    """The options that the kinds of output stand for."""
    if "outputs" not in table:
        return {}
    kinds: list[str] = table["outputs"]
    for kind in kinds:
        if kind not in OUTPUTS:
            raise UsageError(f"outputs: there is no {kind}; there are {', '.join(OUTPUTS)}")
    for key in (*ASKED.values(), *LEFT_OUT.values()):
        if key in table:
            raise UsageError(f"outputs says whether there is {key}: leave out one of the two")
    if "pdf" in kinds and "plates" not in kinds:
        raise UsageError("outputs: pdf needs plates: a trapped PDF is made of them")
    return {**{option: kind in kinds for kind, option in ASKED.items()},
            **{option: kind not in kinds for kind, option in LEFT_OUT.items()}}


def words_of(key: str, value: Any, base: str) -> list[str]:
    """A key and its value as options of a command. A file's path counts from the folder of the configuration file."""
    if isinstance(value, bool):
        return [f"--{key}"] * value
    words = []
    for one in value if isinstance(value, list) else [value]:
        if isinstance(one, bool) or not isinstance(one, (str, int, float)):
            raise UsageError(f"{key} is a string, a number, true, or a list of strings")
        words.append(f"--{key}={os.path.join(base, one) if key in PATHS and isinstance(one, str) else one}")
    return words
