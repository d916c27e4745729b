# SPDX-License-Identifier: Apache-2.0
"""Reads a valid job of docs/JOBS.md into plain values.

Numbers stay in ten-thousandths, as the engine keeps them, so that nothing is rounded. The engine decides
whether a job is valid and names its first fault; this module only wants to know what a valid job says.
"""
from __future__ import annotations

import re
from bisect import bisect_right
from collections.abc import Iterator, Mapping
from dataclasses import dataclass, field, fields, replace
from functools import lru_cache
from typing import NamedTuple, Union

SCALE = 10_000

Point = tuple[int, int]
Subpath = tuple[Point, ...]


class JobSyntaxError(ValueError):
    """The text is no valid job. `offset` is the byte at which reading stopped."""

    def __init__(self, message: str, offset: int) -> None:
        super().__init__(f"{message} at {offset}")
        self.offset = offset


@dataclass(frozen=True)
class Parameters:
    """Trapping parameters in ten-thousandths: TrapWidth in points, the others as in docs/JOBS.md."""

    trap_width: int = 2_500
    black_width: int = 10_000
    black_color_limit: int = 9_500
    black_density_limit: int = 16_000
    step_limit: int = 2_500
    sliding_trap_limit: int = 7_000
    trap_color_scaling: int = 10_000
    enabled: bool = True


# The parameters by their keys in a job, TrapWidth and so on.
KEYS = {one.name.title().replace("_", ""): one.name for one in fields(Parameters)}


@dataclass(frozen=True)
class JobInk:
    """The details of one ink: its neutral density in ten-thousandths, and its ColorantType."""

    density: int = SCALE
    kind: str = "Normal"


@dataclass(frozen=True)
class JobZone:
    """A trapping zone: parameters, step limits by ink, and closed subpaths in ten-thousandths of a point."""

    parameters: Parameters
    subpaths: tuple[Subpath, ...] = ()
    step_limits: Mapping[str, int] = field(default_factory=dict)


@dataclass(frozen=True)
class Job:
    """A job. Zone 0 is what no zone covers; `resolution` in dpi is 0 if the job sets none."""

    resolution: int
    zones: tuple[JobZone, ...]
    inks: Mapping[str, JobInk]


Value = Union[int, bool, None, str, bytes, list["Value"], dict[str, "Value"]]

TOKEN = re.compile(
    rb"(?P<gap>[\0\t\n\f\r ]+|%[^\n\r\f]*)|(?P<open><<|\[)|(?P<close>>>|\])|/(?P<name>[^\0\t\n\f\r ()<>\[\]{}/%]*)"
    rb"|(?P<text>\()|<(?P<hex>[0-9A-Fa-f\0\t\n\f\r ]*)>|(?P<run>[^\0\t\n\f\r ()<>\[\]{}/%]+)")
PARENTHESIS = re.compile(rb"\\.|[()]", re.DOTALL)
BEGIN_NUMBERS = frozenset(b"+-.0123456789")
NUMBER = re.compile(rb"([+-]?)([0-9]*)(?:\.([0-9]*))?")
DRAWING = ("rlineto", "moveto", "lineto", "rmoveto")
CONSTANTS: Mapping[bytes, Value] = {b"true": True, b"false": False, b"null": None}


class Statement(NamedTuple):
    """An operator, and where its statement is: from its first operand to the operator's last byte."""

    operator: str
    start: int
    end: int


@dataclass(frozen=True)
class Parsed:
    """A valid job, and how it is written: its statements in their order, and the state after each of them, as
    parameters, step limits by ink, and how many zones are made."""

    job: Job
    statements: tuple[Statement, ...]
    states: tuple[tuple[Parameters, Mapping[str, int], int], ...]

    def before(self, offset: int) -> tuple[tuple[JobZone, ...], JobZone]:
        """The zones that the statements before an offset make, and what is in force there."""
        count = bisect_right(self.statements, offset, key=lambda one: one.end)
        parameters, limits, zones = self.states[count - 1] if count else (Parameters(), {}, 0)
        return self.job.zones[1:1 + zones], JobZone(parameters, (), limits)


def read_job(text: bytes) -> Job:
    """What a valid job says. Raises JobSyntaxError if the notation or a statement is not that of a job."""
    return parse(text).job


def parse(text: bytes) -> Parsed:
    """A valid job, and how it is written. Raises JobSyntaxError like read_job."""
    return _Reader().read(text)


@lru_cache(4096)
def ten_thousandths(spelling: bytes) -> int:
    """A number as the engine keeps it: digits after the fourth decimal are cut, not rounded."""
    found = NUMBER.fullmatch(spelling)
    if not found or not (found[2] or found[3]):
        raise ValueError(spelling.decode("latin-1"))
    value = int(found[2] or 0) * SCALE + int((found[3] or b"")[:4].ljust(4, b"0"))
    return -value if found[1] == b"-" else value


def _is_operator(kind: str, spelling: bytes) -> bool:
    return kind == "run" and spelling[0] not in BEGIN_NUMBERS and spelling not in CONSTANTS


def _end_of_text(text: bytes, at: int) -> int:
    """The offset after a string in parentheses that begins at `at`."""
    depth = 0
    for found in PARENTHESIS.finditer(text, at):
        depth += {b"(": 1, b")": -1}.get(found[0], 0)
        if depth == 0:
            return found.end()
    raise JobSyntaxError("unfinished string", at)


def _tokens(text: bytes) -> Iterator[tuple[str, bytes, int]]:
    """Kind, bytes and offset of each token."""
    place = 0
    while place < len(text):
        for found in TOKEN.finditer(text, place):
            kind = str(found.lastgroup)
            if found.start() != place or kind == "text":
                break
            if kind != "gap":
                yield kind, found[kind] if kind in ("name", "run") else found[0], place
            place = found.end()
        if place < len(text):
            if not TOKEN.match(text, place):
                raise JobSyntaxError("no token", place)
            end = _end_of_text(text, place)
            yield "text", text[place:end], place
            place = end


def _closed(kind: bytes, items: list[Value], at: int) -> Value:
    if kind == b"]":
        return items
    keys = items[0::2]
    if len(items) % 2 or not all(isinstance(key, str) for key in keys):
        raise JobSyntaxError("no dictionary", at)
    return dict(zip([str(key) for key in keys], items[1::2]))


class _Reader:
    """What is in force after the statements so far, the path, and the zones."""

    def __init__(self) -> None:
        self.parameters = Parameters()
        self.limits: dict[str, int] = {}
        self.resolution, self.trapping = 0, True
        self.inks: dict[str, JobInk] = {}
        self.path: list[list[Point]] = []
        self.current: Point | None = None
        self.is_closed = False
        self.zones: list[JobZone] = []

    def read(self, text: bytes) -> Parsed:
        """The job of a text."""
        operands: list[Value] = []
        brackets: list[list[Value]] = []
        found, states, start = [], [], -1
        for kind, spelling, at in _tokens(text):
            start = at if start < 0 else start
            if kind == "open":
                brackets.append([])
                continue
            if kind == "close":
                if not brackets:
                    raise JobSyntaxError("unmatched bracket", at)
                value = _closed(spelling, brackets.pop(), at)
            elif _is_operator(kind, spelling):
                if brackets:
                    raise JobSyntaxError("operator inside brackets", at)
                found.append(Statement(spelling.decode("latin-1"), start, at + len(spelling)))
                self.statement(found[-1].operator, operands, at)
                states.append((self.parameters, self.limits, len(self.zones)))
                operands, start = [], -1
                continue
            else:
                value = _plain(kind, spelling, at)
            (brackets[-1] if brackets else operands).append(value)
        return Parsed(self.job(), tuple(found), tuple(states))

    def statement(self, operator: str, operands: list[Value], at: int) -> None:
        """Carries out one statement."""
        try:
            if operator in DRAWING:
                x, y = operands
                self.draw(operator, _number(x), _number(y))
            elif operator == "setpagedevice":
                self.setpagedevice(_dictionary(*operands))
            elif operator == "settrapparams":
                self.settrapparams(_dictionary(*operands))
            elif operator != "showpage":
                {"newpath": self.newpath, "closepath": self.closepath, "settrapzone": self.settrapzone}[operator]()
        except (ValueError, TypeError, KeyError) as fault:
            raise JobSyntaxError(f"{operator}: {fault}", at) from fault

    def setpagedevice(self, entries: dict[str, Value]) -> None:
        """Resolution, Trapping and the inks, as far as the dictionary names them."""
        if "HWResolution" in entries:
            across, _ = _array(entries["HWResolution"])
            self.resolution = _number(across) // SCALE
        if "Trapping" in entries:
            self.trapping = bool(entries["Trapping"])
        if "TrappingDetails" in entries:
            details = _dictionary(entries["TrappingDetails"])
            self.inks = {name: _ink(_dictionary(one))
                         for name, one in _dictionary(details.get("ColorantDetails", {})).items()}

    def settrapparams(self, entries: dict[str, Value]) -> None:
        """Parameters and step limits of single inks, as far as the dictionary names them."""
        numbers = {field_name: _number(entries[key]) for key, field_name in KEYS.items()
                   if key in entries and key != "Enabled"}
        enabled = bool(entries.get("Enabled", self.parameters.enabled))
        self.parameters = replace(self.parameters, enabled=enabled, **numbers)
        if "ColorantZoneDetails" in entries:
            details = {name: _dictionary(one) for name, one in _dictionary(entries["ColorantZoneDetails"]).items()}
            self.limits = {name: _number(one["StepLimit"]) for name, one in details.items() if "StepLimit" in one}

    def draw(self, operator: str, x: int, y: int) -> None:
        """One of the four drawing operators."""
        if operator.startswith("r"):
            if self.current is None:
                raise ValueError("no current point")
            x, y = self.current[0] + x, self.current[1] + y
        if operator.endswith("moveto"):
            self.path.append([])
        elif self.current is None:
            raise ValueError("no current point")
        elif self.is_closed:
            self.path.append([self.current])
        self.path[-1].append((x, y))
        self.current, self.is_closed = (x, y), False

    def newpath(self) -> None:
        """Empties the path."""
        self.path, self.current, self.is_closed = [], None, False

    def closepath(self) -> None:
        """The current point is the subpath's first vertex again."""
        if self.current is not None:
            self.current, self.is_closed = self.path[-1][0], True

    def settrapzone(self) -> None:
        """The next zone, with what is in force."""
        self.zones.append(JobZone(self.parameters, tuple(tuple(one) for one in self.path), dict(self.limits)))
        self.newpath()

    def job(self) -> Job:
        """The job after its last statement."""
        rest = JobZone(self.parameters, (), dict(self.limits))
        if self.zones:
            rest = replace(rest, parameters=replace(rest.parameters, enabled=False))
        zones = [rest, *self.zones]
        if not self.trapping:
            zones = [replace(one, parameters=replace(one.parameters, enabled=False)) for one in zones]
        return Job(self.resolution, tuple(zones), self.inks)


def _dictionary(value: Value) -> dict[str, Value]:
    if not isinstance(value, dict):
        raise ValueError("a dictionary is expected")
    return value


def _array(value: Value) -> list[Value]:
    if not isinstance(value, list):
        raise ValueError("an array is expected")
    return value


def _number(value: Value) -> int:
    if not isinstance(value, int) or isinstance(value, bool):
        raise ValueError("a number is expected")
    return value


def _ink(details: dict[str, Value]) -> JobInk:
    return JobInk(_number(details["NeutralDensity"]), str(details.get("ColorantType", "Normal")))


def _plain(kind: str, spelling: bytes, at: int) -> Value:
    """The value of one token that is no bracket and no operator."""
    if kind == "name":
        return spelling.decode("latin-1")
    if kind in ("text", "hex"):
        return spelling
    if spelling in CONSTANTS:
        return CONSTANTS[spelling]
    try:
        return ten_thousandths(spelling)
    except ValueError as fault:
        raise JobSyntaxError("no number", at) from fault
