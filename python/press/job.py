# SPDX-License-Identifier: Apache-2.0
"""The job language: the job of a page is written here, and read for the keys that it names and the zones that
it makes. What a job means is for the program to say; here nothing is refused that it takes.
"""
import contextlib
import difflib
import re
from collections.abc import Iterator, Sequence
from dataclasses import dataclass, field, replace
from typing import NamedTuple

from . import tables
from .folder import PageSource
from .inks import Ink
from .names import file_name, readable
from .settings import USUAL_WIDTH

WORD = re.compile(rb"%[^\r\n\f]*|\((?:[^()\\]|\\.)*\)|<<|>>|<[0-9A-Fa-f\s]*>|\[|\]|/[^\s()<>\[\]{}/%\0]*"
                  rb"|[^\s()<>\[\]{}/%\0]+", re.DOTALL)
# The keys of dictionaries that the engine knows, and those of the dictionaries in them; ANY stands for a colorant's.
Keys = dict[str, "Keys"]
ANY = "*"
DEVICE: Keys = {"HWResolution": {}, "Trapping": {},
                "TrappingDetails": {"Type": {}, "ColorantDetails": {ANY: {"NeutralDensity": {}, "ColorantType": {}}}}}
LIMITS: Keys = {"ColorantZoneDetails": {ANY: {"StepLimit": {}}}}
# Entries of PostScript's trapping that other trappers honour, and this one passes over.
OF_OTHERS = ("HalftoneName", "ImageInternalTrapping", "ImageResolution", "ImageToObjectTrapping", "ImageTrapPlacement",
             "ImagemaskTrapping", "TrapSetName", "TrappingOrder")
MOST_DEPTH = 16
OPERAND = re.compile(r"[/(<\d+.-]|(true|false|null)$")


# Writing

class Statement(NamedTuple):
    """Statements of the job language: the file that they come from, or None where the press room makes them,
    and their bytes."""

    path: str | None
    text: bytes


class Part(NamedTuple):
    """A file's statements in a job: the file, their offset in the job, and their bytes."""

    path: str
    start: int
    text: bytes


@dataclass(frozen=True)
class Job:
    """A job's bytes, and where the statements of files are in it."""

    text: bytes
    parts: tuple[Part, ...]


def write_job(source: PageSource, inks: Sequence[Ink], statements: Sequence[Statement]) -> Job:
    """The job of a page, with a comment on each number."""
    lines = ["%!PS", f"% Page {source.page} of {readable(source.pdf)}, with the inks that were found on it.",
             f"<< /HWResolution [{source.resolution} {source.resolution}]  % pixels per inch",
             "   /TrappingDetails << /Type 1001 /ColorantDetails <<"]
    for ink in inks:
        kind = "" if ink.kind == "Normal" else f" /ColorantType /{ink.kind}"
        spelled = "" if ink.name.encode() == ink.colorant else f"{readable(ink.colorant)}: "
        lines.append(f"     /{ink.name} << /NeutralDensity {ink.density}{kind} >>  % {spelled}{origin_of(ink)}")
    lines += ["   >> >>", ">> setpagedevice", ""]
    text, parts = "\n".join(lines).encode() + b"\n", []
    for path, statement in statements:
        if path is None:
            text += statement
            continue
        text += f"% From {file_name(path)}:\n".encode()
        parts.append(Part(path, len(text), statement))
        text += statement.rstrip(b"\n") + b"\n\n"
    return Job(text + b"showpage\n", tuple(parts))


def origin_of(ink: Ink) -> str:
    """Where an ink's figures come from."""
    if ink.kind_from.rank == "default" or ink.kind == "Normal":
        return ink.density_from.text
    return f"{ink.density_from.text}; kind: {ink.kind_from.text}"


def decimal(number: float) -> str:
    """A number as a job has it: four digits after the point."""
    return f"{number:.4f}".rstrip("0").rstrip(".") or "0"


# Reading

class Token(NamedTuple):
    """A number or a name that a job has, with its offset."""

    text: str
    at: int


class Entries(NamedTuple):
    """A dictionary: pairs of a key and a value, and its offset."""

    pairs: list[tuple["Node", "Node"]]
    at: int


Node = Token | Entries | list["Node"]


@dataclass(frozen=True)
class ZoneParameters:
    """What holds in a zone: the trap's width in points, the factor at black, and whether it is trapped."""

    width: float = USUAL_WIDTH
    black: float = 1.0
    enabled: bool = True


class Stranger(NamedTuple):
    """A key that the engine does not know: its offset, its name, the keys that it could be, and the operator."""

    at: int
    key: str
    known: Sequence[str]
    place: str


@dataclass
class Reading:
    """What a job or a part of one says: its zones, the keys that the engine does not know, and what holds at
    its end."""

    made: list[ZoneParameters] = field(default_factory=list)
    strangers: list[Stranger] = field(default_factory=list)
    last: ZoneParameters = ZoneParameters()

    @property
    def zones(self) -> list[ZoneParameters]:
        """The zones that it makes, or the one of the whole page where it makes none."""
        return self.made or [self.last]

    def check(self, value: Node, known: Keys, place: str) -> None:
        """Notes the keys of a dictionary, and of those in it, that are not known."""
        for key, at, body in pairs_of(value):
            if key in known or ANY in known:
                self.check(body, known.get(key) or known.get(ANY) or {}, key if key in known else place)
            elif known:
                self.strangers.append(Stranger(at, key, list(known), place))

    def parameters(self, value: Node) -> None:
        """What a dictionary before settrapparams makes of the parameters that hold."""
        self.check(value, {**{key: {} for key in tables.parameters()}, **LIMITS}, "settrapparams")
        names = {"TrapWidth": "width", "BlackWidth": "black"}
        for key, _, body in pairs_of(value):
            if key in names and isinstance(body, Token):
                with contextlib.suppress(ValueError):
                    self.last = replace(self.last, **{names[key]: float(body.text)})
            elif key == "Enabled" and isinstance(body, Token):
                self.last = replace(self.last, enabled=body.text != "false")


def words_of(text: bytes) -> Iterator[Token]:
    """The words of a job with their offsets, comments left out."""
    for found in WORD.finditer(text):
        if not found.group().startswith(b"%"):
            yield Token(found.group().decode("latin-1"), found.start())


def value_of(words: Iterator[Token], word: Token, depth: int = 0) -> Node:
    """The value that begins with a word. A bracket that is never closed ends with the job; one that is
    deeper than a job may have it is a word."""
    if word.text not in ("<<", "[") or depth == MOST_DEPTH:
        return word
    inside: list[Node] = []
    for one in words:
        if one.text in (">>", "]"):
            break
        inside.append(value_of(words, one, depth + 1))
    return Entries(list(zip(inside[::2], inside[1::2])), word.at) if word.text == "<<" else inside


def pairs_of(value: Node) -> list[tuple[str, int, Node]]:
    """The entries of a dictionary: of each its key's name, the key's offset, and its value."""
    if not isinstance(value, Entries):
        return []
    return [(key.text[1:], key.at, body) for key, body in value.pairs
            if isinstance(key, Token) and key.text.startswith("/")]


def operands_of(text: bytes, operator: str) -> Iterator[tuple[int, Node]]:
    """What stands before each use of an operator, with the offset of the operator."""
    operand: Node | None = None
    words = words_of(text)
    for word in words:
        value = value_of(words, word)
        if isinstance(value, Token) and value.text == operator and operand is not None:
            yield word.at, operand
        operand = value


def read(text: bytes) -> Reading:
    """Reads a job or a part of one."""
    reading = Reading()
    operands: list[Node] = []
    words = words_of(text)
    for word in words:
        value = value_of(words, word)
        if not isinstance(value, Token) or OPERAND.match(value.text):
            operands.append(value)
            continue
        if value.text == "settrapparams" and operands:
            reading.parameters(operands[-1])
        elif value.text == "setpagedevice" and operands:
            reading.check(operands[-1], DEVICE, "setpagedevice")
        elif value.text == "settrapzone":
            reading.made.append(reading.last)
        operands = []
    return reading


def read_all(statements: Sequence[Statement]) -> Reading:
    """Reads several statements as one."""
    return read(b"\n".join(text for _, text in statements))


def stranger_line(stranger: Stranger) -> str:
    """Why a key is reported."""
    if stranger.key in OF_OTHERS:
        return f"/{stranger.key} is an entry of PostScript's trapping that this engine does not have: it is passed over"
    close = difflib.get_close_matches(stranger.key, stranger.known, 1, 0.6)
    meant = f" (is /{close[0]} meant?)" if close else ""
    return f"unknown key /{stranger.key} before {stranger.place}: it is passed over{meant}"


# Places

def line_at(text: bytes, at: int) -> int:
    """The line of an offset, from 1."""
    return text.count(b"\n", 0, at) + 1


def file_place(at: int, parts: Sequence[Part]) -> tuple[str, int]:
    """The file and the line that an offset of a job is in. An operator at the job's end that lacks or has
    too much belongs to the last file."""
    path, start, text = ([part for part in parts if part.start <= at] or parts[:1])[-1]
    return path, line_at(text, min(max(at - start, 0), max(len(text.rstrip()) - 1, 0)))


def job_place(text: bytes, offset: int) -> str:
    """The line of a job's offset, from 1, and if that line came from a file of zones, the file's name and the
    line there."""
    lines = text[:offset].split(b"\n")
    place = f"line {len(lines)}"
    for back, line in enumerate(reversed(lines[:-1]), 1):
        if line.startswith(b"% From ") and line.endswith(b":"):
            return f"{place}, which is line {back} of {line[7:-1].decode('utf-8', 'replace')}"
    return place


def width_line(zone: ZoneParameters, dpi: int) -> str | None:
    """What is wrong with a zone's widths at a resolution, or None. An edge that slides is trapped at half the
    width on either side, so it takes a whole sample of width; another edge takes half a sample."""
    if not zone.enabled:
        return None
    samples = zone.width * dpi / 72
    if samples >= 1:
        return None
    least = f"{72 / dpi:.4g} pt ({25.4 / dpi:.3g} mm) is one sample"
    if samples * max(zone.black, 1) < 0.5:
        return (f"TrapWidth {zone.width:g} pt is {samples:.2f} samples at {dpi} pixels per inch: nothing is trapped "
                f"({least})")
    return (f"TrapWidth {zone.width:g} pt is {samples:.2f} samples at {dpi} pixels per inch: edges between inks of "
            f"like density are not trapped ({least})")
