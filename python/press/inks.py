# SPDX-License-Identifier: Apache-2.0
"""Inks: what is known of each from the command line, tables, the house and the library in press/inks; what is
guessed; and where each figure comes from.
"""
import fnmatch
import functools
import os
import re
import shlex
import unicodedata
from collections.abc import Callable, Container, Iterable, Iterator, Mapping, Sequence
from dataclasses import dataclass
from typing import TypeVar

from . import tables
from .errors import UsageError
from .files import beside, table_lines
from .names import PROCESS, file_name, readable
from .settings import Settings, house_file
from .tools import PRESS, shown

# An ink that looks like no ink at all, a white say, is not without density.
LEAST_GUESS = 0.05
# A spot of which Ghostscript does not say what it looks like is taken for a gray.
UNKNOWN_LOOK = (0.0, 0.0, 0.0, 50.0)
LIBRARY = os.path.join(PRESS, "inks")
# Words that a name of a swatch book begins with. Such an ink is no technical one.
SWATCH_BOOKS = ("pantone", "pms", "hks", "toyo", "dic", "ral", "ncs", "focoltone", "trumatch", "process")
Look = tuple[float, float, float, float]
Entry = TypeVar("Entry")
# What an ink is for, and the kind and density that follow where the owner gives none.
ROLES: dict[str, tuple[str | None, str | None]] = {
    "process": (None, None), "spot": ("Normal", None), "white": ("Normal", "0.06"), "varnish": ("Transparent", None),
    "metallic": ("Opaque", "2.0"), "technical": ("Transparent", None)}
ROLES_OF_KINDS = ("white", "metallic")
# What a technical ink is called in a line.
ROLE_NAMES = {"white": "a white", "metallic": "a metal", "varnish": "a technical ink", "technical": "a technical ink"}


@dataclass(frozen=True)
class Separation:
    """A colorant that Ghostscript made a plate of: its name in the PDF, in tiffsep's file names and in the job,
    and the process inks that look like it, in per cent; None where nobody says it."""

    colorant: bytes
    suffix: bytes
    look: Look | None
    name: str


@dataclass(frozen=True)
class Origin:
    """Where a figure comes from. The rank is "told" (the owner), "house", "library", "name" (a kind by the
    ink's name), "guess" or "default"; the text names the place."""

    rank: str
    text: str


FROM_TABLE = Origin("told", "colorants.txt")


@dataclass(frozen=True)
class Ink:
    """An ink of a page.

    `name` is its name in the job, `colorant` in the PDF, `suffix` in tiffsep's file names. `density` is the
    neutral density of full ink, as the job writes it; `kind` is one of docs/JOBS.md; `look` are the process
    inks that look like it, in per cent; `role` is one of ROLES.
    """

    name: str
    colorant: bytes
    suffix: bytes
    density: str
    kind: str = "Normal"
    look: Look = UNKNOWN_LOOK
    has_ink: bool = True
    density_from: Origin = FROM_TABLE
    kind_from: Origin = FROM_TABLE
    role: str = "spot"

    @property
    def is_process(self) -> bool:
        """Whether it is cyan, magenta, yellow or black."""
        return self.name in PROCESS


# Values

def density_of(text: str, what: str) -> str:
    """A neutral density, as a job may have it."""
    if re.fullmatch(r"\d{1,2}(\.\d*)?|\.\d+", text) and 0.001 <= float(text) <= 10:
        return text
    raise UsageError(f"{what}: a density is a number from 0.001 to 10, and not '{text}'")


def kind_of(text: str, what: str) -> str:
    """A kind of ink."""
    kinds = tables.kinds()
    if text in kinds:
        return text
    *others, last = kinds
    raise UsageError(f"{what}: a kind is {', '.join(others)} or {last}, and not '{text}'")


def role_of(text: str, what: str) -> str:
    """What an ink is for."""
    if text in ROLES:
        return text
    raise UsageError(f"{what}: a role is {', '.join(ROLES)}, and not '{text}'")


def named_values(words: Sequence[str], read: Callable[[str, str], str], option: str) -> dict[bytes, str]:
    """NAME=VALUE words by name."""
    found = {}
    for word in words:
        name, equals, value = word.rpartition("=")
        if not equals or not name:
            raise UsageError(f"{option} is NAME=VALUE, and not '{word}'")
        found[os.fsencode(name)] = read(value, f"{option} {name}")
    return found


@dataclass(frozen=True)
class Known:
    """What a source says of an ink: each figure may be None."""

    density: str | None
    kind: str | None
    source: str
    role: str | None = None
    edit: tuple[str, str] | None = None

    def goes_with(self, kind: str) -> bool:
        """Whether the density counts for an ink of this kind: that of a white or a metal goes with its own kind."""
        return self.role not in ROLES_OF_KINDS or self.kind in (kind, None)

    def of_role(self) -> "Known":
        """The kind and the density that follow from a role."""
        kind, density = ROLES[self.role] if self.role else (None, None)
        return Known(density, kind, f"role {self.role}, {self.source}", self.role)


def entries_of(path: str) -> list[tuple[int, str]]:
    """The lines of a table that are no comment, with their numbers. Blanks before a name are no part of it."""
    lines = ((number, line.lstrip(" ")) for number, line in enumerate(table_lines(path), 1))
    return [(number, line) for number, line in lines if line.strip() and not line.startswith("#")]


EDITS = ("merge", "rename", "to-process", "drop")
TABLE_WORDS = "a role, merge=KEPT, rename=NEW, to-process or drop"


def inks_of_file(path: str) -> dict[bytes, tuple[int, Known]]:
    """A table of inks by name: the line of each, and what is known."""
    found = {}
    for number, line in entries_of(path):
        parts = [part for part in line.split("\t") if part]
        place = f"{path}: line {number}"
        if len(parts) < 2:
            raise UsageError(f"{place}: an ink is a name, a density and a kind, with tabs between them")
        density = None if parts[1] == "-" else density_of(parts[1], place)
        kind = kind_of(parts[2], place) if len(parts) > 2 and parts[2] != "-" else None
        role, edit = None, None
        for word in parts[3:]:
            action, _, value = word.partition("=")
            if action in EDITS and bool(value) == (action in ("merge", "rename")):
                edit = action, value
            elif word in ROLES:
                role = word
            else:
                raise UsageError(f"{place}: after the kind comes {TABLE_WORDS}, and not '{word}'")
        known = Known(density, kind, f"{file_name(path)}, line {number}", role, edit)
        found[parts[0].encode()] = number, known
    return found


# The library

@functools.lru_cache(maxsize=4096)
def folded(name: bytes | str) -> str:
    """A name as the library compares it: the words in small letters, without accents, with a blank between them."""
    text = name.decode("utf-8", "replace") if isinstance(name, bytes) else name
    text = re.sub(r"(?<=[a-z])(?=[A-Z])", " ", text)
    text = "".join(char for char in unicodedata.normalize("NFKD", text) if not unicodedata.combining(char))
    return " ".join(re.findall(r"[^\W_]+", text.casefold()))


def squeezed(name: bytes) -> str:
    """A name as the library compares it, without blanks."""
    return folded(name).replace(" ", "")


def matching(spellings: Iterable[bytes], names: Iterable[bytes], others: Container[bytes] = ()) -> list[bytes]:
    """Those of some names that are an ink's: as it is spelled, or else as the library compares names. A name that is
    the spelling of another ink is that one's."""
    own, names = list(dict.fromkeys(spellings)), list(names)
    exact = [name for name in own if name in names]
    read = {folded(name) for name in own} - {""}
    return exact or [name for name in names if name not in others and folded(name) in read]


def ink_called(name: bytes, inks: Sequence[tuple[bytes, ...]]) -> int | None:
    """Which of several inks, each with its spellings, a name is that of: as it is spelled, or else as the library
    compares names."""
    exact = (at for at, spellings in enumerate(inks) if name in spellings)
    alike = (at for at, spellings in enumerate(inks) if matching(spellings, [name]))
    return next(exact, next(alike, None))


def process_meant(name: bytes) -> str | None:
    """The process ink that a spot is called like: cyan, PROCESS CYAN, Pantone Process Cyan C."""
    words = folded(name).split()
    # PANTONE Yellow C is an ink of its own.
    if "process" in words:
        words = [word for word in words if word not in ("pantone", "process", "c", "u", "m")]
    return {one.lower(): one for one in PROCESS}.get(words[0]) if len(words) == 1 else None


def fits(text: str, pattern: str) -> bool:
    """Whether a text is as a pattern says, which may have wildcards."""
    return text == pattern or any(char in pattern for char in "*?[") and fnmatch.fnmatchcase(text, pattern)


class Shelf:
    """A table of the library: patterns of names, each with a density, a kind and its source's key. The sources
    are in the comments at its head."""

    def __init__(self, name: str) -> None:
        self.entries = []
        path = os.path.join(LIBRARY, name)
        for number, line in entries_of(path):
            pattern, density, kind, source, *rest = line.split("\t")
            role = rest[0] if rest and rest[0] in ROLES else "metallic" if kind == "Opaque" else None
            known = Known(None if density == "-" else density, None if kind == "-" else kind,
                          f"{shown(path)}, line {number}: {source}", role)
            self.entries.append((pattern.casefold(), known))

    def whole(self, name: bytes) -> Known | None:
        """What is known of an ink of this name."""
        text = folded(name)
        return next((known for pattern, known in self.entries if fits(text, pattern)), None)

    def within(self, name: bytes) -> Known | None:
        """What is known of a name that has such words in it, one after another. A pattern after = is the whole name."""
        words = folded(name).split()
        if not words or words[0] in SWATCH_BOOKS:
            return None
        for pattern, known in self.entries:
            if pattern.startswith("="):
                if pattern[1:] == " ".join(words):
                    return known
                continue
            parts = pattern.split()
            for at in range(len(words) - len(parts) + 1):
                if all(fits(word, part) for word, part in zip(words[at:], parts)):
                    return known
        return None


def usual_role(name: str, kind: str) -> str:
    """What an ink is for if nobody says it."""
    if name in PROCESS:
        return "process"
    return "spot" if tables.counts(kind) else "technical"


def guess(look: Look) -> str:
    """A spot's density from the process inks that look like it."""
    density = sum(density * part / 100 for (density, _), part in zip(PROCESS.values(), look))
    return f"{min(10, max(LEAST_GUESS, density)):.2f}"


def open_book(settings: Settings, path: str) -> "InkBook":
    """What is known of inks for a file, with the table of --inks, or the one next to it."""
    return InkBook(settings, settings.inks or next(iter(beside(path, "inks")), None))


@dataclass
class InkBook:
    """What is known of inks for one file: the command line before the table, the house, the library, and a
    guess. It notes which names were met."""

    settings: Settings
    table: str | None

    def __post_init__(self) -> None:
        self.of_table = inks_of_file(self.table) if self.table else {}
        self.densities = named_values(self.settings.density, density_of, "--density")
        self.kinds = named_values(self.settings.kind, kind_of, "--kind")
        self.roles = named_values(self.settings.role, role_of, "--role")
        house = house_file("house.inks")
        self.house = inks_of_file(house) if house else {}
        self.technical, self.spots, self.process = Shelf("technical.inks"), Shelf("spots.inks"), Shelf("process.inks")
        # Of each ink that was met its spellings.
        self.met: set[tuple[bytes, ...]] = set()

    def meet(self, separations: Iterable[Separation]) -> None:
        """Notes the inks of a page as met."""
        self.met.update((one.colorant, one.name.encode()) for one in separations)

    def page_inks(self, separations: Sequence[Separation], has_ink: Iterable[bool]) -> tuple[Ink, ...]:
        """The inks of a page's separations."""
        self.meet(separations)
        names = {name for one in separations for name in (one.colorant, one.name.encode())}
        return tuple(self.ink(one, inked, names) for one, inked in zip(separations, has_ink))

    def told(self, one: "Separation | Ink", others: Container[bytes] = ()) -> list[tuple[str, list[Known]]]:
        """What the owner says of a separation, by rank, the first having precedence. `others` are the names of the
        page's inks."""
        spellings = one.colorant, one.name.encode()

        def found(table: Mapping[bytes, Entry]) -> list[Entry]:
            return [table[name] for name in matching(spellings, table, others)]
        given = [next(iter(found(table)), None) for table in (self.densities, self.kinds)]
        line = Known(given[0], given[1], "the command line", next(iter(found(self.roles)), None))
        ranks = [("told", [line, *(known for _, known in found(self.of_table))]),
                 ("house", [known for _, known in found(self.house)])]
        return [(rank, [*several, *(known.of_role() for known in several if known.role)]) for rank, several in ranks]

    def ink(self, one: Separation, has_ink: bool = True, others: Container[bytes] = ()) -> Ink:
        """The ink of a separation."""
        process = self.process.whole(one.colorant) if one.name in PROCESS else None
        technical = None if process else self.technical.within(one.colorant)
        spot = None if process else self.spots.whole(one.colorant)
        ranks: list[tuple[str, Sequence[Known | None]]] = [
            *self.told(one, others), ("library", [process]), ("name", [technical]), ("library", [spot])]
        look = one.look or UNKNOWN_LOOK
        kind, kind_from = first_of(ranks, "kind") or ("Normal", Origin("default", "nobody gave a kind"))
        fitting = [(rank, [known for known in several if known and known.goes_with(kind)]) for rank, several in ranks]
        density, density_from = first_of(fitting, "density") or \
            (guess(look), Origin("guess", "the process inks that look like it"))
        role, _ = first_of(ranks, "role") or (usual_role(one.name, kind), None)
        return Ink(one.name, one.colorant, one.suffix, density, kind, look, has_ink, density_from, kind_from, role)

    def lost_lines(self, ink: Ink, inks: Sequence[Ink]) -> Iterator[str]:
        """A line for each figure of one of a page's inks that was given and does not hold, with the one that does."""
        others = {name for one in inks for name in (one.colorant, one.name.encode())}
        given = [known for _, several in self.told(ink, others) for known in several]
        for figure in ("density", "kind", "role"):
            # What follows from a role was not given.
            values = [(getattr(one, figure), one.source) for one in given if not one.source.startswith("role ")]
            first, *rest = [(value, source) for value, source in values if value is not None] or [("", "")]
            for value, source in rest:
                if not is_same(value, first[0]):
                    yield (f"the {figure} {value} of {readable(ink.colorant)} ({source}) gives way to {first[0]} "
                           f"({first[1]})")

    def edits(self) -> list[tuple[str, bytes, bytes]]:
        """What tables say of plates: the action, the ink, and its new name or that of the ink that is kept. The table
        of the file overrides the house's."""
        found: dict[str, tuple[str, bytes, bytes]] = {}
        for table in (self.of_table, self.house):
            for name, (_, known) in table.items():
                if known.edit:
                    found.setdefault(folded(name), (known.edit[0], name, known.edit[1].encode()))
        return list(found.values())

    def lost_edits(self) -> Iterator[str]:
        """What the house's table says of plates for which the file's table says something else."""
        told = {folded(name): (known.edit, number) for name, (number, known) in self.of_table.items() if known.edit}
        for name, (number, known) in self.house.items():
            edit, line = told.get(folded(name), (known.edit, 0))
            if edit != known.edit and known.edit and edit:
                lost, held = ("=".join(filter(None, one)) for one in (known.edit, edit))
                yield (f"{lost} of {readable(name)} (house.inks, line {number}) gives way to {held} "
                       f"({file_name(self.table or '')}, line {line})")

    def is_technical(self, ink: Ink) -> bool:
        """Whether an ink is technical, by its name or its kind."""
        return not ink.is_process and (self.technical.within(ink.colorant) is not None or not tables.counts(ink.kind))

    def has_met(self, name: bytes) -> bool:
        """Whether a name is that of an ink that was met."""
        return ink_called(name, list(self.met)) is not None

    def unused(self, table: Iterable[bytes]) -> list[bytes]:
        """The names of a table that are taken for no ink that was met."""
        names, others = list(table), {name for spellings in self.met for name in spellings}
        used = {found for spellings in self.met for found in matching(spellings, names, others)}
        return [name for name in names if name not in used]

    def strangers(self) -> Iterator[str]:
        """What was given for inks that were not met: a line for each. A house's table is for all its files: of it
        only a line is named that seems to be meant for an ink that was met."""
        for key in sorted({name for given in (self.densities, self.kinds, self.roles) for name in self.unused(given)}):
            yield f"no colorant of the file is called {readable(key)}{self.meant(key)}"
        for table, lines in ((self.table, self.of_table), (house_file("house.inks"), self.house)):
            for key in self.unused(lines):
                place = f"{table}: line {lines[key][0]}"
                if self.has_met(key):
                    yield f"{place}: another line is taken for {readable(key)}, which is spelled as the ink"
                elif table == self.table or self.meant(key):
                    yield f"{place}: no colorant is called {readable(key)}{self.meant(key)}"

    def meant(self, name: bytes) -> str:
        """The ink that was met whose name is this one but for blanks, if there is one."""
        like = [spellings[0] for spellings in self.met if squeezed(spellings[0]) == squeezed(name) != ""]
        return f" (is {readable(min(like))} meant?)" if like else ""


def is_same(one: str, other: str) -> bool:
    """Whether two figures are the same: densities by their numbers."""
    try:
        return float(one) == float(other)
    except ValueError:
        return one == other


def first_of(ranks: Sequence[tuple[str, Sequence[Known | None]]], figure: str) -> tuple[str, Origin] | None:
    """The first source that has a figure: the figure, and where it comes from."""
    for rank, several in ranks:
        for known in several:
            value = getattr(known, figure, None)
            if known is not None and value is not None:
                return value, Origin(rank, known.source)
    return None


# How the owner gives a figure of an ink; the option follows.
HOW = "add a line to NAME.inks or house.inks, or give"


def unsure_lines(ink: Ink) -> Iterator[tuple[str, str, str]]:
    """What has to be said of an ink of which the owner did not give everything: the kind of a finding, its
    level, and the text."""
    called = readable(ink.colorant)
    # Where the name cannot be typed, the job's spelling stands for it.
    word = shlex.quote((called if called.encode() == ink.colorant else ink.name) + "=KIND")
    if ink.kind_from.rank == "name":
        with_density = f" with a density of {ink.density}" if ink.role in ROLES_OF_KINDS else ""
        yield "ink-kind", "warning", (f"{called} is {ROLE_NAMES.get(ink.role, 'a technical ink')} by its name, and is "
                                      f"taken as {ink.kind}{with_density} ({ink.kind_from.text}): {HOW} --kind {word}")
    elif ink.kind_from.rank == "library" and ink.kind != "Normal":
        yield "ink-kind", "warning", (f"{called} is taken as {ink.kind} ({ink.kind_from.text}): {HOW} "
                                      f"--kind {word}")
    if not ink.is_process and process_meant(ink.colorant):
        yield "process-name", "warning", (f"{called} is a spot with a plate of its own, and is called like a process "
                                          f"ink: is {process_meant(ink.colorant)} meant?")
    if not tables.counts(ink.kind):
        return
    if ink.density_from.rank == "guess":
        yield "ink-density", "warning", (f"the density of {called} is not told; {ink.density} is a guess: {HOW} "
                                         f"--density")
    elif ink.density_from.rank == "library" and not ink.is_process:
        yield "ink-library", "note", f"the density of {called} is {ink.density} by {ink.density_from.text}"
