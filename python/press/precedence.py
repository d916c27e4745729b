# SPDX-License-Identifier: Apache-2.0
"""Which trapping parameter and which profile hold if several are given, and what lost.

On the page the command line overrides files that make no zone, that of one page the one of all pages, and these
override a preset. A zone has the parameters that its own file sets for it.
"""
from __future__ import annotations

from collections.abc import Iterator, Mapping, Sequence
from typing import NamedTuple

from . import tables
from .errors import PressError, Status
from .files import BYTE_ORDER_MARK, beside, bytes_of, is_utf16
from .job import Statement, Token, decimal, line_at, operands_of, pairs_of, read
from .settings import PARAMETERS, USUAL_WIDTH, Settings, Value, need_reach


class Given(NamedTuple):
    """A value of a parameter: its number or word in the job, as people read it, and its place."""

    value: str
    shown: str
    place: str

    def is_as(self, other: Given) -> bool:
        """Whether two say the same."""
        try:
            return decimal(float(self.value)) == decimal(float(other.value))
        except ValueError:
            return self.value == other.value


# Statements

def comment_of(name: str, values: Mapping[str, Value], dpi: int) -> str:
    """What a parameter's number means."""
    value = values[name]
    if name == "width":
        return f"{value.text}: {value.number * dpi / 72:.2f} samples at {dpi} pixels per inch"
    if name == "black-width":
        width = values["width"].number if "width" in values else USUAL_WIDTH
        return f"times TrapWidth at black: {width * value.number * 25.4 / 72:.3g} mm"
    return PARAMETERS[name].comment


def parameter_statement(settings: Settings, names: Sequence[str] | None = None) -> list[Statement]:
    """The statement that sets the parameters of options and presets, or those of these names, if there are any.
    Refuses a width that does not fit."""
    need_reach(settings)
    chosen = [name for name, parameter in PARAMETERS.items()
              if parameter.key and name in settings.parameters and (names is None or name in names)]
    if not chosen:
        return []
    lines = ["% Trapping parameters of options and presets:", "<<"]
    for name in chosen:
        value = settings.parameters[name]
        entry = f"/{PARAMETERS[name].key} {decimal(value.number)}"
        comment = comment_of(name, settings.parameters, settings.dpi)
        lines.append(f"   {entry:<24} % {comment} ({value.source})")
    return [Statement(None, ("\n".join(lines + [">> settrapparams"]) + "\n\n").encode())]


def read_statements(paths: Sequence[str]) -> list[Statement]:
    """The statements of files. A byte order mark is left aside."""
    found = []
    for path in paths:
        text = bytes_of(path)
        if is_utf16(text):
            raise PressError(Status.INPUT, "in UTF-16: save it as UTF-8", path)
        found.append(Statement(path, text.removeprefix(BYTE_ORDER_MARK)))
    return found


def zones_files(settings: Settings, path: str, page: int) -> list[str]:
    """The files of zones of a page: the one of --zones, or those beside the file."""
    return [settings.zones] if settings.zones else beside(path, "zones", f"{page}.zones")


def own_statements(settings: Settings, path: str, page: int) -> list[Statement]:
    """What the owner sets for a page: the parameters of options, and the files of zones."""
    return in_order(settings, read_statements(zones_files(settings, path, page)))


def in_order(settings: Settings, files: Sequence[Statement]) -> list[Statement]:
    """The parameters of presets, files that make no zone, the parameters of options, and files that make zones. A
    preset's parameter that such a file sets is left out."""
    whole = [one for one in files if not read(one.text).made]
    zoned = [one for one in files if one not in whole]
    set_there = {key for one in whole for key, _ in entries_in(one)}
    if not set_there:
        return [*parameter_statement(settings), *whole, *zoned]
    options = [name for name, value in settings.parameters.items() if value.is_option]
    presets = [name for name in settings.parameters if name not in options and PARAMETERS[name].key not in set_there]
    return [*parameter_statement(settings, presets), *whole, *parameter_statement(settings, options), *zoned]


# What lost

def entries_in(statement: Statement) -> Iterator[tuple[str, Given]]:
    """The trapping parameters that a file sets, one after another."""
    for _, operand in operands_of(statement.text, "settrapparams"):
        for key, at, body in pairs_of(operand):
            if key in tables.parameters() and isinstance(body, Token):
                place = f"{statement.path}, line {line_at(statement.text, at)}"
                yield key, Given(body.text, f"/{key} {body.text}", place)


def option_values(settings: Settings) -> Iterator[tuple[str, Given, bool]]:
    """The parameters of presets and of options by their keys, and whether each is an option's."""
    for name, value in settings.parameters.items():
        for one in (value.instead_of, value):
            if one and PARAMETERS[name].key:
                shown, place = (f"{one.source} {one.text}", "") if one.is_option else (f"{name} {one.text}", one.source)
                yield PARAMETERS[name].key, Given(decimal(one.number), shown, place), one.is_option


def lost_lines(settings: Settings, statements: Sequence[Statement]) -> Iterator[str]:
    """A line for each value that was given for a page and does not hold there, with the one that does; of a zone's own
    values, if an option's gives way to them."""
    if settings.icc and settings.output_intent:
        yield f"--output-intent gives way to --icc {settings.icc}"
    files = [one for one in statements if one.path]
    whole = [one for one in files if not read(one.text).made]
    given: dict[str, list[Given]] = {}
    for key, one, _ in sorted(option_values(settings), key=lambda found: found[2]):
        given.setdefault(key, []).append(one)
    for file in whole:
        for key, one in dict(entries_in(file)).items():
            several = given.setdefault(key, [])
            at = next((at for at, other in enumerate(several) if not other.place), len(several))
            several.insert(at, one)
    for several in given.values():
        lost = [one for one in several[:-1] if not one.is_as(several[-1])]
        yield from (f"{said(one)} gives way to {said(several[-1])}" for one in lost)
    for file in files:
        for key, one in entries_in(file) if file not in whole else ():
            if key in given and not given[key][-1].place and not one.is_as(given[key][-1]):
                yield f"{said(given[key][-1])} gives way to {said(one)} in the zones of that file"


def said(one: Given) -> str:
    """A value and its place."""
    return f"{one.shown} ({one.place})" if one.place else one.shown
