# SPDX-License-Identifier: Apache-2.0
"""The settings of a job as its record keeps them: the options of press/all by their names, and back."""
import argparse
import dataclasses
import functools
import os
from collections.abc import Mapping, Sequence
from typing import Any

from .errors import UsageError
from .folder import JobFolder
from .job_record import OPTIONS, options_of, read_record
from .settings import PARAMETERS, Settings, add_made_options, add_page_choice

# Options that decide how a run goes, and not what a page becomes. They are recorded, and never a reason to refuse.
RUN_ONLY = ("time", "workers", "band", "trap-page", "strict", "pdf")
# Not recorded: they are of this run alone.
OF_A_RUN = ("page", "jobs", "force", "only_changed")
PATHS = ("icc", "inks", "zones", "pairs")


@functools.cache
def actions() -> dict[str, argparse.Action]:
    """The options that are recorded, by the longest name that each has on a command line, without dashes; but for those
    that stand for another one with a value, --no-keepaway for --keepaway off."""
    made = argparse.ArgumentParser(add_help=False)
    add_made_options(made)
    add_page_choice(made)
    # pylint: disable-next=protected-access
    return {one.option_strings[-1][2:]: one for one in made._actions
            if one.dest not in OF_A_RUN and not isinstance(one.const, str)}


def options_from(settings: Settings, out: str) -> dict[str, Any]:
    """The options that make these settings, but for those that are as usual. A path that is not absolute starts at
    the folder OUT."""
    found: dict[str, Any] = {}
    for name, action in actions().items():
        parameter = action.dest.replace("_", "-")
        if parameter in PARAMETERS:
            given = settings.parameters.get(parameter)
            # What a preset sets is recorded by its name.
            value: Any = given.text if given and (given.is_option or not settings.preset) else None
        else:
            value = getattr(settings, action.dest)
        if value is None or value == getattr(Settings(), action.dest, None):
            continue
        if action.dest in PATHS:
            value = recorded_path(value, out)
        found[name] = True if action.nargs == 0 else list(value) if isinstance(value, tuple) else value
    return found


def recorded_path(path: str, out: str) -> str:
    """A path as a record has it: as it is, or from OUT on."""
    return path if os.path.isabs(path) else os.path.relpath(os.path.realpath(path), os.path.realpath(out))


def words_from(options: Mapping[str, Any], out: str) -> list[str]:
    """Recorded options as arguments of press/all. Those that this version does not know are left out."""
    words = []
    for name, action in actions().items():
        value = options.get(name)
        if value is None or value is False:
            continue
        if action.nargs == 0:
            words.append(f"--{name}")
            continue
        for one in value if isinstance(value, list) else [value]:
            text = os.path.relpath(os.path.join(out, one)) if action.dest in PATHS and not os.path.isabs(one) else one
            words.append(f"--{name}={text}")
    return words


def settings_from(options: Mapping[str, Any], out: str) -> Settings:
    """The settings that recorded options make. Refuses what an option of the command line would be refused for."""
    made = argparse.ArgumentParser(add_help=False, allow_abbrev=False)
    add_made_options(made)
    add_page_choice(made)
    return Settings.of(made.parse_args(words_from(options, out)))


def without_run_only(options: Mapping[str, Any]) -> dict[str, Any]:
    """The options that decide what a page becomes."""
    return {name: value for name, value in options.items() if name not in RUN_ONLY}


def of_the_run(settings: Settings, other: Settings) -> Settings:
    """These settings, with what only decides how a run goes taken from others."""
    names = [one.name for one in dataclasses.fields(Settings)
             if one.name.replace("_", "-") in RUN_ONLY or one.name in OF_A_RUN]
    return settings.but(**{name: getattr(other, name) for name in names})


# A page that is made again

def given_on(options: argparse.Namespace, out: str) -> dict[str, Any]:
    """The options that a command line gives, as a record has them; what only decides how a run goes is left out."""
    found: dict[str, Any] = {}
    for name, action in actions().items():
        value = getattr(options, action.dest, None)
        if value is None or name in RUN_ONLY or action.nargs == 0 and value == (action.const is False):
            continue
        found[name] = True if action.nargs == 0 else recorded_path(value, out) if action.dest in PATHS else value
    return found


def usual(name: str) -> Any:
    """What a record would have for an option that is not given, if it had that."""
    value = getattr(Settings(), actions()[name].dest, None)
    return list(value) if isinstance(value, tuple) else value


def settings_again(options: argparse.Namespace, chosen: Settings, out: str, pages: Sequence[int]) -> Settings:
    """The settings for pages of a job that are made again: those that are recorded. Other ones on the command line are
    refused without --force, and with it they replace those of the same name."""
    recorded = [without_run_only(one) for one in recorded_options(out, pages)]
    if not recorded:
        return chosen
    given = given_on(options, out)
    for page, one in zip(pages, recorded):
        differs = next((name for name, value in given.items() if one.get(name, usual(name)) != value), None)
        if differs and not chosen.force:
            was, wanted = words_for(differs, one.get(differs, usual(differs))), words_for(differs, given[differs])
            raise UsageError(f"--{differs}: page {page} of {out} was made with {was}, and not with {wanted} (without "
                             f"it the recorded options are used; --force makes the page with other ones)")
    merged = [{**one, **given} for one in recorded]
    if other := next((page for page, one in zip(pages, merged) if one != merged[0]), None):
        raise UsageError(f"--page: pages {pages[0]} and {other} of {out} were made with different options: make them "
                         f"one after the other")
    # The trapped PDF of the job has the page that is made again.
    has_pdf = chosen.pdf or bool(options_of(read_record(out)).get("pdf"))
    return of_the_run(settings_from(merged[0], out), chosen).but(pdf=has_pdf)


def words_for(name: str, value: Any) -> str:
    """An option and its value as people read them."""
    if value is None or value == [] or value is False:
        return f"no --{name}"
    return f"--{name}" if value is True else f"--{name} {' '.join(value) if isinstance(value, list) else value}"


def recorded_options(out: str, pages: Sequence[int]) -> list[dict[str, Any]]:
    """The recorded options of each page, or those of the job for a page without a record; empty without any record."""
    job = read_record(out)
    if OPTIONS not in job:
        return []
    folder = JobFolder(out)
    found = []
    for page in pages:
        parts = [read_record(place) for place in (folder.page(page), folder.failed(page))]
        part = next((one for one in parts if one), job)
        found.append(options_of(part, page))
    return found
