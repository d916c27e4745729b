# SPDX-License-Identifier: Apache-2.0
"""What a page is made with: settings, the options that set them, presets, and where each value comes from."""
import argparse
import dataclasses
import math
import os
import re
from collections.abc import Callable, Mapping, Sequence
from dataclasses import dataclass, field
from typing import Any

from .errors import UsageError
from .files import table_lines
from .icc import need_press_profile
from .tools import PRESS

COMPRESSIONS = ("none", "packbits", "lzw", "deflate")
BOXES = ("media", "crop", "bleed", "trim", "art")
POINTS = {"mm": 72 / 25.4, "um": 72 / 25_400, "µm": 72 / 25_400, "pt": 1.0, "in": 72.0}
MOST_WIDTH, USUAL_WIDTH = 100, 0.25
# A trap reaches less than so many pixels, times BlackWidth at black (docs/JOBS.md); keepaway at most so many.
MOST_REACH, MOST_KEEPAWAY = 128.5, 128
KEEPAWAY = "keepaway"
MOST_PAGE, MOST_SECONDS, MOST_JOBS = 999_999, 86_400, 1024
PRESETS = os.path.join(PRESS, "presets")


# Values

def whole_number(text: str, least: int, most: int, what: str) -> int:
    """A whole number within limits."""
    if re.fullmatch(r"\d{1,9}", text) and least <= int(text) <= most:
        return int(text)
    raise UsageError(f"{what} is a whole number from {least} to {most}, and not '{text}'")


def number(text: str, least: float, most: float, what: str) -> float:
    """A number with a point or without, as a job may have it."""
    if re.fullmatch(r"\d{1,7}(\.\d*)?|\.\d+", text) and least <= float(text) <= most:
        return float(text)
    raise UsageError(f"{what} is a number from {least:g} to {most:g}, and not '{text}'")


def whole(what: str, least: int, most: int) -> Callable[[str], int]:
    """What argparse makes a whole number with."""
    return lambda text: whole_number(text, least, most, what)


def page_numbers(texts: list[str] | None) -> list[int]:
    """The pages that --page asks for, each as K, J-K, or several of these with commas between them."""
    pages: set[int] = set()
    for part in ",".join(texts).split(",") if texts else []:
        first_text, dash, last_text = part.partition("-")
        first = whole_number(first_text, 1, MOST_PAGE, "--page")
        last = whole_number(last_text, first, MOST_PAGE, "--page") if dash else first
        pages.update(range(first, last + 1))
    return sorted(pages)


def width_of(text: str, what: str, or_else: str = "") -> float:
    """A width in points, from a number and its unit. `or_else` names another word that the caller takes."""
    found = re.fullmatch(r"(\d{1,6}(?:\.\d*)?|\.\d+)\s*(mm|um|µm|pt|in)", text)
    points = float(found.group(1)) * POINTS[found.group(2)] if found else 0
    if not 0.0001 <= points <= MOST_WIDTH:
        raise UsageError(f"{what} is a width with its unit, 0.1mm, 100um, 0.25pt or 0.004in, to 100pt{or_else}, and "
                         f"not '{text}'")
    return points


def keepaway_of(text: str, what: str) -> float:
    """How far inks are drawn back, in points: a width, or 0 for "off"."""
    return 0.0 if text == "off" else width_of(text, what, ', or "off"')


def share_of(text: str, what: str, most: int = 1) -> float:
    """A share of 1, or hundredths with a % after them."""
    whole_is = 100 if text.endswith("%") else 1
    return number(text.removesuffix("%"), 0, most * whole_is, what) / whole_is


def one_of(what: str, words: Sequence[str]) -> Callable[[str], str]:
    """What argparse takes one of some words with."""
    def read(text: str) -> str:
        if text not in words:
            raise UsageError(f"{what} is one of {', '.join(words)}, and not '{text}'")
        return text

    return read


@dataclass(frozen=True)
class Value:
    """The value of a trapping parameter: the number that the job gets, the text that was given, and who gave it; and
    the value of a preset that it is in the place of."""

    number: float
    text: str
    source: str
    instead_of: "Value | None" = None

    @property
    def is_option(self) -> bool:
        """Whether an option gives it, and no preset."""
        return self.source.startswith("--")


@dataclass(frozen=True)
class Parameter:
    """What options and presets may set: its key in the job, which is empty for a value that the job does not have, how
    its text is read, and the comment next to it in the job."""

    key: str
    read: Callable[[str, str], float]
    comment: str = ""


# The parameters by the names that options (--width) and lines of presets (width 0.1mm) have.
PARAMETERS = {
    "width": Parameter("TrapWidth", width_of),
    "black-width": Parameter("BlackWidth", lambda text, what: number(text, 0.0001, 10, what)),
    "step": Parameter("StepLimit", share_of,
                      "how much two inks have to change, each its own way, for an edge to be trapped"),
    "slide": Parameter("SlidingTrapLimit", share_of,
                       "from which ratio of densities on a trap lies on both sides of the edge"),
    "scale": Parameter("TrapColorScaling", share_of, "how much of the added ink a trap keeps"),
    KEEPAWAY: Parameter("", keepaway_of),
}


# Presets

def house_folder() -> str | None:
    """Where a house keeps its own table of inks and its presets: the folder that PRESS_HOUSE names, the user's,
    or the machine's."""
    named = os.environ.get("PRESS_HOUSE")
    places = [named] if named else [os.path.expanduser("~/.config/press"), "/etc/press"]
    return next((place for place in places if os.path.isdir(place)), None)


def house_file(name: str) -> str | None:
    """A file of the house's folder, if it is there."""
    folder = house_folder()
    path = os.path.join(folder, name) if folder else None
    return path if path and os.path.isfile(path) else None


def preset_path(name: str) -> str:
    """The file of a preset: the house's, or one of press/presets."""
    if not re.fullmatch(r"[\w.-]+", name) or name.startswith("."):
        raise UsageError(f"--preset is a name, and not '{name}'")
    places = [place for place in (house_folder(), PRESETS) if place]
    for place in places:
        path = os.path.join(place, name + ".preset")
        if os.path.isfile(path):
            return path
    known = sorted({file.removesuffix(".preset") for place in places for file in os.listdir(place)
                    if file.endswith(".preset")})
    raise UsageError(f"--preset: there is no {name}; there are {', '.join(known)}")


def preset_values(name: str) -> dict[str, Value]:
    """The parameters of a preset."""
    path, values = preset_path(name), {}
    for count, line in enumerate(table_lines(path), 1):
        words = line.partition("#")[0].split()
        if not words:
            continue
        place = f"{path}: line {count}"
        if len(words) != 2 or words[0] not in PARAMETERS:
            raise UsageError(f"{place}: a line is one of {', '.join(PARAMETERS)}, and a value")
        value = PARAMETERS[words[0]].read(words[1], f"{place}: {words[0]}")
        values[words[0]] = Value(value, words[1], f"{name}.preset, line {count}")
    return values


def parameters(preset: str | None = None, **given: str | None) -> dict[str, Value]:
    """Trapping parameters as options give them, `width="0.1mm"` or `black_width="1.5"`; they override those of
    a preset."""
    values = preset_values(preset) if preset else {}
    for name, parameter in PARAMETERS.items():
        text = given.get(name.replace("-", "_"))
        if text is not None:
            values[name] = Value(parameter.read(text, f"--{name}"), text, f"--{name}", values.get(name))
    return values


# Settings

@dataclass(frozen=True)
class Settings:
    """What pages are made with. The fields are named after the options that set them."""

    # Rendering: pixels per inch, the box that is drawn, the press's profile, and the most seconds for
    # Ghostscript on a page.
    dpi: int = 600
    box: str = "media"
    icc: str | None = None
    output_intent: bool = False
    keep_cmyk: bool = False
    total_ink: float = 3.0
    time: int | None = None
    # Inks: NAME=DENSITY and NAME=KIND as given, and a table of inks.
    density: tuple[str, ...] = ()
    kind: tuple[str, ...] = ()
    role: tuple[str, ...] = ()
    merge: tuple[str, ...] = ()
    rename: tuple[str, ...] = ()
    to_process: tuple[str, ...] = ()
    drop: tuple[str, ...] = ()
    merge_suffixes: bool = False
    inks: str | None = None
    # Zones and parameters. The parameters have what the preset sets.
    zones: str | None = None
    pairs: str | None = None
    trap_images: bool = False
    over_images: bool = True
    trap_within: str | None = None
    only_zones: bool = False
    thin_zones: bool = True
    layer: tuple[str, ...] = ()
    preset: str | None = None
    parameters: Mapping[str, Value] = field(default_factory=dict)
    # The engine: threads; whether `trap page` is asked for, and rows of its band; the radius of presscheck in samples.
    workers: int | None = None
    trap_page: bool = False
    band: int | None = None
    check: int | None = None
    # Outputs.
    compression: str = "lzw"
    composite: bool = False
    channels: bool = False
    tiff: bool = True
    tiff_only: bool = False
    pdf: bool = False
    proof: bool = True
    look: bool = False
    # A run: whether warnings refuse a page, how many pages are done at once, whether what another file or other
    # options made is replaced, and whether pages that look the same are kept.
    strict: bool = False
    jobs: int = 1
    force: bool = False
    only_changed: bool = False

    @classmethod
    def of(cls, options: argparse.Namespace) -> "Settings":
        """The settings that a command's options make. Refuses a preset that is not there, and a profile that
        cannot be read."""
        given: dict[str, Any] = vars(options)
        names = {one.name for one in dataclasses.fields(cls)}
        values = {name: tuple(value) if isinstance(value, list) else value for name, value in given.items()
                  if name in names and value is not None}
        words = {name: given.get(name) for name in ("preset", *(name.replace("-", "_") for name in PARAMETERS))}
        settings = cls(**values, parameters=parameters(**words))
        if settings.pdf and settings.tiff_only:
            raise UsageError("--pdf and --tiff-only do not go together: a trapped PDF is made of plates")
        if settings.tiff_only and not settings.tiff:
            raise UsageError("--tiff-only and --no-tiff do not go together")
        if settings.icc:
            need_press_profile(settings.icc)
        # Plates of another RIP have the resolution of their files.
        if not isinstance(given.get("tiff"), list):
            need_reach(settings)
            if "dpi" in given:
                need_keepaway_reach(settings.parameters.get(KEEPAWAY), settings.dpi)
        return settings

    @property
    def by_page_program(self) -> bool:
        """Whether `trap page` traps pages, and not `trapsheet`."""
        return self.trap_page or self.band is not None

    def but(self, **changes: Any) -> "Settings":
        """The same settings but for some."""
        return dataclasses.replace(self, **changes)


def need_reach(settings: Settings) -> None:
    """Refuses a trap width that does not fit the resolution, with the largest that does."""
    width, black = settings.parameters.get("width"), settings.parameters.get("black-width")
    factor = max(1.0, black.number if black else 1.0)
    points = width.number if width else USUAL_WIDTH
    if points * factor * settings.dpi / 72 < MOST_REACH:
        return
    value = width or black
    most = math.floor((MOST_REACH * 72 / settings.dpi / factor - 0.0001) * 1000) / 1000
    at_black = f" times {factor:g} at black" if factor > 1 else ""
    raise UsageError(f"{value.source if value else 'TrapWidth'}: a trap width of {points:.4g}pt{at_black} is too wide "
                     f"at {settings.dpi} pixels per inch: at most {most:g}pt ({most * 25.4 / 72:.3g}mm) fits")


def need_keepaway_reach(value: Value | None, dpi: int) -> None:
    """Refuses a width of keepaway that does not fit the resolution, with the largest that does."""
    if value and value.number * dpi / 72 > MOST_KEEPAWAY:
        most = math.floor(MOST_KEEPAWAY * 72 / dpi * 1000) / 1000
        raise UsageError(f"{value.source}: inks cannot be drawn back by {value.number:.4g}pt at {dpi} pixels per inch: "
                         f"at most {most:g}pt ({most * 25.4 / 72:.3g}mm) fits")


# Options

def add_page_options(parser: argparse.ArgumentParser) -> None:
    """The options of how a page is rendered, its inks, parameters and zones."""
    add = parser.add_argument
    add("-r", "--dpi", metavar="N", type=whole("--dpi", 1, 10_000),
        help='pixels per inch; the default is 600, and with --tiff that of the files')
    add("-b", "--box", metavar="BOX", type=one_of("--box", BOXES),
        help='which box of the page is rendered: "media" (the default), "crop", "bleed", "trim" or "art"')
    add("-d", "--density", metavar="NAME=D", action="append",
        help="the neutral density of a colorant's full ink, from 0.001 to 10")
    add("-k", "--kind", metavar="NAME=KIND", action="append",
        help='how a colorant is trapped, by a kind of trap-job(5), such as "Transparent" for a varnish or '
             '"OpaqueIgnore" for a foil')
    add_ink_options(parser)
    add("-i", "--inks", metavar="FILE",
        help='a table of inks: in each line a name, a density, and a kind, with tabs between them; "-" leaves a '
             'density open, and a kind may be left out')
    add("-z", "--zones", metavar="FILE",
        help='statements of the job language, see trap-job(5), that are put before "showpage": trapping parameters and '
             'zones. Options override a file that makes no zone')
    add("--icc", metavar="FILE",
        help="the profile of the press, by which colours that are not inks are separated, and inks are drawn")
    add("--output-intent", action="store_true",
        help="takes the profile of the file's own output intent as --icc, if it has one")
    add("--keep-cmyk", action="store_true",
        help="keeps the numbers of CMYK colours that have a profile of their own; without it they are converted to the "
             "inks of the press. CMYK without a profile keeps its numbers always")
    add("--total-ink", metavar="SHARE", type=lambda text: share_of(text, "--total-ink", 16),
        help="the total ink above which preflight reports the place; the default is 300%%")
    add("-p", "--preset", metavar="NAME",
        help='trapping parameters by a name: "offset", "flexo", "gravure", "screen", or one of the house')
    add("-w", "--width", metavar="W",
        help="the trap width, with its unit: 0.1mm, 100um, 0.25pt or 0.004in. At most 100pt, and less than 9252pt "
             "divided by the dpi, and by --black-width if that is above 1: 15.4pt at 600 dpi")
    add("--black-width", metavar="F", help="a factor of the trap width at black, up to 10")
    add("--step", metavar="S",
        help="the minimum change of two inks, one falling and another rising, for an edge to be trapped: 0.25 or 25%%")
    add("--slide", metavar="S",
        help="the minimum ratio of densities for the trap to be centred on the edge (a sliding trap): 0.7 or 70%%")
    add("--scale", metavar="S", help="how much of the added ink a trap keeps: 1 or 100%%")
    add("--trap-images", action="store_true",
        help="traps within images too; without it their places become zones that are not enabled")
    add_zone_options(parser)
    add("-t", "--time", metavar="S", type=whole("--time", 1, MOST_SECONDS),
        help="refuses a page whose rendering takes more than S seconds")


def add_ink_options(parser: argparse.ArgumentParser) -> None:
    """The options of what inks are for, and of what becomes of their plates."""
    add = parser.add_argument
    add("--role", metavar="NAME=ROLE", action="append",
        help="what a colorant is for: process, spot, white, varnish, metallic or technical; its kind and density "
             "follow if they are not given")
    add("--merge", metavar="OLD=KEPT", action="append", help="prints one spot with the plate of another")
    add("--merge-suffixes", action="store_true",
        help="prints swatches of one number with one plate, such as PANTONE 485 C and PANTONE 485 CVC")
    add("--to-process", metavar="NAME", action="append",
        help="prints a spot with the process inks that the PDF gives for it")
    add("--drop", metavar="NAME", action="append", help="removes the plate of a spot")
    add("--rename", metavar="OLD=NEW", action="append", help="gives the plate of a spot another name")


def add_zone_options(parser: argparse.ArgumentParser) -> None:
    """The options of where traps may be."""
    add = parser.add_argument
    add("--pairs", metavar="FILE",
        help='a table of pairs of inks: in each line two inks and "under", by which the first spreads under the '
             'second, "never", or a factor of the trap width where they meet, with tabs between them. A file '
             'label.pairs next to label.pdf is used automatically, or else pairs.inks of the house')
    add("--no-traps-over-images", dest="over_images", action="store_false",
        help="does not trap type and line work above images either")
    add("--trap-within", metavar="BOX", type=one_of("--trap-within", ("bleed", "trim", "media")),
        help='keeps traps within the page\'s "bleed" or "trim" box, or allows them everywhere with "media". The '
             'default is the bleed box if it is inside the media box, else the trim box if there is one')
    add("--only-zones", action="store_true",
        help="traps nothing outside the zones of the zones file; without it they are added to the page")
    add("--no-thin-zones", dest="thin_zones", action="store_false",
        help="gives small type and thin lines the trap width of the page; without it they get a third of their "
             "own thickness")
    add("--layer", metavar="NAME=..", action="append",
        help="parameters for what a layer paints: NAME=off, or NAME=KEY=VALUE[,KEY=VALUE] with the keys of "
             'trap-job(5), such as "White=Enabled=false"')


def add_engine_options(parser: argparse.ArgumentParser) -> None:
    """The options of the trapping programs."""
    add = parser.add_argument
    add("--workers", metavar="N", type=whole("--workers", 1, 64), help="how many threads the program has, 1 to 64")
    add("--trap-page", action="store_true",
        help='traps by the program "trap page" in place of "trapsheet": the same result, slower, in 12 bytes of memory '
             'for each sample, for pages of at most 160,000,000 samples')
    add("--band", metavar="B", type=whole("--band", 1, 4096),
        help='how many rows a band of "trap page" has, 1 to 4096; asks for that program too')
    add("--keepaway", metavar="W",
        help="draws inks back under rich black, and whites under the colours on them, so that they do not show at "
             'edges: a width with its unit, or "off". The default is the trap width of the page')
    add("--no-keepaway", dest="keepaway", action="store_const", const="off",
        help="draws no ink back: the same as --keepaway off")
    add("-c", "--check", metavar="R", type=whole("--check", 0, 16),
        help='runs the program "presscheck" too, with a radius of 0 to 16 samples, and keeps what it prints in '
             'DIR/trapped/check: how many pixels that misregistration could leave unprinted, before and after. If the '
             'program is not installed, that is printed and nothing is counted')


def add_tiff_options(parser: argparse.ArgumentParser) -> None:
    """The options of TIFF files."""
    parser.add_argument("--compression", metavar="HOW", type=one_of("--compression", COMPRESSIONS),
                        help='how the separations are packed: "none", "packbits", "lzw" (the default) or "deflate"')
    parser.add_argument("--composite", action="store_true",
                        help="writes a file of all inks, NAME.tif, and a picture in RGB, NAME.png, too")
    parser.add_argument("--channels", action="store_true",
                        help="writes these too, and makes the spots extra channels of the CMYK page, with their names "
                             "and of no kind of transparency, as image editors and RIPs have them. ImageMagick takes "
                             "the first of them for transparency all the same, and Netpbm reads no such file")


def add_run_options(parser: argparse.ArgumentParser) -> None:
    """The options of what a run keeps of each page."""
    add = parser.add_argument
    add("--tiff-only", action="store_true",
        help="keeps no plates of a finished page, but its TIFF files, job, report, table and preview")
    add("--no-tiff", dest="tiff", action="store_false", help="writes no TIFF files")
    add("--pdf", action="store_true",
        help="writes a trapped PDF of all finished pages too, OUT/NAME-trapped.pdf, as press/pdf does")
    add("--no-proof", dest="proof", action="store_false", help="writes no preview")
    add("--look", action="store_true",
        help="draws pictures of each page too, by press/look: page.png, traps.png, and register.png, the part with "
             "most traps out of register")


def add_made_options(parser: argparse.ArgumentParser) -> None:
    """The options of what is made of each page on the whole way."""
    add_run_options(parser)
    add_engine_options(parser)
    add_tiff_options(parser)
    add_page_options(parser)


def add_page_choice(parser: argparse.ArgumentParser) -> None:
    """The option for pages, and those that decide on them."""
    add = parser.add_argument
    add("-P", "--page", metavar="K", action="append",
        help="this page alone; also J-K, and several with commas between them")
    add("-s", "--strict", action="store_true", help="treats warnings as errors")
    add("-j", "--jobs", metavar="N", type=whole("--jobs", 1, MOST_JOBS),
        help="how many pages are made at once; the default is 1")
