# SPDX-License-Identifier: Apache-2.0
"""Proof sheets: one HTML file that fetches nothing, of a page or of all pages of a run."""
import functools
import json
import os
from collections.abc import Callable, Iterable, Iterator, Mapping, Sequence
from dataclasses import dataclass

import numpy

from . import gaps, keepaway
from .changes import Changes, Found, Grid, changes_in, marked, small_places, together
from .crew import ALONE, Crew
from .engine import Report, read_report
from .errors import PressError, Status
from .files import whole_file, write_text
from .findings import page_ranges
from .folder import (JOB, JSON, PART, REPORT, SHEET, TRAPPED, WARNINGS, JobFolder, PageFolder, read_layout, read_table,
                     read_text)
from .fringes import fringes_of
from .names import readable
from .picture import Painter, Part, mean_of, pale, shifted, trap_width
from .plates import Array, thickened
from .proof_html import data_uri, escaped, image, long, swatch, table
from .proof_outputs import screened_reports, screened_text, trapped_pdf_text
from .tables import is_seen
from .tools import PRESS

MOST_PAGES, OVERVIEW, PLATE_WIDTH = 12, 1000, 240
DETAIL_WIDTH, DETAIL_HEIGHT, BY_TRAPS, BY_BARED = 160, 120, 4, 2
GRID = Grid(DETAIL_WIDTH, DETAIL_HEIGHT)
RED, BLUE = (215, 0, 30), (120, 150, 210)
LEAST_SHIFT = 4


# Sheets

def write_sheet_of_page(folder: str, asked: Sequence[int] = (), screened: str | None = None) -> None:
    """Writes the proof sheet of a page's folder into it, with the screened plates in the folder `screened` if one is
    given. Refuses it if other pages are asked for."""
    source = read_table(folder)[0]
    if any(page != source.page for page in asked):
        raise PressError(Status.PDF, f"--page: the folder has page {source.page} alone", folder)
    title = f"Proof of {readable(source.pdf)}, page {source.page}"
    write_sheet(os.path.join(folder, SHEET), title, "", parts_with_dots({source.page: folder}, screened))


def write_sheet_of_all(out: str, asked: Sequence[int] = (), screened: str | None = None) -> None:
    """Writes the proof sheet of the pages of a run into their folder: of those that are asked for, or of all, or of the
    twelve with most traps if there are more; with the screened plates in the folder `screened` if one is given."""
    done, failed = JobFolder(out).pages()
    if not done and not failed:
        raise PressError(Status.NO_PLATES, "no plates here, and no pages of press/all", out)
    if absent := [page for page in asked if page not in done]:
        failed_too = "failed" if absent[0] in failed else "is not here"
        raise PressError(Status.PDF, f"--page: page {absent[0]} {failed_too}; done are {page_ranges(done) or 'none'}",
                         out)
    changed = {page: read_report(folder).changed for page, folder in done.items()}
    chosen = [page for page in done if page in asked] if asked else \
        sorted(sorted(done, key=lambda page: -changed[page])[:MOST_PAGES])
    rows: dict[int, list[str | int]] = {page: [str(page), "done", count, ""] for page, count in changed.items()}
    rows.update((page, [f'<a href="#page-{page}">{page}</a>', *rows[page][1:]]) for page in chosen)
    for page, why in failed.items():
        rows[page] = [str(page), '<span class="fault">failed</span>', "", long(why)]
    note = "" if len(chosen) == len(done) else (
        f"<p>Of {len(done)} pages {len(chosen)} are drawn here, those with most traps or that were asked for; "
        f"press/proof --page K draws others.</p>")
    source = readable(read_table(done[chosen[0]])[0].pdf) if chosen else os.path.basename(out)
    head = note + table(["page", "", "samples changed", ""], (rows[page] for page in sorted(rows)))
    write_sheet(os.path.join(out, SHEET), f"Proof of {source}", head + trapped_pdf_text(out),
                parts_with_dots({page: done[page] for page in chosen}, screened))


def parts_with_dots(folders: Mapping[int, str], screened: str | None) -> Iterator[str]:
    """The part of each page, by its number, and after it its screened plates, if there are any in the folder."""
    reports = screened_reports(screened) if screened else {}
    for number, folder in folders.items():
        yield part_of_page(folder)
        if screened and number in reports:
            yield screened_text(folder, reports[number], screened)


def write_part(folder: str, crew: Crew = ALONE) -> None:
    """Writes what a page gives to the sheet of all into its folder."""
    write_text(os.path.join(folder, PART), part_of_page(folder, crew), "replace")


def part_of_page(folder: str, crew: Crew = ALONE) -> str:
    """A page's part: the one that is there and is not older than the traps, or a new one."""
    path, report = os.path.join(folder, PART), os.path.join(folder, TRAPPED, REPORT)
    if os.path.isfile(path) and os.path.isfile(report) and os.path.getmtime(path) >= os.path.getmtime(report):
        return read_text(path)
    page = PageFolder.read(folder)
    page.need_trapped()
    return page_text(page, crew)


def write_sheet(path: str, title: str, head: str, parts: Iterable[str]) -> None:
    """Writes a sheet of parts, with the style and the script in it."""
    library = os.path.join(PRESS, "lib")
    with whole_file(path) as made, open(made, "w", encoding="utf-8", errors="replace") as file:
        file.write(f'<!DOCTYPE html>\n<html lang="en"><head><meta charset="utf-8"><title>{escaped(title)}</title>\n'
                   f'<style>{read_text(library, "proof.css")}</style></head>\n<body><h1>{escaped(title)}</h1>\n'
                   f"{head}\n")
        file.writelines(part + "\n" for part in parts)
        file.write(f'<script>{read_text(library, "proof.js")}</script></body></html>\n')


# The pictures of a page

@dataclass(frozen=True)
class Opened:
    """What misregistration opens in some rows of a page: on how many samples before trapping and after, and the
    points of the small picture at which that is prevented and at which it is left."""

    counts: tuple[int, int]
    closed: Array
    left: Array


@dataclass(frozen=True)
class Seen:
    """What is seen in some rows of a page: the gaps, how many of those that are left each part of the grid has, the
    coloured fringes, what trapping changed, and the rows of the small picture before and after."""

    gaps: Opened
    gap_counts: Array
    fringes: Opened
    changes: Found
    small: tuple[Array, Array]


class Sheet:
    """The pictures of one page: `width` is how many samples wide its narrowest traps are, `radius` how far each
    plate is off in the map, in samples, and a point of an overview is a square of `times` samples."""

    def __init__(self, page: PageFolder, crew: Crew = ALONE) -> None:
        self.page, self.painter, self.width = page, Painter(page, True), trap_width(page)
        self.radius = max(1, int(self.width) // 2)
        self.times = max(1, -(-page.head.width // OVERVIEW), -(-page.head.height // (OVERVIEW * 2)))
        self.densities = [float(ink.density) if is_seen(ink.kind) else 0.0 for ink in page.inks]
        self.edges_of_black = fringes_of(page, self.radius)
        bands = self.painter.small_rows(self.times)
        ends = [*(band.start for band in bands[1:]), page.head.height]
        self.seen = crew.each([functools.partial(self.look_at, band, range(band.start, end))
                               for band, end in zip(bands, ends)])
        self.bared_before, self.bared_after = (sum(counts) for counts in zip(*(one.gaps.counts for one in self.seen)))
        self.fringes_before, self.fringes_after = (
            sum(counts) for counts in zip(*(one.fringes.counts for one in self.seen)))
        self.changes: Changes = together([one.changes for one in self.seen], self.painter.before[0], self.times)

    def look_at(self, band: range, rows: range) -> Seen:
        """What is seen in a band, whose rows make a picture, and in the rows that are left of the page after the last
        one."""
        before, after = self.painter.before, self.painter.after
        old, new = gaps.bared_twice(before, after, self.densities, self.radius, rows)
        left = numpy.flatnonzero(new) + rows.start * new.shape[1]
        fringes = self.edges_of_black.both(before, after, rows)
        return Seen(self.opened(old, new, rows), GRID.of_places(left, before[0].shape), self.opened(*fringes, rows),
                    changes_in(before, after, self.times, GRID, rows), self.painter.small_both(self.times, band))

    def opened(self, old: Array, new: Array, rows: range) -> Opened:
        """What is opened in some rows, by the samples before and after trapping."""
        return Opened((int(old.sum()), int(new.sum())), self.small_places(old & ~new, rows),
                      self.small_places(new, rows))

    def small_places(self, where: Array, rows: range) -> Array:
        """The points of the small picture that have marked samples of some rows."""
        row, column = numpy.divmod(numpy.flatnonzero(where), where.shape[1])
        return small_places(row + rows.start, column, self.painter.before[0].shape, self.times)

    def small_marks(self, places: Sequence[Array]) -> Array:
        """Marks on the small picture, grown by a point."""
        return thickened(marked(numpy.concatenate(places), self.painter.before[0].shape, self.times))

    def small(self) -> tuple[Array, Array]:
        """The small picture before and after."""
        before, after = (numpy.concatenate(parts) for parts in zip(*(one.small for one in self.seen)))
        return before, after

    def traps(self, ground: Array) -> Array:
        """The traps on the small picture, which is pale."""
        traps = ground.copy()
        for light, marks in zip(self.painter.lights, self.changes.marks):
            traps[thickened(marks)[:traps.shape[0], :traps.shape[1]]] = light
        return traps

    def map(self, ground: Array, opened: Sequence[Opened]) -> Array:
        """What misregistration opens, on the small picture, which is pale: in blue what is prevented, in red what is
        left."""
        drawn = ground.copy()
        drawn[self.small_marks([one.closed for one in opened])] = BLUE
        drawn[self.small_marks([one.left for one in opened])] = RED
        return drawn

    def details(self) -> list[Part]:
        """The parts with most traps, and those with most gaps left, as rectangles that do not overlap."""
        found: list[Part] = []
        left: Array = numpy.sum([one.gap_counts for one in self.seen], axis=0)
        for counts, most in ((self.changes.counts, BY_TRAPS), (left, BY_BARED)):
            for at in numpy.argsort(counts, axis=None)[::-1][:most].tolist():
                row, column = divmod(at, counts.shape[1])
                part = self.part_at(row, column)
                if counts[row, column] and part not in found:
                    found.append(part)
        return found

    def part_at(self, row: int, column: int) -> Part:
        """A part of the grid, moved onto the page."""
        head = self.page.head
        width, height = min(DETAIL_WIDTH, head.width), min(DETAIL_HEIGHT, head.height)
        left, top = min(column * DETAIL_WIDTH, head.width - width), min(row * DETAIL_HEIGHT, head.height - height)
        return left, top, width, height

    def plate_parts(self, part: Part, margin: int) -> dict[str, list[str | None]]:
        """Of each plate its part before and after as pictures, with what lies around it, or nothing if it is blank."""
        left, top, width, height = part
        grown = left - margin, top - margin, width + 2 * margin, height + 2 * margin
        out = {}
        for side, planes in (("before", self.painter.before), ("after", self.painter.after)):
            parts = [shifted(plane, (0, 0), grown) for plane in planes]
            out[side] = [data_uri(one) if at in self.painter.drawn and one.min() < 255 else None
                         for at, one in enumerate(parts)]
        return out


# The parts of a page's part

def page_text(page: PageFolder, crew: Crew = ALONE) -> str:
    """The part of a sheet that is a page's."""
    sheet, report = Sheet(page, crew), read_report(page.path)
    before, after = sheet.small()
    ground = pale(before)
    add_to_json(sheet)
    head = (f"<h2>{escaped(readable(page.source.pdf))}, page {page.source.page}</h2><p>{page.head.width} by "
            f"{page.head.height} samples at {page.source.resolution} pixels per inch; {report.changed:,} samples "
            f"changed at {report.edges:,} edges.</p>")
    legend = " ".join(f"{swatch(light)}{long(readable(ink.colorant))}"
                      for ink, light in zip(page.inks, sheet.painter.lights) if report.plates.get(ink.name))
    columns = ["zone", "samples", "changed"]
    zones = table(columns, ([zone[name] for name in columns] for zone in report.zones))
    inks = table(["ink", "in the job", "density", "kind", "plate", "samples changed", "ink added on"],
                 ink_rows(sheet, report))
    pictures: list[Callable[[], str]] = [
        lambda: image(sheet.traps(ground), "the traps"), lambda: map_text(sheet, ground),
        lambda: fringes_text(sheet, ground), lambda: thin_text(sheet, ground), lambda: slider_text(before, after),
        lambda: register_text(sheet)]
    pictures += [functools.partial(plate_text, sheet, at) for at in range(len(page.inks))]
    traps, gap_map, fringes, thin, slider, register, *plates = crew.each(pictures)
    return "\n".join([
        f'<section class="page" id="page-{page.source.page}" data-changed="{report.changed}">', head,
        warnings_text(page.path), "<h3>Before and after</h3>", slider, register,
        f"<h3>Traps</h3><p>Where ink was added, thickened, in its colour: {legend or 'nowhere'}</p>"
        f"{traps}", keepaway_text(page), gap_map, fringes,
        f'<h3>Plates</h3><div class="plates">{"".join(plates)}</div>', "<h3>Inks</h3>", inks,
        "<h3>Zones</h3>", zones, thin, coverage_text(page),
        f"<h3>The job</h3><pre>{escaped(read_text(page.file(JOB)))}</pre>", "</section>"])


def add_to_json(sheet: Sheet) -> None:
    """Adds to report.json on how many pixels misregistration opens gaps and shows coloured fringes."""
    path = sheet.page.file(TRAPPED, JSON)
    text = json.loads(read_text(path) or "{}")
    text["misregister"] = {"radius": sheet.radius, "bared_before": sheet.bared_before,
                           "bared_after": sheet.bared_after, "fringes_before": sheet.fringes_before,
                           "fringes_after": sheet.fringes_after}
    write_text(path, json.dumps(text, indent=1) + "\n")


def warnings_text(folder: str) -> str:
    """What was warned of."""
    items = "".join(f'<li class="{escaped(line.partition(":")[0])}">{escaped(line)}</li>'
                    for line in read_text(folder, WARNINGS).splitlines() if line)
    return f"<h3>Warnings and notes</h3><ul>{items}</ul>" if items else ""


def slider_text(before: Array, after: Array) -> str:
    """The page before and after, with a slider between them."""
    return (f'<div class="slider"><div class="pair"><img src="{data_uri(before, "JPEG")}" alt="before">'
            f'<img class="after" src="{data_uri(after, "JPEG")}" alt="after"><div class="line"></div></div><div><input '
            f'class="wide" type="range" min="0" max="100" value="50" aria-label="before and after"></div></div>'
            f"<p>Left of the line the page before trapping, right of it after. This small a trap is hardly seen: see "
            f"below.</p>")


def register_text(sheet: Sheet) -> str:
    """The parts with their sliders, and what the script draws them from."""
    page, parts = sheet.page, sheet.details()
    most, wide = int(sheet.width), max(LEAST_SHIFT, 3 * int(sheet.width))
    names = "".join(f'<option value="{at}">{escaped(readable(ink.colorant))} alone</option>'
                    for at, ink in enumerate(page.inks))
    # A plate that is moved opens gaps beside the part, and not at its border.
    data = {"lights": sheet.painter.lights, "margin": wide, "parts": [sheet.plate_parts(part, wide) for part in parts]}
    figures = "".join(f"<figure>{canvas(one)} {canvas(one)}<figcaption>{one[2]} by {one[3]} samples at {one[0]},"
                      f"{one[1]}: before on the left, after on the right</figcaption></figure>" for one in parts)
    closed = (f"The page's traps are {sheet.width:.2f} pixels wide: they close that much.{narrower_text(page)}"
              if sheet.width else "No zone has a trap of a pixel or more.")
    if any(ink.kind == "Opaque" and ink.has_ink for ink in page.inks):
        closed += (" The pictures show opaque inks, such as silver, as if they were transparent: on press these hide "
                   "the dark rims of their traps.")
    sliders = " ".join(f'<label>{name} <input class="{name}" type="range" min="{-wide}" max="{wide}" value="{value}">'
                       f"</label>" for name, value in (("across", most), ("down", 0)))
    return (f'<h3>Out of register</h3><p>{closed}</p><p class="controls"><label>Off: <select><option value="each">each '
            f'plate its own way</option>{names}</select></label> {sliders} <output></output></p><div class="details">'
            f'{figures or "<p>Nothing was trapped.</p>"}</div><script type="application/json">{json.dumps(data)}'
            f"</script>")


def narrower_text(page: PageFolder) -> str:
    """That thin strokes have traps of their own."""
    thin = read_layout(page).get("thin")
    return " Small type and thin lines have narrower ones." if thin and thin["zones"] else ""


def keepaway_text(page: PageFolder) -> str:
    """How far which inks were drawn back."""
    done = json.loads(read_text(page.file(TRAPPED, JSON)) or "{}").get(keepaway.KEY, {})
    lines = keepaway.lines_of(done, {ink.name: readable(ink.colorant) for ink in page.inks})
    return "".join(f"<p>{escaped(line)}</p>" for line in lines)


def canvas(part: Part) -> str:
    """Where the script draws a part."""
    return f'<canvas width="{part[2]}" height="{part[3]}"></canvas>'


def map_text(sheet: Sheet, ground: Array) -> str:
    """The map of the gaps that misregistration still opens, on the small picture before trapping, which is pale."""
    before, after = sheet.bared_before, sheet.bared_after
    radius = counted(sheet.radius)
    # Two plates that are off each its own way part by twice as much.
    far = (f" That is more than traps of {sheet.width:.2f} samples close everywhere."
           if 0 < sheet.width < 2 * sheet.radius else "")
    return (f"<h3>Where gaps can still open</h3><p>{swatch(RED)}a light gap can open here, each plate being off by "
            f"{radius} in both directions: {after:,} samples after trapping, {before:,} before. {swatch(BLUE)}closed "
            f"by a trap.{far}</p><p>Expect red at small type, inside images, and at marks outside the trim or bleed "
            f"box: traps are narrower or left out there. Look at red in other places.</p>"
            f'{image(sheet.map(ground, [one.gaps for one in sheet.seen]), "a map of the gaps that can still open")}')


def counted(samples: int) -> str:
    """So many samples, in words."""
    return f"{samples} sample" + ("" if samples == 1 else "s")


def fringes_text(sheet: Sheet, ground: Array) -> str:
    """The map of the coloured fringes that misregistration shows at rich black; nothing if there can be none."""
    before, after = sheet.fringes_before, sheet.fringes_after
    if not before and not after:
        return ""
    fringes = image(sheet.map(ground, [one.fringes for one in sheet.seen]),
                    "a map of the coloured fringes that can show")
    return (f"<h3>Where colour can show next to black</h3><p>{swatch(RED)}an ink below black can show next to it here, "
            f"each plate being off by {counted(sheet.radius)}: {after:,} samples on the plates as made, {before:,} as "
            f"separated. {swatch(BLUE)}prevented by keepaway.</p><p>Expect red in images, and at edges and marks "
            f"outside the trim or bleed box: keepaway changes nothing there.</p>"
            f"{fringes}")


def plate_text(sheet: Sheet, at: int) -> str:
    """A trapped plate, small."""
    small = mean_of(sheet.painter.after[at], max(1, -(-sheet.page.head.width // PLATE_WIDTH)))
    return (f'<figure><img src="{data_uri(small)}" alt=""><figcaption>'
            f"{escaped(readable(sheet.page.inks[at].colorant))}</figcaption></figure>")


def thin_text(sheet: Sheet, ground: Array) -> str:
    """Where thin strokes have zones of their own, and what these leave of their colour."""
    thin = read_layout(sheet.page).get("thin")
    if not thin or not thin["zones"]:
        return ""
    shown, scale = ground.copy(), sheet.page.source.resolution / 72 / sheet.times
    height = sheet.page.head.height / sheet.times
    for _, left, lower, right, upper in thin["places"]:
        rows = max(0, int(height - upper * scale)), min(shown.shape[0] - 1, int(height - lower * scale))
        columns = max(0, int(left * scale)), min(shown.shape[1] - 1, int(right * scale))
        if rows[0] <= rows[1] and columns[0] <= columns[1]:
            shown[rows[0]:rows[1] + 1, columns] = BLUE
            shown[rows, columns[0]:columns[1] + 1] = BLUE
    before, after = (f"{100 * thin[key]:.0f}%" for key in ("own_before", "own_after"))
    return (f"<h3>Small type and thin lines</h3><p>{thin['parts']:,} thin strokes in {thin['lines']:,} lines have "
            f"narrower traps, in {swatch(BLUE)}zones of their own: {after} of their colour is left. With the page's "
            f"trap width it would be {before}.</p>{image(shown, 'zones of thin strokes')}")


def coverage_text(page: PageFolder) -> str:
    """How much ink the page takes."""
    layout = read_layout(page)
    if "coverage" not in layout:
        return ""
    names = {ink.name: readable(ink.colorant) for ink in page.inks}
    rows = [(long(names.get(name, name)), f"{share:.1f}%") for name, share in layout["coverage"].items()]
    return f"<h3>Ink coverage</h3><p>At most {layout['total_ink']:.0f}% in one place.</p>{table(['ink', 'mean'], rows)}"


def ink_rows(sheet: Sheet, report: Report) -> Iterator[Sequence[str | int]]:
    """The rows of the table of inks."""
    painter, square = sheet.painter, (25.4 / sheet.page.source.resolution) ** 2
    for ink, light, count in zip(sheet.page.inks, painter.lights, sheet.changes.added):
        added = f"{count * square:.2f}\u00a0mm²"
        yield (swatch(light) + long(readable(ink.colorant)), long(ink.name), ink.density, ink.kind,
               "ink" if ink.has_ink else "blank", report.plates.get(ink.name, 0), added)
