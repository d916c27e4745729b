# SPDX-License-Identifier: Apache-2.0
"""An edited page's inks, settings and zones as the files that `press/all` reads beside a PDF: NAME.inks, NAME.zones for
the settings of all pages, and NAME.K.zones for the zones of page K."""
from __future__ import annotations

from press.keepaway import page_parameters
from press.names import readable

from .job_edits import dictionary, number, zone_statements
from .job_sections import OPTIONS, OWNER, sections
from .page import DeskPage

RULE_OPTIONS = {"trim": "--trap-within media", "thin": "--no-thin-zones", "images": "--trap-images"}


def inks_table(page: DeskPage) -> str:
    """A line for each ink: its name in the PDF, its density and its kind, with tabs between them."""
    lines = []
    for ink in page.folder.inks:
        details = page.job.inks.get(ink.name)
        density = number(details.density) if details else str(ink.density)
        lines.append(f"{readable(ink.colorant)}\t{density}\t{details.kind if details else ink.kind}\n")
    return "".join(lines)


def settings_file(page: DeskPage) -> str:
    """The settings of the page alone, without a zone: `press/all` gives them to the zone of the whole page."""
    before, _ = owner_parts(page)
    return f"% Settings of page {page.folder.source.page}, for all pages.\n{before}" + (
        dictionary(page.edits.settings) if page.edits.settings else "")


def zones_file(page: DeskPage) -> str:
    """The owner's zones, from files and from the editor. The press room's own zones are left out, since `press/all`
    makes them again."""
    _, text = owner_parts(page)
    below = [zone for zone in page.edits.zones if not zone.over_images]
    above = [zone for zone in page.edits.zones if zone.over_images]
    text += "".join(zone_statements(zone, page_parameters(page.job)) for zone in [*below, *above])
    if above:
        text += "% press/all puts these zones below images: --trap-images traps within images too.\n"
    options = [RULE_OPTIONS[rule] for rule in sorted(page.edits.off)]
    if page.edits.keepaway is not None:
        options.append(f"--keepaway {number(page.edits.keepaway)}pt" if page.edits.keepaway else "--no-keepaway")
    return f"% Zones of page {page.folder.source.page}.\n{text}" + "".join(
        f"% The page was trapped with {option}.\n" for option in options)


def owner_parts(page: DeskPage) -> tuple[str, str]:
    """What options and files of zones set before the owner's first zone, and what follows."""
    parts = [page.original[one.start:one.end].decode("utf-8", "surrogateescape").partition("\n")[2]
             for one in sections(page.original) if one.kind in (OPTIONS, OWNER)]
    first = next((at for at, part in enumerate(parts) if "settrapzone" in part), len(parts))
    return "".join(parts[:first]), "".join(parts[first:])
