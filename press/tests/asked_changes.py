# SPDX-License-Identifier: Apache-2.0
"""What is another one, since it was asked for, than the press commands made when they were scripts: for compare_commits.py --asked,
which leaves it aside and counts it. All else has to be the same."""
import re
from typing import NamedTuple


class Asked(NamedTuple):
    """A change: why, how lines of both commits are rewritten so that they compare, which lines and files one commit alone may have,
    mostly the second, what is cut out of the second's proof sheets, and how jobs of both are rewritten, in proof sheets too. A line of a
    file begins with the file's name and a colon, one that is printed with `printed: `."""

    why: str
    rewritten: tuple[tuple[str, str], ...] = ()
    added: tuple[str, ...] = ()
    cut: tuple[str, ...] = ()
    spelled: tuple[tuple[str, str], ...] = ()


# What preflight finds in the content of a page, as it is said without the kind of the finding.
CONTENT = (r"(fonts that the file does not embed: |a line of [\d.]+ pt at |\d+ layers \(|[\d.]+% of the page is not trapped: |"
           r"\d+% of ink at |an image has \d+ pixels per inch at |type of [\d.]+ pt is reversed out of )")
RECTANGLE = r"([\d.]+) ([\d.]+) moveto ([\d.]+) 0 rlineto 0 ([\d.]+) rlineto -[\d.]+ 0 rlineto"
KINDS = "(font-embedded|hairline|layers|not-trapped|total-ink|image-resolution|small-reverse)"
# Options that both commits get for a file, since what the first one does without them was asked to be another one: white is trapped as
# the lightest ink.
OPTIONS = {"technical.pdf": ["--kind=White opaque=Transparent"]}
# Files of which all differences are asked for.
FILES = {"transparency.pdf": "a spot of a small page with transparency is no longer blank"}
CHANGES = (
    Asked("press/check is called press/preflight", ((r"\bpress-check\b", "press-preflight"),)),
    Asked("trapsheet traps pages: it takes another amount of memory", ((r"[\d.]+ GB of memory", "SIZE of memory"),)),
    Asked("the library has more inks, and its tables a line with the licence", ((r"(\w+\.inks, line) \d+", r"\1 NUMBER"),)),
    Asked("preflight looks at the content of pages", added=(
        rf"printed: (press-all: (warning: )?)?.*: (note: )?(page \d+: )?((note|warning): {KINDS}: )?{CONTENT}.*",
        rf".*/warnings\.txt: (note|warning): {KINDS}: .*"),
        cut=(rf'<li class="\w+">(note|warning): {KINDS}: .*?</li>', "<h3>Warnings and notes</h3><ul></ul>")),
    Asked("inks have roles", ((r"^(.*/colorants\.txt: colorant(?:\t[^\t]*){7})\t\w+$", r"\1"),
                              (r"in the PDF(\.|, and)$", "in the PDF")),
          (r".*/colorants\.txt: # its role\.", r".*/report\.json: inks\.\d+\.role: \w+")),
    Asked("the ink coverage is measured", added=(r".*/report\.json: layout\.(coverage\.\S+|total_ink): [\d.]+",),
          cut=(r"<h3>Ink coverage</h3><p>At most \d+% in one place\.</p><table>.*?</table>\n?",)),
    Asked("inks are drawn back under rich black", added=(r".*/report\.json: keepaway\.width: [\d.]+",)),
    Asked("a page that the disk has no room for is refused before it is drawn", (
        (r"Ghostscript cannot read it: Ghostscript ended with 255|the page takes about [\d.]+ .B of disk, and there are [\d.]+ .B", "NO ROOM"),)),
    Asked("pikepdf says what a PDF has of its pages, and nothing of one whose tree of pages is a ring", added=(
        r"printed: ring\.pdf: page 1: 120 by 48 samples, .*",)),
    Asked("the three pictures of a page are one step, which is printed once", added=(
        r"printed: press-all: .*: page \d+ of \d+: pictures",)),
    Asked("a job has a record", added=(r"(.*/)?job\.json",)),
    Asked("zones are composed, and what lies above images is trapped", added=(
        r"(.*/)?zones\.json", r".*/report\.json: layout\.untrapped\.\w+: [\d.]+"), spelled=(
            (r"newpath\s+", "newpath "), (r"\s+settrapzone\n\n?", " settrapzone\n"), (r"(\d)\.000\b", r"\1"),
            (r"(% Within images nothing is trapped), but at what is drawn above them", r"\1"))),
    Asked("files of the project have a line with the licence", cut=(r"/\* SPDX-License-Identifier: Apache-2\.0 \*/\n",)),
)


def rewritten(line: str) -> str:
    """A line as both commits would have it."""
    for change in CHANGES:
        for pattern, instead in change.rewritten:
            line = re.sub(pattern, instead, line)
    return line


def respelled(text: str) -> str:
    """A job, or a proof sheet that has one, as both commits would have it: slices of an image that touch are one rectangle."""
    for change in CHANGES:
        for pattern, instead in change.spelled:
            text = re.sub(pattern, instead, text)
    return re.sub(rf"(?:^{RECTANGLE}\n)+", joined, text, flags=re.MULTILINE)


def joined(found: re.Match[str]) -> str:
    """Rectangles, one a line, of which those that lie on one another are one."""
    sides = sorted(tuple(map(float, one)) for one in re.findall(RECTANGLE, found[0]))
    rects: list[list[float]] = []
    for left, lower, width, height in sorted(sides, key=lambda one: (one[0], one[2], one[1])):
        if rects and [left, width] == rects[-1][::2] and abs(sum(rects[-1][1::2]) - lower) < 0.001:
            rects[-1][3] += height
        else:
            rects.append([left, lower, width, height])
    return "".join(" ".join(f"{side:.3f}" for side in one) + " rectangle\n" for one in rects)


def without_added(sheet: str) -> str:
    """A proof sheet of the second commit without what was asked for."""
    for change in CHANGES:
        for pattern in change.cut:
            sheet = re.sub(pattern, "", sheet, flags=re.DOTALL)
    return sheet


def why_added(line: str) -> str | None:
    """Why one commit alone may have a line or a file; None if it may not."""
    return next((change.why for change in CHANGES if any(re.fullmatch(pattern, line) for pattern in change.added)), None)
