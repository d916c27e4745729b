#!/usr/bin/python3
# SPDX-License-Identifier: Apache-2.0
"""Draws rotated.png: where the coordinates of zones start on a rotated page. docs/pictures/rotated.py [FOLDER]

The page is rendered by press/plates and drawn by press/look; the axes and the zone are drawn on top."""
import subprocess
import sys
import tempfile
from pathlib import Path

import pikepdf
from PIL import Image, ImageDraw, ImageFont

TOP = Path(__file__).resolve().parents[2]
SIDES, ZONE, DPI, EDGE = (200, 300), (60, 40, 160, 90), 144, 90
INK, RED = (40, 40, 40), (200, 30, 30)


def write_pdf(path: Path) -> None:
    """A page of 200 by 300 points that is displayed turned by 90 degrees."""
    pdf = pikepdf.new()
    page = pdf.add_blank_page(page_size=SIDES)
    page.obj.Rotate = 90
    text = b"0.5 0.1 0 0 k 20 20 160 60 re f 0 0.05 0.4 0 k 20 80 160 200 re f"
    page.obj.Contents = pdf.make_stream(text)
    pdf.save(path)


def picture_of(folder: Path) -> Image.Image:
    """The page as press/look draws it."""
    write_pdf(folder / "turned.pdf")
    for words in (["plates", "turned.pdf", "page", "--dpi", str(DPI)], ["look", "--untrapped", "page", "page.png"]):
        subprocess.run([TOP / "press" / words[0], *words[1:]], cwd=folder, check=True, stderr=subprocess.DEVNULL)
    return Image.open(folder / "page.png").convert("RGB")


def drawn(page: Image.Image) -> Image.Image:
    """The page with axes from its lower left corner, and the zone 60 40 moveto .. 160 90."""
    scale = DPI / 72
    out = Image.new("RGB", (page.width + EDGE * 2, page.height + EDGE * 2), "white")
    out.paste(page, (EDGE, EDGE))
    draw, font = ImageDraw.Draw(out), ImageFont.load_default()
    font = ImageFont.truetype("/usr/share/fonts/truetype/dejavu/DejaVuSans.ttf", 18) if Path(
        "/usr/share/fonts/truetype/dejavu/DejaVuSans.ttf").exists() else font

    def at(x: float, y: float) -> tuple[float, float]:
        return EDGE + x * scale, EDGE + page.height - y * scale
    draw.rectangle((EDGE, EDGE, EDGE + page.width, EDGE + page.height), outline=INK, width=2)
    right, top = SIDES[1], SIDES[0]
    for end, name in (((right + 30, 0), "x"), ((0, top + 30), "y")):
        draw.line((at(0, 0), at(*end)), fill=INK, width=3)
        draw.text(at(end[0] + 3, end[1] + 8), name, fill=INK, font=font)
    left, lower, zone_right, upper = ZONE
    draw.rectangle((*at(left, upper), *at(zone_right, lower)), outline=RED, width=4)
    draw.text(at(left + 4, upper - 4), "a zone", fill=RED, font=font)
    for corner in ((left, lower), (zone_right, upper)):
        draw.ellipse((*at(corner[0] - 2, corner[1] + 2), *at(corner[0] + 2, corner[1] - 2)), fill=RED)
    draw.text(at(left - 4, lower - 3), "(60, 40)", fill=RED, font=font)
    draw.text(at(zone_right - 20, upper + 14), "(160, 90)", fill=RED, font=font)
    draw.text(at(-40, -6), "(0, 0)", fill=INK, font=font)
    draw.text(at(right - 40, -6), f"({right}, 0)", fill=INK, font=font)
    draw.text(at(-42, top + 4), f"(0, {top})", fill=INK, font=font)
    return out


def main() -> None:
    """Draws the picture into a folder, that of this script unless one is given."""
    with tempfile.TemporaryDirectory() as scratch:
        picture = drawn(picture_of(Path(scratch)))
    target = Path(sys.argv[1]) if len(sys.argv) > 1 else Path(__file__).parent
    picture.quantize(64).save(target / "rotated.png", optimize=True)


if __name__ == "__main__":
    main()
