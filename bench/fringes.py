#!/usr/bin/env python3
# SPDX-License-Identifier: Apache-2.0
"""Counts what keepaway is for, before trapkeep and after: coloured fringes around reversed type in a rich black, crisp
and antialiased, with any one plate off by one pixel; and with a folder of plates that `press/plates` made, the white
that peeks out on bare film with its plate off by five pixels.

    bench/fringes.py                       drawn type, 600 dpi, black drawn back by 0.08 mm
    bench/fringes.py FOLDER WHITE          the plates of a page, the plate WHITE drawn back by 0.2 mm
"""
import re
import subprocess
import sys
import tempfile
from pathlib import Path
from typing import Dict, List

import numpy as np
from numpy.typing import NDArray
from PIL import Image, ImageDraw, ImageFont

TOP = Path(__file__).resolve().parent.parent
Plane = NDArray[np.uint8]
Planes = Dict[str, Plane]

FONT = "/usr/share/fonts/truetype/dejavu/DejaVuSans-Bold.ttf"
SIDES = (240, 100)
RICH = {"Cyan": 0.6, "Magenta": 0.5, "Yellow": 0.4, "Black": 1.0}
DENSITIES = {"Cyan": 0.61, "Magenta": 0.76, "Yellow": 0.16, "Black": 1.70}
TYPE = (("Rich 7 black", 18, 20, 26), ("small reversed type 0123", 18, 60, 13))
AWAY = [(x, y) for x in (-1, 0, 1) for y in (-1, 0, 1) if x or y]


def drawn_type(zoom: int) -> Planes:
    """Reversed type in a rich black, as tints: crisp with a zoom of 1, else antialiased."""
    wide, high = (side * zoom for side in SIDES)
    picture = Image.new("L", (wide, high), 0)
    pen = ImageDraw.Draw(picture)
    for text, left, top, size in TYPE:
        pen.text((left * zoom, top * zoom), text, fill=255, font=ImageFont.truetype(FONT, size * zoom))
    cover = np.zeros((high, wide))
    cover[10 * zoom:-10 * zoom, 10 * zoom:-10 * zoom] = 1
    cover[np.asarray(picture) > 127] = 0
    small = cover.reshape(high // zoom, zoom, wide // zoom, zoom).mean((1, 3))
    return {name: np.round(share * small * 255).astype(np.uint8) for name, share in RICH.items()}


def moved(plane: Plane, right: int, down: int) -> Plane:
    """A plane off by so many pixels; nothing comes in from beyond its sides."""
    out = np.zeros_like(plane)
    high, wide = plane.shape
    out[max(down, 0):high + min(down, 0), max(right, 0):wide + min(right, 0)] = \
        plane[max(-down, 0):high + min(-down, 0), max(-right, 0):wide + min(-right, 0)]
    return out


def widest(plane: Plane, reach: int) -> Plane:
    """The greatest tint within so many pixels along both axes."""
    out = plane.copy()
    for axis in (0, 1):
        steps = [(0, step) if axis == 0 else (step, 0) for step in range(-reach, reach + 1)]
        out = np.maximum.reduce([moved(out, right, down) for right, down in steps])
    return out


def fringes(now: Planes, first: Planes) -> int:
    """Pixels where an ink shows that no pixel beside it shows in register, any one plate being off by one pixel."""
    bare = first["Black"] < 128
    colours = [name for name in now if name != "Black"]
    most = {name: widest(np.where(bare, first[name], 0).astype(np.uint8), 1).astype(int) for name in colours}
    found = np.zeros(bare.shape, bool)
    for off in now:
        for right, down in AWAY:
            seen = {name: moved(plane, right, down) if name == off else plane for name, plane in now.items()}
            open_now = seen["Black"] < 128
            for name in colours:
                found |= open_now & (seen[name].astype(int) > most[name] + 25)
    return int(found.sum())


def peeks(now: Planes, first: Planes, white: str, colours: List[str], reach: int) -> int:
    """Pixels of bare film on which white shows, away from white without colour, with its plate off so far."""
    coloured = sum(first[name].astype(int) for name in colours) * 10 >= 255
    colour_now = sum(now[name].astype(int) for name in colours) * 10 >= 255
    film = (first[white] < 128) & ~coloured
    alone = widest(((first[white] >= 128) & ~coloured).astype(np.uint8), reach) > 0
    found = np.zeros(film.shape, bool)
    for right, down in AWAY:
        found |= film & (moved(now[white], right * reach, down * reach) >= 128) & ~colour_now & ~alone
    return int(found.sum())


def read_plate(path: Path) -> Plane:
    """The tints of a plate of one byte a sample: 255 is full ink."""
    data = path.read_bytes()
    head = re.match(rb"P5\s+(\d+)\s+(\d+)\s+255\s", data)
    assert head, f"{path}: no plate of one byte a sample"
    wide, high = int(head[1]), int(head[2])
    return 255 - np.frombuffer(data, np.uint8, wide * high, head.end()).reshape(high, wide)


def write_plate(path: Path, plane: Plane) -> None:
    """Writes tints as a plate."""
    high, wide = plane.shape
    path.write_bytes(b"P5\n%d %d\n255\n" % (wide, high) + (255 - plane).tobytes())


def kept(planes: Planes, options: List[str], job: str) -> Planes:
    """What trapkeep makes of a page."""
    found = subprocess.run([TOP / "tools" / "program", "trapkeep"], capture_output=True, text=True, check=True)
    program = found.stdout.strip()
    with tempfile.TemporaryDirectory() as name:
        folder = Path(name)
        for ink, plane in planes.items():
            write_plate(folder / ink, plane)
        (folder / "job").write_text(job, encoding="utf-8")
        words = [program, *options, "job", "report", *(f"{ink}:{ink}:{ink}.out" for ink in planes)]
        subprocess.run(words, cwd=folder, check=True)
        return {ink: read_plate(folder / f"{ink}.out") for ink in planes}


def process_job() -> str:
    """A job of 600 dpi with the process inks."""
    details = " ".join(f"/{ink} << /NeutralDensity {density} >>" for ink, density in DENSITIES.items())
    return (f"<< /HWResolution [600 600] /TrappingDetails << /Type 1001 /ColorantDetails << {details} >> >> >> "
            "setpagedevice << >> settrapparams showpage")


def tell_peeks(folder: Path, white: str) -> None:
    """Prints how much white peeks out on a page that press/plates made."""
    job = (folder / "page.job").read_text(encoding="utf-8")
    first = {path.stem: read_plate(path) for path in sorted(folder.glob("*.pgm"))}
    clear = re.findall(r"/(\S+) << [^>]*/(?:Transparent|OpaqueIgnore) ", job)
    colours = [name for name in first if name != white and name not in clear]
    after = kept(first, ["--underprint", f"{white}=0.5669"], job)
    print(f"white that peeks out, {white} off by 5 pixels: {peeks(first, first, white, colours, 5)} before, "
          f"{peeks(after, first, white, colours, 5)} after")


def main(words: List[str]) -> None:
    """Prints the counts of the drawn pages, or those of the plates in a folder."""
    if words:
        tell_peeks(Path(words[0]), words[1])
        return
    for kind, zoom in (("crisp", 1), ("antialiased", 4)):
        first = drawn_type(zoom)
        after = kept(first, ["--rich-black", "0.2268"], process_job())
        print(f"fringes, {kind} reversed type: {fringes(first, first)} before, {fringes(after, first)} after")


if __name__ == "__main__":
    main(sys.argv[1:])
