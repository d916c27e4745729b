# SPDX-License-Identifier: Apache-2.0
"""Images: within them nothing is trapped, beside them as ever. All places are in samples at 600 dpi, from the upper left corner."""
import re
import shutil

import pytest
from pdf_writer import Pdf
from readers import changed_in
from room import Room, needs

# Of each sample the parts in which traps come with --trap-images alone, and those in which they come in any case.
INSIDE = {"photo": (47, 38, 406, 324), "turned": (38, 47, 324, 406), "clipped": (190, 140, 120, 120), "pattern": (100, 50, 380, 300)}
BESIDE = {"photo": (740, 60, 20, 280), "turned": (60, 740, 280, 20), "pattern": (740, 60, 20, 280)}
OWN_ZONE = "<< /TrapWidth 0.5 >> settrapparams 0 0 moveto 60 0 rlineto 0 48 rlineto -60 0 rlineto settrapzone\n"


def test_without_mutool(room: Room) -> None:
    """Without mutool images are not looked for, which is warned of."""
    room.sample("photo.pdf")
    told = room.goes("preflight", "photo.pdf", env=room.without("mutool")).out
    assert re.search(r"warning: images: mutool is not there .*: images are not looked for", told), told


@needs("mutool")
@pytest.mark.parametrize("name", INSIDE)
def test_images_are_left_out(room: Room, built: None, name: str) -> None:
    """An image that is plain, turned, clipped or in a pattern keeps its edges, unless --trap-images is given."""
    room.sample(f"{name}.pdf")
    room.goes("plates", f"{name}.pdf", name)
    shutil.copytree(room / name, room / "whole")
    room.goes("plates", "--force", "--trap-images", f"{name}.pdf", "whole")
    room.goes("trap", name)
    room.goes("trap", "whole")
    assert changed_in(room / name, *INSIDE[name]) == 0
    assert changed_in(room / "whole", *INSIDE[name]) > 0
    if name in BESIDE:
        assert changed_in(room / name, *BESIDE[name]) > 0


@needs("mutool")
def test_zone_of_the_owner_stays(room: Room, built: None) -> None:
    """A zone of the owner's adds to the page, but not within the image; --only-zones leaves the page out."""
    room.sample("photo.pdf")
    room.write("own.zones", OWN_ZONE)
    for name, options in (("photo", ()), ("only", ("--only-zones",))):
        room.goes("plates", "photo.pdf", name, "--zones", "own.zones", *options)
        room.goes("trap", name)
        assert changed_in(room / name, 51, 42, 398, 316) == 0
        assert (changed_in(room / name, *BESIDE["photo"]) > 0) == (not options)
        assert changed_in(room / name, 0, 0, 500, 400) > 0


@needs("mutool")
def test_large_type_and_shapes_above_an_image(room: Room, built: None) -> None:
    """Type of 30 points and a rectangle of 30 by 20 points over a photograph are trapped at their edges, and the photograph
    beside them is not."""
    samples = b"".join(bytes((255, 0, 0, 0) if x % 9 < 5 else (0, 255, 0, 0)) for _ in range(40) for x in range(60))
    file = Pdf()
    picture = file.image("/Width 60 /Height 40 /BitsPerComponent 8 /ColorSpace /DeviceCMYK", samples)
    font = "/Font << /F << /Type /Font /Subtype /Type1 /BaseFont /Helvetica-Bold >> >>"
    file.page("q 160 0 0 100 10 10 cm /Im Do Q 0 0 1 0 k 20 70 30 20 re f BT /F 30 Tf 100 20 Td (QM) Tj ET", (180, 120),
              f"{font} /XObject << /Im {picture} >>")
    room.write("over.pdf", file.bytes())
    room.goes("plates", "over.pdf", "page", "--dpi", "144", "--width", "1pt")
    room.goes("trap", "page")
    assert changed_in(room / "page", 36, 56, 68, 48) > 50 and changed_in(room / "page", 196, 150, 120, 68) > 50
    assert changed_in(room / "page", 120, 110, 180, 30) == 0
