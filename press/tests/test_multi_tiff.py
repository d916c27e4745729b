# SPDX-License-Identifier: Apache-2.0
"""TIFF files of all inks as channels of one page, and the report beside TIFF files."""
import hashlib
import json
import struct
from pathlib import Path

import numpy as np
import pytest
import tifffile
from pdf_cases import ART, folders_of, one_page, run_command, saved

from press.errors import PressError
from press.folder import PageFolder
from press.inks import Ink
from press.multi_tiff import multi_tags, photoshop_resources
from press.plates import read_pgm


def test_resources_name_the_spots() -> None:
    """Each block has its size, and an even number of bytes; names and looks are those of the inks."""
    spots = [Ink("Warm_Red", b"Warm Red", b"Warm Red", "1", look=(0.0, 95.0, 80.0, 0.0)),
             Ink("Gr_n", "Gr\u00fcn".encode(), b"x", "1", look=(100.0, 0.0, 100.0, 0.0))]
    data, found = photoshop_resources(spots), {}
    while data:
        kind, number, name, size = struct.unpack_from(">4sHHI", data)
        assert kind == b"8BIM" and name == 0
        found[number] = data[12:12 + size]
        data = data[12 + size + size % 2:]
    assert found[1006] == b"\x08Warm Red\x04Gr\xfcn"
    names = ["Warm Red\0".encode("utf-16-be"), "Gr\u00fcn\0".encode("utf-16-be")]
    assert found[1045] == b"\0\0\0\x09" + names[0] + b"\0\0\0\x05" + names[1]
    looks = (2, 65_535, 3277, 13_107, 65_535, 100, 2, 0, 2, 0, 65_535, 0, 65_535, 100, 2, 0)
    assert struct.unpack(">H4HHBBH4HHBB", found[1007]) == looks


def test_all_inks_as_channels(tmp_path: Path) -> None:
    """The channels are the trapped plates, full ink the greatest value; tags name the inks; a report has digests."""
    folder = folders_of(saved(one_page(ART), tmp_path / "in.pdf"))[0]
    done = run_command("tiff", folder, tmp_path / "out", "--multi", "--report")
    assert done.returncode == 0 and done.stderr == "", done
    page = PageFolder.read(str(folder))
    with tifffile.TiffFile(tmp_path / "out" / "in-1-multi.tif") as file:
        one = file.pages[0]
        planes, tags = one.asarray(), {tag.code: tag.value for tag in one.tags}
    assert len(page.inks) == 6 and planes.shape[2] == 6
    for at, ink in enumerate(page.inks):
        assert np.array_equal(255 - planes[:, :, at], read_pgm(page.plate(ink, True)))
    assert tags[262] == 5 and tags[332] == 1 and tags[334] == 6 and tuple(tags[338]) == (0, 0)
    assert tags[333].encode().rstrip(b"\0") == b"\0".join(ink.colorant for ink in page.inks)
    assert bytes(tags[34377]) == photoshop_resources(page.inks[4:])
    told = json.loads((tmp_path / "out" / "in-1.json").read_text())
    assert [ink["name"] for ink in told["inks"]] == ["Cyan", "Magenta", "Yellow", "Black", "Test Red", "Warm Gray"]
    made = {path.name for path in (tmp_path / "out").iterdir()}
    assert {one["file"] for one in told["files"]} == made - {"in-1.json"}
    for one in told["files"]:
        assert one["sha256"] == hashlib.sha256((tmp_path / "out" / one["file"]).read_bytes()).hexdigest()


def test_plates_without_a_process_ink() -> None:
    """Such plates make no CMYK page."""
    with pytest.raises(PressError, match="page: --multi needs plates of all process inks"):
        multi_tags([Ink("Gold", b"Gold", b"Gold", "1")], "page")
