# SPDX-License-Identifier: Apache-2.0
"""What is done of a page while Ghostscript draws it."""
import io
import os
import threading
import time
from pathlib import Path

import numpy
import pytest
import tifffile
from press import ahead, crew, page, strokes
from press.inks import open_book
from press.settings import Settings, parameters
from press.source import open_source
from room import LABEL, Room

pytestmark = pytest.mark.quick


def tiff_of(samples: numpy.ndarray) -> bytes:
    """An uncompressed TIFF file."""
    out = io.BytesIO()
    tifffile.imwrite(out, samples, rowsperstrip=1, metadata=None, byteorder="<")
    return out.getvalue()


def test_start_of_samples() -> None:
    """The samples begin after the directory and its values; what is cut off before their end has no start."""
    samples = numpy.arange(200, dtype="u1").reshape(20, 10)
    data = tiff_of(samples)
    start = ahead.raster_start(data)
    assert start and start <= data.index(samples.tobytes()) < start + 16
    assert [ahead.raster_start(data[:count]) for count in (0, 4, 8, 20)] == [None] * 4
    assert ahead.raster_start(b"II*\0" + bytes(40)) is None
    with pytest.raises(ValueError):
        ahead.raster_start(b"II+\0" + bytes(40))


def test_rows_are_waited_for(tmp_path: Path) -> None:
    """A plane that grows gives its rows as they are written."""
    samples = numpy.random.default_rng(1).integers(0, 255, (50, 30)).astype("u1")
    head = b"II*\0" + (8).to_bytes(4, "little") + bytes(6)
    path = tmp_path / "page(Cyan).tif"
    path.write_bytes(head)
    assert ahead.raster_start(head) == len(head) and not ahead.has_begun(str(path))
    plane = ahead.Growing(os.fsencode(path), samples.shape)

    def write() -> None:
        with open(path, "ab", buffering=0) as file:
            for row in samples:
                file.write(row.tobytes())
                time.sleep(0.002)
    writer = threading.Thread(target=write)
    writer.start()
    assert (plane[0:10] == samples[:10]).all() and (plane[5:40, 3:20] == samples[5:40, 3:20]).all()
    assert ahead.has_begun(str(path)) and (plane[40:90] == samples[40:]).all()
    writer.join()
    # A plane that is shorter than was expected is refused once Ghostscript has ended.
    longer = ahead.Growing(os.fsencode(path), (60, 30))
    (tmp_path / "gs.end").touch()
    assert (longer[0:50] == samples).all()
    with pytest.raises(ValueError, match="not what was expected"):
        print(longer[0:60])


@pytest.mark.usefixtures("built")
@pytest.mark.parametrize("options", [{}, {"drop": ("Varnish",)}])
def test_parts_of_the_label(room: Room, monkeypatch: pytest.MonkeyPatch, options: dict[str, tuple[str, ...]]) -> None:
    """The thin parts that are found while the page is drawn are those that are found after; plates that are edited are
    looked at after that."""
    monkeypatch.setenv("PRESS_HOUSE", str(room.beside))
    settings, scratch = Settings(dpi=200, **options), str(room / "scratch")
    os.mkdir(scratch)
    source, book = open_source(str(LABEL), scratch), open_book(settings, str(LABEL))
    budget = crew.Budget(1)
    with crew.Crew(budget) as helpers:
        made = page.prepare(source, 1, settings, book, scratch, helpers)
    budget.close()
    assert made.trace and bool(made.parts) == (not options)
    real = page.layout_of(page.replace(made, parts=None), settings)
    searched: list[int] = []
    monkeypatch.setattr(ahead, "find_strokes", lambda *words: searched.append(1) or strokes.find_strokes(*words))
    assert page.layout_of(made, settings) == real and real.strokes and not searched
    # Another width is another question.
    wider = settings.but(parameters=parameters(width="0.6pt"))
    assert page.layout_of(made, wider) != real and bool(searched) == bool(made.parts)
