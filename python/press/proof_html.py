# SPDX-License-Identifier: Apache-2.0
"""Pieces of HTML that proof sheets are made of."""
import base64
import html
import io
from collections.abc import Iterable, Sequence

import numpy
from PIL import Image

from . import png
from .picture import Light
from .plates import Array

JPEG_QUALITY = 88
escaped = html.escape


def data_uri(picture: Array, kind: str = "PNG") -> str:
    """A picture as the address of itself."""
    data = jpeg(picture) if kind == "JPEG" else png.encoded(picture)
    return f"data:image/{kind.lower()};base64,{base64.b64encode(data).decode()}"


def jpeg(picture: Array) -> bytes:
    """A picture as a JPEG file."""
    out = io.BytesIO()
    Image.fromarray(numpy.ascontiguousarray(picture)).save(out, format="JPEG", quality=JPEG_QUALITY)
    return out.getvalue()


def image(picture: Array, text: str) -> str:
    """A picture of the sheet's width."""
    return f'<img class="picture" src="{data_uri(picture)}" alt="{text}">'


def table(heads: Sequence[str], rows: Iterable[Sequence[str | int]]) -> str:
    """A table; numbers are on the right."""
    lines = ["<table><tr>" + "".join(f"<th>{escaped(head)}</th>" for head in heads) + "</tr>"]
    for row in rows:
        cells = "".join(f'<td class="number">{one:,}</td>' if isinstance(one, int) else f"<td>{one}</td>"
                        for one in row)
        lines.append(f"<tr>{cells}</tr>")
    return "\n".join(lines) + "</table>"


def swatch(light: Light) -> str:
    """A square of a colour."""
    color = "#" + "".join(f"{part:02x}" for part in light)
    return f'<span class="swatch" style="background:{color}"></span>'


def long(text: str) -> str:
    """A name or a line, which may be broken anywhere."""
    return f'<span class="long">{escaped(text)}</span>'
