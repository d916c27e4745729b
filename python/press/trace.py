# SPDX-License-Identifier: Apache-2.0
"""What a page paints, by mutool's trace of it: its images, each with the paths that clip it, and its type and line
work. Coordinates are in points; the origin is the upper left corner of the crop box, and y runs down.
"""
import math
import subprocess
import threading
from dataclasses import dataclass, field

from lxml import etree

from . import tools
from .marks import MOST_BOXES, Mark, glyph_corners, grown, outline_of
from .rects import NOTHING, Point, Polygon, Rect, around
from .source import Source

Matrix = tuple[float, float, float, float, float, float]
IDENTITY: Matrix = (1.0, 0.0, 0.0, 1.0, 0.0, 0.0)
LEAST_SAMPLES, CURVE_STEPS = 64, 8
# So many colours of a page are kept.
MOST_PAINTS = 2000
EVERYTHING = Rect(-1e9, -1e9, 1e9, 1e9)
# How long mutool may be at a page if no limit is given.
USUAL_SECONDS = 600
CHUNK = 1 << 16


@dataclass(frozen=True)
class Image:
    """An image that a page paints: its four corners, and the paths that clip it, each of one or more polygons."""

    corners: Polygon
    clips: list[list[Polygon]]
    order: int = 0


@dataclass(frozen=True)
class Paint:
    """The colour in which something is painted: its colour space, its parts from 0 to 1, whether it is type and of
    which size in points, and the box around it."""

    space: str
    colour: tuple[float, ...]
    box: Rect
    size: float = 0.0


@dataclass
class Trace:
    """What a page paints, filled by a parser of the trace."""

    images: list[Image] = field(default_factory=list)
    clips: list[list[Polygon]] = field(default_factory=list)
    masks: int = 0
    path: list[Polygon] | None = None
    matrix: Matrix = IDENTITY
    tiles: list[Polygon] = field(default_factory=list)
    marks: list[Mark] = field(default_factory=list)
    boxes: int = 0
    layers: list[str] = field(default_factory=list)
    painted: dict[str, list[Rect]] = field(default_factory=dict)
    order: int = 0
    half_width: float = 0.0
    trm: list[float] = field(default_factory=list)
    paint: tuple[str, tuple[float, ...]] = ("", ())
    paints: dict[tuple[str, tuple[float, ...], bool], Paint] = field(default_factory=dict)
    clip: Rect | None = None
    hairline: tuple[float, Rect] | None = None
    coarsest: tuple[float, Rect] | None = None

    def start(self, tag: str, values: dict[str, str]) -> None:
        """An element begins."""
        if tag in ("moveto", "lineto", "curveto"):
            if self.path is not None:
                self.add_point(tag, values)
        elif tag == "tile":
            area = [float(part) for part in values.get("area", "").split()]
            self.tiles.append(corners_of(matrix_of(values), *(area if len(area) == 4 else (0, 0, 0, 0))))
            if len(self.tiles) == 1:
                self.add_mark([self.tiles[0]])
        elif tag == "layer":
            self.layers.append(values.get("name", ""))
        elif tag == "end_layer":
            del self.layers[-1:]
        elif tag in ("fill_path", "stroke_path"):
            self.paint = paint_of(values)
            self.path, self.matrix = [], matrix_of(values)
            width = float(values.get("linewidth", 0)) * scale_of(self.matrix)
            self.half_width = width / 2 if tag == "stroke_path" else 0.0
        elif tag in ("fill_text", "stroke_text"):
            self.paint, self.matrix = paint_of(values), matrix_of(values)
        elif tag == "span":
            self.trm = [float(part) for part in values.get("trm", "").split()]
        elif tag == "g" and len(self.trm) == 4:
            corners = glyph_corners(float(values["x"]), float(values["y"]), float(values.get("adv", 0.6)), self.trm)
            points = [mapped(self.matrix, x, y) for x, y in corners]
            a, b, c, d = self.trm
            self.add_mark([points])
            self.note_paint(around(points), math.sqrt(abs(a * d - b * c)) * scale_of(self.matrix))
        elif tag == "fill_image_mask":
            self.add_mark([corners_of(matrix_of(values))])
        elif tag.startswith("clip_"):
            # Polygons of a clip by a path are kept; any other, of text or of a mask, cuts nothing away here.
            self.clips.append([])
            self.clip = None
            self.path = [] if tag == "clip_path" else None
            self.matrix = matrix_of(values)
        elif tag == "pop_clip":
            del self.clips[-1:]
            self.clip = None
        elif tag == "begin_mask":
            self.masks += 1
        elif tag == "end_mask":
            self.masks -= 1
            self.clips.append([])
            self.clip = None
        elif tag == "fill_image" and self.masks == 0:
            self.add_image(values)

    def end(self, tag: str) -> None:
        """An element ends."""
        if tag == "tile":
            del self.tiles[-1:]
        elif tag == "clip_path" and self.path is not None and self.clips:
            self.clips[-1] = [points for points in self.path if len(points) > 2]
            self.path, self.clip = None, None
        elif tag in ("fill_path", "stroke_path") and self.path is not None:
            if not self.tiles:
                polygons = [points for points in self.path if points]
                self.add_mark(polygons, self.half_width, tag == "fill_path")
                self.note_path(polygons, tag == "stroke_path")
            self.path = None
        elif tag in ("fill_text", "stroke_text"):
            self.trm = []

    def close(self) -> "Trace":
        """The trace is complete."""
        return self

    def add_point(self, tag: str, values: dict[str, str]) -> None:
        """A point of the path that is read; a curve as several."""
        assert self.path is not None
        if tag == "moveto":
            self.path.append([])
        if not self.path:
            return
        points = self.path[-1]
        if tag == "curveto":
            ends = [mapped(self.matrix, float(values[f"x{k}"]), float(values[f"y{k}"])) for k in (1, 2, 3)]
            curve = [points[-1] if points else ends[0], *ends]
            points += [curve_point(curve, step / CURVE_STEPS) for step in range(1, CURVE_STEPS + 1)]
        else:
            points.append(mapped(self.matrix, float(values["x"]), float(values["y"])))

    def add_mark(self, polygons: list[Polygon], half_width: float = 0.0, closed: bool | None = None) -> None:
        """Something that is painted, as far as the clips let it show: a path, closed or not; or, if `closed` is None,
        a glyph, a mask or a pattern, whose edges are anywhere in its box."""
        if self.masks or not polygons:
            return
        clip = self.clip_box()
        box = grown(around([point for points in polygons for point in points]), half_width).common(clip)
        if box == NOTHING:
            return
        self.order += 1
        self.note_layers(box)
        if self.boxes < MOST_BOXES:
            outline = (box,) if closed is None else \
                tuple(one.common(clip) for one in outline_of(polygons, closed, half_width))
            self.boxes += len(outline)
            self.marks.append(Mark(self.order, box, tuple(one for one in outline if one != NOTHING)))

    def note_path(self, polygons: list[Polygon], is_line: bool) -> None:
        """The colour of a path, and the thinnest line."""
        if self.masks or not polygons:
            return
        box = around([point for points in polygons for point in points])
        self.note_paint(box, 0.0)
        if is_line and (self.hairline is None or 2 * self.half_width < self.hairline[0]):
            self.hairline = 2 * self.half_width, box

    def note_paint(self, box: Rect, size: float) -> None:
        """A colour that is painted with, where it comes first; of type the smallest."""
        key = *self.paint, size > 0
        known = self.paints.get(key)
        if self.masks == 0 and (known is None and len(self.paints) < MOST_PAINTS or known and size < known.size):
            self.paints[key] = Paint(*self.paint, box, size)

    def clip_box(self) -> Rect:
        """The rectangle around what the clips leave."""
        if self.clip is None:
            self.clip = EVERYTHING
            for clip in self.clips:
                if clip:
                    self.clip = self.clip.common(around([point for points in clip for point in points]))
        return self.clip

    def note_layers(self, box: Rect) -> None:
        """What is painted belongs to all layers around it."""
        for name in self.layers:
            self.painted.setdefault(name, []).append(box)

    def note_resolution(self, values: dict[str, str], corners: Polygon) -> None:
        """The image of the lowest resolution."""
        a, b, c, d, *_ = matrix_of(values)
        sides = (int(values["width"]), math.hypot(a, b)), (int(values["height"]), math.hypot(c, d))
        resolution = min(count * 72 / side for count, side in sides if side > 0) if a or b or c or d else 0.0
        if resolution and (self.coarsest is None or resolution < self.coarsest[0]):
            self.coarsest = resolution, around(corners)

    def add_image(self, values: dict[str, str]) -> None:
        """An image that is no line work. A pattern with an image in it is image as far as it goes."""
        if int(values.get("width", 0)) * int(values.get("height", 0)) < LEAST_SAMPLES:
            return
        corners = self.tiles[0] if self.tiles else corners_of(matrix_of(values))
        if not self.images or self.images[-1].corners != corners:
            self.order += 1
            self.note_resolution(values, corners)
            self.images.append(Image(corners, [clip for clip in self.clips if clip], self.order))
            self.note_layers(around(corners).common(self.clip_box()))


def matrix_of(values: dict[str, str]) -> Matrix:
    """The matrix of an element."""
    parts = [float(part) for part in values.get("transform", "").split()]
    return (parts[0], parts[1], parts[2], parts[3], parts[4], parts[5]) if len(parts) == 6 else IDENTITY


def scale_of(matrix: Matrix) -> float:
    """How much longer things become under a matrix, on the mean."""
    a, b, c, d, *_ = matrix
    return math.sqrt(abs(a * d - b * c))


def paint_of(values: dict[str, str]) -> tuple[str, tuple[float, ...]]:
    """The colour of an element."""
    return values.get("colorspace", ""), tuple(float(part) for part in values.get("color", "").split())


def mapped(matrix: Matrix, x: float, y: float) -> Point:
    """A point under a matrix."""
    a, b, c, d, e, f = matrix
    return a * x + c * y + e, b * x + d * y + f


def corners_of(matrix: Matrix, left: float = 0, lower: float = 0, right: float = 1, upper: float = 1) -> Polygon:
    """The corners of a rectangle under a matrix, of the square of an image if none is given."""
    return [mapped(matrix, x, y) for x, y in ((left, lower), (right, lower), (right, upper), (left, upper))]


def curve_point(points: Polygon, t: float) -> Point:
    """A point of a cubic curve."""
    parts = ((1 - t) ** 3, 3 * t * (1 - t) ** 2, 3 * t * t * (1 - t), t ** 3)
    return (sum(part * x for part, (x, _) in zip(parts, points)), sum(part * y for part, (_, y) in zip(parts, points)))


def trace_page(source: Source, page: int, seconds: int | None = None) -> Trace | None:
    """The trace of a page, or None if mutool does not reach its end, or not in time."""
    # Names of inks may be no UTF-8, and may hold any character.
    parser = etree.XMLParser(target=Trace(), recover=True, encoding="iso-8859-1", huge_tree=True)
    words = [tools.tool("mutool"), "trace", "in.pdf", str(page)]
    with tools.running(words, cwd=source.folder, stderr=subprocess.DEVNULL) as child:
        limit = threading.Timer(seconds or USUAL_SECONDS, child.terminate)
        limit.start()
        try:
            assert child.stdout is not None
            while chunk := child.stdout.read(CHUNK):
                parser.feed(chunk)
            if child.wait() != 0:
                return None
            found = parser.close()
            return found if isinstance(found, Trace) else None
        except etree.XMLSyntaxError:
            return None
        finally:
            limit.cancel()
