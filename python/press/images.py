# SPDX-License-Identifier: Apache-2.0
"""Where a page has images, as rectangles in points from the lower left corner of the page as it is drawn.

A place is an image's outline, cut by the clips that hold for it, and drawn in on all sides by a margin; images
that lie side by side are taken as one first. So edges at an image's border belong to the zone around it. Masks
of one bit are line work and no images here, and so is an image of fewer than 64 samples.
"""
from collections.abc import Sequence

from .rects import NOTHING, Polygon, Rect, around, rect_of
from .source import PageInfo
from .trace import Image

TOUCH, MOST_RECTS = 0.05, 3000
LEAST_SLICE, MOST_SLICES, MOST_CROSSINGS = 1.0, 200, 200_000
Span = tuple[float, float]
EVERYWHERE: list[Span] = [(float("-inf"), float("inf"))]


def joined(rects: Sequence[Rect]) -> list[Rect]:
    """The rectangles, those that lie side by side and have a whole side in common being one."""
    left = list(rects)
    changed = True
    while changed:
        changed = False
        for along, across in (((0, 2), (1, 3)), ((1, 3), (0, 2))):
            first, last_side, start = *along, across[0]
            order = sorted((round(one[first], 1), round(one[last_side], 1), one[start], one) for one in left)
            out: list[Rect] = []
            for *_, one in order:
                last = out[-1] if out else NOTHING
                beside = all(abs(last[side] - one[side]) <= TOUCH for side in along)
                if out and beside and one[start] <= last[across[1]] + TOUCH:
                    out[-1] = Rect(min(last.left, one.left), min(last.lower, one.lower), max(last.right, one.right),
                                   max(last.upper, one.upper))
                    changed = True
                else:
                    out.append(one)
            left = out
    return left


# Other shapes, by slices

def spans_of(shape: list[list[Polygon]], y: float) -> list[Span]:
    """The parts of a line that lie within a shape: within the image and within each clip."""
    spans = EVERYWHERE
    for path in shape:
        spans = shared(spans, path_spans(path, y))
    return spans


def path_spans(path: list[Polygon], y: float) -> list[Span]:
    """The parts of a line that lie within a path."""
    crossings = []
    for points in path:
        for (x0, y0), (x1, y1) in zip(points, points[1:] + points[:1]):
            if (y0 <= y) != (y1 <= y):
                crossings.append(x0 + (x1 - x0) * (y - y0) / (y1 - y0))
    crossings.sort()
    return list(zip(crossings[::2], crossings[1::2]))


def shared(some: list[Span], others: list[Span]) -> list[Span]:
    """What two sets of spans have in common."""
    found = [(max(a, c), min(b, d)) for a, b in some for c, d in others]
    return [(a, b) for a, b in found if a < b]


def sliced(shape: list[list[Polygon]], margin: float) -> list[Rect]:
    """Rectangles that lie within a shape with the margin around them all within it too."""
    bounds = around(shape[0][0])
    corners = sum(len(points) for path in shape for points in path)
    height = bounds.upper - bounds.lower
    slice_height = max(LEAST_SLICE, height / max(8, min(MOST_SLICES, MOST_CROSSINGS // corners)))
    step, rects, start = slice_height / 4, [], bounds.lower
    while start < bounds.upper:
        end = start + slice_height
        spans, y = EVERYWHERE, start - margin
        while spans and y <= end + margin + step:
            spans = shared(spans, spans_of(shape, min(y, end + margin)))
            y += step
        rects += [Rect(left + margin, start, right - margin, end) for left, right in spans
                  if left + margin < right - margin]
        start = end
    return rects


def extent_of(image: Image) -> tuple[Rect, bool]:
    """The rectangle around an image, as far as its clips leave it if they are rectangles; and whether the image is that
    rectangle."""
    rects = [rect_of(image.corners)] + [rect_of(clip[0]) if len(clip) == 1 else None for clip in image.clips]
    whole = around(image.corners)
    if not all(rects):
        return whole, False
    for rect in rects[1:]:
        whole = whole.common(rect or NOTHING)
    return whole, True


def places_of(images: Sequence[Image], margin: float) -> list[Rect]:
    """The places of images in the trace's own points."""
    simple, shapes = [], []
    for image in images:
        whole, is_all = extent_of(image)
        if not is_all:
            shapes.append([[image.corners], *image.clips])
        elif whole != NOTHING:
            simple.append(whole)
    places = [rect.drawn_in(margin) for rect in joined(simple)]
    for shape in shapes:
        places += sliced(shape, margin)
    return [place for place in places if place != NOTHING]


def ordered_bounds(images: Sequence[Image]) -> list[tuple[int, Rect]]:
    """The rectangles around images, as far as their clips leave them, each with its place in the order of painting."""
    found = []
    for image in images:
        whole = around(image.corners)
        for clip in image.clips:
            whole = whole.common(around([point for points in clip for point in points]))
        found.append((image.order, whole))
    return [(order, whole) for order, whole in found if whole != NOTHING]


def moved_to_page(rects: Sequence[Rect], info: PageInfo, box: str) -> list[Rect]:
    """Rectangles of the trace in points from the lower left corner of the page as it is drawn."""
    crop, drawn = info.box("crop")[0], info.box(box)[0]
    left, lower, right, upper = (a - b for a, b in zip(crop, drawn))
    moves = {0: (left, -upper), 90: (lower, left), 180: (-right, lower), 270: (-upper, -right)}
    right_move, down_move = moves[info.rotate // 90 * 90]
    width, height = info.size(box)
    found = []
    for rect in rects:
        one = Rect(rect.left + right_move * info.unit, height - rect.upper - down_move * info.unit,
                   rect.right + right_move * info.unit, height - rect.lower - down_move * info.unit)
        found.append(one.common(Rect(0, 0, width, height)))
    return [one for one in found if one != NOTHING]


def image_places(images: Sequence[Image], info: PageInfo, box: str, margin: float) -> list[Rect]:
    """Where no trap comes because of a page's images, drawn in by a margin in points, the largest place first."""
    return sorted(moved_to_page(places_of(images, margin), info, box), key=lambda one: -one.area)[:MOST_RECTS]


def image_bounds(images: Sequence[Image], info: PageInfo, box: str) -> list[Rect]:
    """The rectangles around a page's images."""
    wholes = [whole for whole, _ in map(extent_of, images)]
    return moved_to_page([whole for whole in wholes if whole != NOTHING], info, box)
