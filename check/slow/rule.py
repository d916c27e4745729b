# SPDX-License-Identifier: Apache-2.0
"""The trapping rule, for a whole page at once: each definition as it is written.

Samples are (x, y) with row 0 at the top. Edges are points (X, Y) of the doubled grid, in which sample (x, y) stands at
(2x, 2y); exactly one coordinate of an edge is odd. Distances are in half-samples.
"""
from functools import lru_cache

from .entries import KINDS, S


class Rule:
    """The rule on one page. What has been found once is kept, since the page does not change."""

    def __init__(self, page):
        self.page = page
        for name in ("zone", "density", "is_shut", "slid", "is_black", "new_planes"):
            setattr(self, name, lru_cache(maxsize=None)(getattr(self, name)))
        kinds = [KINDS[ink.kind] for ink in page.inks]
        self.counting = [plate for plate in page.plates if kinds[plate].counts]
        self.closing = [plate for plate in page.plates if kinds[plate].shuts]
        self.spreading = [kind.spreads for kind in kinds]
        self.deciding = [edge for edge in self.edges() if self.decides(edge)]

    # Zones

    def zone(self, sample):
        """The greatest number above 0 of a zone whose path winds round the sample's centre, else 0."""
        covering = [number for number, zone in enumerate(self.page.zones)
                    if number > 0 and self.winding(zone.path, sample) != 0]
        return max(covering, default=0)

    def winding(self, path, sample):
        """The winding number of a path about the sample's centre: a sum over the segments of all its subpaths."""
        x, y = sample
        centre_x, centre_y = (2 * x + 1) * 36 * S, (2 * (self.page.height - y) - 1) * 36 * S
        resolution, total = self.page.resolution, 0
        for subpath in path:
            # Each subpath is closed: after the last vertex stands the first.
            for (a, b), (c, d) in zip(subpath, subpath[1:] + subpath[:1]):
                x0, y0, x1, y1 = a * resolution, b * resolution, c * resolution, d * resolution
                side = (x1 - x0) * (centre_y - y0) - (centre_x - x0) * (y1 - y0)
                if y0 <= centre_y < y1 and side > 0:
                    total += 1
                if y1 <= centre_y < y0 and side < 0:
                    total -= 1
        return total

    def params(self, sample):
        """The parameters of the sample's zone."""
        return self.page.zones[self.zone(sample)].params

    # Densities

    def is_shut(self, sample):
        """Whether an ink that shuts stands on the sample."""
        return any(self.page.tint(plate, sample) > 0 for plate in self.closing)

    def density(self, sample):
        return self.density_of([self.page.tint(plate, sample) for plate in self.page.plates])

    def density_of(self, tints):
        """The sum of density times tint over the inks that count."""
        return sum(self.page.inks[plate].density * tints[plate] for plate in self.counting)

    # Apart

    def limit(self, zone, plate):
        """The step that a zone asks of a colorant."""
        asked = self.page.zones[zone]
        return asked.limits.get(self.page.names[plate], asked.params["StepLimit"])

    def falls(self, zone, sample, other):
        """Whether some counting colorant has less ink on `other` than on `sample`, by the step that the zone asks."""
        for plate in self.counting:
            step = self.page.tint(plate, sample) - self.page.tint(plate, other)
            if step > 0 and step * S >= self.limit(zone, plate) * self.page.maxval:
                return True
        return False

    def apart(self, zone, sample, other):
        """One colorant ends between the two samples and one begins."""
        return self.falls(zone, sample, other) and self.falls(zone, other, sample)

    # Edges

    def edges(self):
        """All edges of the page."""
        width, height = self.page.width, self.page.height
        return [(x2, y2) for x2 in range(2 * width - 1) for y2 in range(2 * height - 1) if x2 % 2 + y2 % 2 == 1]

    def decides(self, edge):
        """Neither sample is shut, both zones are enabled, and the samples are apart for each one's zone."""
        pair = samples_of(edge)
        return (not any(self.is_shut(sample) for sample in pair)
                and all(self.params(sample)["Enabled"] for sample in pair)
                and all(self.apart(self.zone(sample), *pair) for sample in pair))

    def decider(self, sample):
        """The nearest deciding edge of the whole page; of equally near ones the leftmost, and then the uppermost."""
        x2, y2 = 2 * sample[0], 2 * sample[1]
        nearest = min((((x - x2) ** 2 + (y - y2) ** 2, x, y) for x, y in self.deciding), default=None)
        return nearest and nearest[1:]

    # Traps

    def slid(self, limit, edge):
        """Whether the densities of both sides are as near as the limit asks."""
        low, high = sorted(self.density(sample) for sample in samples_of(edge))
        return low * S >= limit * high

    def is_black(self, density_limit, color_limit, edge):
        """Whether a side of the greater density has a colorant that counts as black."""
        high = max(self.density(sample) for sample in samples_of(edge))
        return any(self.page.inks[plate].density >= density_limit and self.page.tint(plate, sample) > 0
                   and self.page.tint(plate, sample) * S >= color_limit * self.page.maxval
                   for sample in samples_of(edge) if self.density(sample) == high for plate in self.counting)

    def within(self, sample, edge):
        """Whether the edge is near enough: within the trap width, times the black width at black, half where slid."""
        params = self.params(sample)
        black = self.is_black(params["BlackDensityLimit"], params["BlackColorLimit"], edge)
        factor = params["BlackWidth"] if black else S
        halves = 2 if self.slid(params["SlidingTrapLimit"], edge) else 1
        width = params["TrapWidth"] * factor * self.page.resolution
        return distance_squared(sample, edge) * (36 * S * S * halves) ** 2 <= width ** 2

    def is_trapped(self, sample, edge):
        """Whether a sample is trapped at the edge that it answers to."""
        params = self.params(sample)
        own, across = sides(sample, edge)
        return (not self.is_shut(sample) and params["Enabled"] and self.within(sample, edge)
                and self.apart(self.zone(sample), sample, across)
                and (self.slid(params["SlidingTrapLimit"], edge) or self.density(across) < self.density(own)))

    def new_tints(self, sample, edge):
        """The tints of a sample that answers to this edge, or to none."""
        old = [self.page.tint(plate, sample) for plate in self.page.plates]
        if edge is None or not self.is_trapped(sample, edge):
            return old
        across = sides(sample, edge)[1]
        full = [max(tint, self.page.tint(plate, across)) if self.spreading[plate] else tint for plate, tint in enumerate(old)]
        before, after = self.density(sample), self.density_of(full)
        share = before * S + self.params(sample)["TrapColorScaling"] * (after - before)
        return [full[plate] * share // (after * S) if self.spreading[plate] else tint for plate, tint in enumerate(old)]

    def new_planes(self):
        """The tints of all plates after trapping, row after row."""
        samples = [self.new_tints(sample, self.decider(sample)) for sample in self.page.samples()]
        return [[tints[plate] for tints in samples] for plate in self.page.plates]


class NearRule(Rule):
    """The same rule with another search, for larger pages: the edges are sought row by row within the page's reach.

    What is farther than the page's reach, along either axis, is within of no sample. So where the decider is within, it
    is the nearest edge found here, and where it is not, none found here is.
    """

    def __init__(self, page):
        super().__init__(page)
        self.rows = {}
        for x, y in self.deciding:
            self.rows.setdefault(y, []).append(x)
        self.farthest = page.reach()

    def decider(self, sample):
        x2, y2 = 2 * sample[0], 2 * sample[1]
        near = [((x - x2) ** 2 + (y - y2) ** 2, x, y)
                for y in range(y2 - self.farthest, y2 + self.farthest + 1)
                for x in self.rows.get(y, ()) if abs(x - x2) <= self.farthest]
        nearest = min(near, default=None)
        return nearest and nearest[1:]


def samples_of(edge):
    """The two samples that an edge separates: the left one and the right one, or the upper one and the lower one."""
    x2, y2 = edge
    return (x2 // 2, y2 // 2), ((x2 + 1) // 2, (y2 + 1) // 2)


def distance_squared(sample, edge):
    return (edge[0] - 2 * sample[0]) ** 2 + (edge[1] - 2 * sample[1]) ** 2


def sides(sample, edge):
    """The edge's sample on the side of a sample along the edge's odd coordinate, and the one across."""
    first, second = samples_of(edge)
    odd = 0 if edge[0] % 2 == 1 else 1
    return (first, second) if 2 * sample[odd] < edge[odd] else (second, first)


# A page of more samples is large.
large_page = 2500

# What a check calls with the rule of each page that is not large, to look at it.
watchers = []


def rule_of(page):
    """The literal rule, or for a large page the one with the other search."""
    if page.width * page.height > large_page:
        return NearRule(page)
    rule = Rule(page)
    for watch in watchers:
        watch(rule)
    return rule


def compare_searches(rule):
    """A watcher: the two searches for the nearest edge give the same traps."""
    if NearRule(rule.page).new_planes() != rule.new_planes():
        raise AssertionError("the two searches for the nearest edge differ")
