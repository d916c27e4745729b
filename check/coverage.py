# SPDX-License-Identifier: Apache-2.0
"""What the cases met: which status and line each program gave, and what the pages were like."""
import re
import sys
from collections import Counter

import programs
import slow.rule
from slow.entries import KINDS, S
from slow.rule import distance_squared, samples_of, sides

FEATURES = [
    "maxval 1", "maxval of one byte", "maxval 255", "maxval 256", "maxval of two bytes", "maxval 65535", "one plate",
    "sixteen plates", *("ink " + kind for kind in KINDS), "no zone made",
    "zone of no path", "zone 0 has samples beside others", "zones that overlap", "disabled zone with samples",
    "winding number of 2 or more", "winding number below 0", "sample inside a path with winding number 0",
    "border through a sample's centre", "edge between zones decides", "one zone's limits make apart, the other's not",
    "no edge decides", "more than 100 edges decide", "edge is slid", "slid at the limit", "edge is not slid",
    "edge is black", "black at its density limit", "black at its colour limit", "black and slid", "both sides black",
    "step at the limit", "limit of one colorant", "limit of one colorant matters",
    "nearest edges tie, left and right", "nearest edges tie, above and below", "reach 0", "reach above 20",
    "within at distance 1", "within beyond distance 1", "within on a slant", "trapped", "trapped at a slid edge",
    "trapped at a black edge", "wider at black", "narrower at black", "not within", "within, lighter side",
    "within, shut", "within, not apart by its own tints", "within, disabled zone", "tints scaled down", "tint falls",
    "Opaque ink kept on a trapped sample", "several bands", "several bands and workers", "reach beyond the next band"]


def of_line(line):
    """A told line without its numbers."""
    if line.startswith("usage:"):
        return "usage"
    return re.sub(r"\b[0-9]+\b", "#", line)


def lines_of(one, wanted):
    """The lines by which a run counts."""
    if one.mute:
        return ["untold"]
    if wanted.status == 1:
        return ["status 1"]
    told = wanted.told.decode("utf-8", "replace").splitlines()
    if told[:1] == ["trap report"]:
        return ["report"]
    if told[:1] == ["press check"]:
        return ["result"]
    return sorted({of_line(line) for line in told}) or [""]


def workers_and_band(one):
    """How many workers a case asks for, and how many rows a band has; one worker and one band where it can't ask."""
    words = " ".join(one.words)
    if one.program == "traprun":
        found = re.match("([0-9]+) ([0-9]+) ", words)
        return tuple(map(int, found.groups())) if found else (1, sys.maxsize)
    if one.program != "trap":
        return 1, sys.maxsize
    options = ((re.search("--%s[= ]([0-9]+)" % name, words), usual) for name, usual in (("workers", 4), ("band", 64)))
    return tuple(int(found.group(1)) if found else usual for found, usual in options)


class Watch:
    """Notes what the pages of one case were like."""

    def __init__(self, one):
        self.met = Counter()
        self.workers, self.band = workers_and_band(one)

    def note(self, name, holds=True):
        if holds:
            self.met["page", name] = 1

    def rule(self, rule):
        page = rule.page
        self.page(page)
        self.zones(rule)
        for edge in rule.deciding:
            self.edge(rule, edge)
        for sample in page.samples():
            self.sample(rule, sample)
        self.note("no edge decides", not rule.deciding)
        self.note("more than 100 edges decide", len(rule.deciding) > 100)

    def page(self, page):
        self.note("maxval 1", page.maxval == 1)
        self.note("maxval of one byte", page.maxval < 256)
        self.note("maxval of two bytes", page.maxval >= 256)
        for maxval in (255, 256, 65535):
            self.note("maxval %d" % maxval, page.maxval == maxval)
        self.note("one plate", len(page.planes) == 1)
        self.note("sixteen plates", len(page.planes) == 16)
        for plate in page.plates:
            self.note("ink " + page.inks[plate].kind, any(page.planes[plate]))
        self.note("no zone made", len(page.zones) == 1)
        self.note("zone of no path", any(not zone.path for zone in page.zones[1:]))
        self.note("limit of one colorant", any(name in zone.limits for zone in page.zones for name in page.names))
        self.note("reach 0", page.reach() == 0)
        self.note("reach above 20", page.reach() > 20)
        self.note("several bands", page.height > self.band)
        self.note("several bands and workers", page.height > self.band and self.workers > 1)
        self.note("reach beyond the next band", page.height > 2 * self.band and page.reach() > 2 * self.band)

    def zones(self, rule):
        zones, seen = rule.page.zones, set()
        for sample in rule.page.samples():
            windings = [rule.winding(zone.path, sample) for zone in zones[1:]]
            seen.add(rule.zone(sample))
            self.note("zones that overlap", sum(winding != 0 for winding in windings) > 1)
            self.note("winding number of 2 or more", any(abs(winding) > 1 for winding in windings))
            self.note("winding number below 0", any(winding < 0 for winding in windings))
            for zone, winding in zip(zones[1:], windings):
                parts = [rule.winding([subpath], sample) for subpath in zone.path]
                self.note("sample inside a path with winding number 0", winding == 0 and any(parts))
            self.note("border through a sample's centre", on_border(rule, sample))
        self.note("zone 0 has samples beside others", 0 in seen and len(seen) > 1)
        disabled = [number for number in seen if not zones[number].params["Enabled"]]
        self.note("disabled zone with samples", any(disabled))

    def edge(self, rule, edge):
        page, pair = rule.page, samples_of(edge)
        zones = {rule.zone(sample) for sample in pair}
        self.note("edge between zones decides", len(zones) > 1)
        for zone in zones:
            for plate in rule.counting:
                step = abs(page.tint(plate, pair[0]) - page.tint(plate, pair[1]))
                self.note("step at the limit", step > 0 and step * S == rule.limit(zone, plate) * page.maxval)

    def sample(self, rule, sample):
        page = rule.page
        for other in ((sample[0] + 1, sample[1]), (sample[0], sample[1] + 1)):
            if other[0] < page.width and other[1] < page.height:
                self.neighbours(rule, sample, other)
        edge = rule.decider(sample)
        if edge is None:
            return
        near = distance_squared(sample, edge)
        ties = [one for one in rule.deciding if one != edge and distance_squared(sample, one) == near]
        self.note("nearest edges tie, left and right", any(x != edge[0] for x, _ in ties))
        self.note("nearest edges tie, above and below", any(x == edge[0] for x, _ in ties))
        self.answer(rule, sample, edge, near)

    def neighbours(self, rule, sample, other):
        """Whether limits make a difference at two neighbours."""
        zones = {rule.zone(sample), rule.zone(other)}
        answers = {rule.apart(zone, sample, other) for zone in zones}
        self.note("one zone's limits make apart, the other's not", len(answers) > 1)
        for zone in zones:
            asked = rule.page.zones[zone]
            if asked.limits:
                with_limits = rule.apart(zone, sample, other)
                # For a moment each colorant has the zone's own limit.
                rule.limit = lambda number, plate: asked.params["StepLimit"]
                self.note("limit of one colorant matters", rule.apart(zone, sample, other) != with_limits)
                del rule.limit

    def answer(self, rule, sample, edge, near):
        """What became of a sample that has a decider."""
        page, params = rule.page, rule.params(sample)
        own, across = sides(sample, edge)
        slid = rule.slid(params["SlidingTrapLimit"], edge)
        black = rule.is_black(params["BlackDensityLimit"], params["BlackColorLimit"], edge)
        low, high = sorted(map(rule.density, samples_of(edge)))
        self.note("edge is slid" if slid else "edge is not slid")
        self.note("slid at the limit", low * S == params["SlidingTrapLimit"] * high)
        self.note("edge is black", black)
        self.note("black and slid", black and slid)
        self.note("both sides black", black and low == high)
        self.limits_of_black(rule, params, edge, black)
        if not params["Enabled"]:
            params = dict(params, Enabled=True)
            self.note("within, disabled zone", rule.within(sample, edge))
            return
        if not rule.within(sample, edge):
            self.note("not within")
            return
        self.note("within at distance 1" if near == 1 else "within beyond distance 1")
        self.note("within on a slant", edge[0] != 2 * sample[0] and edge[1] != 2 * sample[1])
        self.note("within, shut", rule.is_shut(sample))
        self.note("within, lighter side", not slid and rule.density(across) >= rule.density(own))
        self.note("within, not apart by its own tints", not rule.apart(rule.zone(sample), sample, across))
        if rule.is_trapped(sample, edge):
            self.trapped(rule, sample, edge, (slid, black))

    def limits_of_black(self, rule, params, edge, black):
        for sample in samples_of(edge):
            for plate in rule.counting if black else ():
                tint = rule.page.tint(plate, sample)
                self.note("black at its density limit", rule.page.inks[plate].density == params["BlackDensityLimit"])
                self.note("black at its colour limit",
                          tint > 0 and tint * S == params["BlackColorLimit"] * rule.page.maxval)

    def trapped(self, rule, sample, edge, how):
        page, params = rule.page, rule.params(sample)
        slid, black = how
        self.note("trapped")
        self.note("trapped at a slid edge", slid)
        self.note("trapped at a black edge", black)
        self.note("wider at black", black and params["BlackWidth"] > S)
        self.note("narrower at black", black and params["BlackWidth"] < S)
        new = rule.new_tints(sample, edge)
        old = [page.tint(plate, sample) for plate in page.plates]
        self.note("tints scaled down", params["TrapColorScaling"] < S)
        self.note("tint falls", any(after < before for before, after in zip(old, new)))
        self.note("Opaque ink kept on a trapped sample",
                  any(page.inks[plate].kind == "Opaque" and tint > 0 for plate, tint in enumerate(old)))


def on_border(rule, sample):
    """Whether a vertical side of a path runs through the sample's centre."""
    page = rule.page
    x, y = (2 * sample[0] + 1) * 36 * S, (2 * (page.height - sample[1]) - 1) * 36 * S
    for zone in page.zones[1:]:
        for subpath in zone.path:
            for (a, b), (c, d) in zip(subpath, subpath[1:] + subpath[:1]):
                a, b, c, d = (place * page.resolution for place in (a, b, c, d))
                on_line = (c - a) * (y - b) == (x - a) * (d - b)
                if on_line and min(a, c) <= x <= max(a, c) and min(b, d) <= y <= max(b, d):
                    return True
    return False


watch = None


def start():
    """From now on the pages of the cases are looked at, which takes longer than to trap them."""
    slow.rule.watchers.append(look)


def look(rule):
    if watch is not None:
        watch.rule(rule)


def begin(one):
    global watch
    watch = Watch(one)


def end(one, wanted):
    """What one case met."""
    met = watch.met
    for line in lines_of(one, wanted):
        met[one.program, line] += 1
    return met


def tell(met, names):
    """The table of what was met, and what was not."""
    missing = []
    for name in [*names, "page"]:
        expected = FEATURES if name == "page" else programs.of(name, "LINES")
        others = sorted({line for program, line in met if program == name} - set(expected))
        print("%s:" % ("what the pages were like, in how many cases" if name == "page" else name))
        for line in [*expected, *others]:
            count = met[name, line]
            print("%8d  %s" % (count, line or "done, nothing told"))
            if not count:
                missing.append("%s: %s" % (name, line))
    print("never met: " + ("; ".join(missing) or "nothing"))
