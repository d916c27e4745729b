# SPDX-License-Identifier: Apache-2.0
"""The report of a page that was trapped."""
import re
from typing import Dict, List, NamedTuple, Sequence

from ._library import Counts


class Zone(NamedTuple):
    """A zone of the page: how many samples lie in it, and how many of them changed."""

    samples: int
    changed: int


class Report:
    """What was changed.

    text     the report as the program trap writes it, line by line
    zones    a Zone for what no zone of the job covers, and then one for each zone of the job
    edges    how many edges call for a trap
    changed  by the plane's name how many of its samples changed
    """

    text: str
    zones: List[Zone]
    edges: int
    changed: Dict[str, int]

    def __init__(self, text: str) -> None:
        self.text = text
        self.zones = [Zone(int(samples), int(changed))
                      for samples, changed in re.findall(r"^zone \d+ samples (\d+) changed (\d+)$", text, re.M)]
        edges = re.search(r"^edges (\d+)$", text, re.M)
        if edges is None:
            raise ValueError("no report: %r" % text)
        self.edges = int(edges[1])
        self.changed = {name: int(count) for name, count in re.findall(r"^plate (\S+) changed (\d+)$", text, re.M)}

    @classmethod
    def of(cls, text: str, counts: Counts, names: Sequence[str]) -> "Report":
        """The report of these counts: of a call that gives them beside the text."""
        report = cls.__new__(cls)
        report.text, report.edges = text, counts.edges
        report.zones = list(map(Zone, counts.zone_samples[:counts.zones], counts.zone_changed[:counts.zones]))
        report.changed = dict(zip(names, counts.plane_changed[:counts.planes]))
        return report

    def __str__(self) -> str:
        return self.text

    def __repr__(self) -> str:
        return "<Report: %d edges, %s>" % (self.edges, ", ".join("%s %d" % pair for pair in self.changed.items()))
