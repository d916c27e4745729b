# SPDX-License-Identifier: Apache-2.0
"""The report of a trapped page."""


def report(rule, new):
    """Its lines: the page, the samples of each zone and how many changed, the edges, and the changes of each plate."""
    page = rule.page
    place = {sample: number for number, sample in enumerate(page.samples())}
    changed = [[new[plate][number] != page.planes[plate][number] for number in place.values()] for plate in page.plates]
    lines = ["trap report",
             "page %d %d %d plates %d" % (page.width, page.height, page.maxval, len(page.plates))]
    for zone in range(len(page.zones)):
        samples = [number for sample, number in place.items() if rule.zone(sample) == zone]
        moved = sum(any(plate[number] for plate in changed) for number in samples)
        lines.append("zone %d samples %d changed %d" % (zone, len(samples), moved))
    lines.append("edges %d" % len(rule.deciding))
    for plate in page.plates:
        lines.append("plate %s changed %d" % (page.names[plate], sum(changed[plate])))
    lines.append("end")
    return "".join(line + "\n" for line in lines)
