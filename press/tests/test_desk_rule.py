# SPDX-License-Identifier: Apache-2.0
"""The job reader and the trap editor's answers, compared with the reference implementation on random jobs and pages."""
import random
import sys
from pathlib import Path

import pytest

np = pytest.importorskip("numpy")
CHECK = str(Path(__file__).resolve().parents[2] / "check")
if CHECK not in sys.path:
    sys.path.insert(1, CHECK)

from maker import jobs, pictures, plates  # noqa: E402
from press import job_language  # noqa: E402
from press.desk import why  # noqa: E402
from slow import pages, rule  # noqa: E402
from slow.entries import Ink, S  # noqa: E402
from slow.jobs import job_of  # noqa: E402
from slow.refusals import JobFault  # noqa: E402

pytestmark = [pytest.mark.plain, pytest.mark.quick]


def random_job(seed: int):
    """A random picture, a job for it, and what the reference implementation reads; None if it has a fault."""
    rng = random.Random(seed)
    picture = pictures.picture(rng)
    text = jobs.job(rng, picture)
    try:
        return rng, picture, text, job_of(text)
    except JobFault:
        return rng, picture, text, None


@pytest.mark.slow
def test_valid_jobs_are_read_as_the_reference_implementation_reads_them():
    """Resolution, inks, zones, parameters, paths and step limits of 500 random jobs."""
    valid = 0
    for seed in range(500):
        _, _, text, wanted = random_job(seed)
        if wanted is None:
            continue
        valid += 1
        found = job_language.read_job(text)
        assert found.resolution == wanted.resolution
        assert {name: (ink.density, ink.kind) for name, ink in found.inks.items()} == wanted.details
        assert len(found.zones) == len(wanted.zones)
        for zone, other in zip(found.zones, wanted.zones):
            assert {key: getattr(zone.parameters, name) for key, name in job_language.KEYS.items()} == other.params
            assert [list(subpath) for subpath in zone.subpaths] == other.path
            assert {name: limit for name, limit in zone.step_limits.items() if len(name) <= 64} == other.limits
    assert valid > 200


def test_answers_are_those_of_the_reference_implementation():
    """Zone, new tints, and the deciding edge, of random pixels of random pages."""
    checked = trapped = 0
    for seed in range(60):
        rng, picture, text, wanted = random_job(seed)
        if wanted is None or any(name not in wanted.details for name in picture.names):
            continue
        planes = [np.array(plates.samples(picture, k)).ravel().tolist() for k in range(len(picture.names))]
        inks = [wanted.details.get(name, Ink(S, "Normal")) for name in picture.names]
        page = pages.Page(picture.width, picture.height, picture.maxval, wanted.resolution, planes, picture.names, inks,
                          wanted.zones)
        if page.reach() > pages.WIDEST_REACH:
            continue
        full, job = rule.rule_of(page), job_language.read_job(text)
        whole = np.array(planes).reshape(len(planes), picture.height, picture.width)
        for _ in range(5):
            x, y = rng.randrange(picture.width), rng.randrange(picture.height)
            answer = answer_on(whole, picture, job, (x, y))
            edge = full.decider((x, y))
            assert answer.zone == full.zone((x, y))
            assert list(answer.after) == full.new_tints((x, y), edge)
            assert answer.reason.startswith("trapped") == bool(edge and full.is_trapped((x, y), edge))
            assert answer.edge is None or answer.edge.pixels == rule.samples_of(edge)
            checked, trapped = checked + 1, trapped + answer.reason.startswith("trapped")
    assert checked > 100 and trapped > 10


def answer_on(whole, picture, job, pixel):
    """The answer by the smallest window that decides about a pixel."""
    (x, y), radius = pixel, why.window_radius(job)
    left, top = max(0, x - radius), max(0, y - radius)
    part = whole[:, top:y + radius + 1, left:x + radius + 1]
    window = why.Window(part, picture.maxval, picture.names, job, why.Place(left, top, picture.height))
    return why.explain(window, (x - left, y - top))


def test_a_statement_is_found_where_it_stands():
    """Offsets of statements, operands included; comments belong to none."""
    text = b"%!PS\n<< /HWResolution [72 72] >> setpagedevice % a comment\n1 2 moveto settrapzone showpage"
    found = [(one.operator, text[one.start:one.end]) for one in job_language.parse(text).statements]
    assert found == [("setpagedevice", b"<< /HWResolution [72 72] >> setpagedevice"), ("moveto", b"1 2 moveto"),
                     ("settrapzone", b"settrapzone"), ("showpage", b"showpage")]


@pytest.mark.parametrize("text, offset", [(b"<< /TrapWidth >> settrapparams", 14), (b"1 moveto", 2), (b"1 2 lineto", 4),
                                          (b"{", 0), (b"fly", 0), (b"]", 0), (b"(a", 0)])
def test_a_fault_has_its_offset(text, offset):
    """What is no job is refused at the byte where reading stopped."""
    with pytest.raises(job_language.JobSyntaxError) as fault:
        job_language.read_job(text)
    assert fault.value.offset == offset
