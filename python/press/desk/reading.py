# SPDX-License-Identifier: Apache-2.0
"""Jobs as they were read last. One change in the editor asks for the same few texts many times."""
from __future__ import annotations

from functools import lru_cache

from press import job_language
from press.job_language import Job, JobZone, Parameters, Parsed, Statement

MOST_TEXTS = 8
"""So many texts are remembered: a large job takes some megabytes."""


@lru_cache(MOST_TEXTS)
def parse(text: bytes) -> Parsed:
    """A valid job, and how it is written."""
    return job_language.parse(text)


def read_job(text: bytes) -> Job:
    """What a valid job says."""
    return parse(text).job


def statements(text: bytes) -> tuple[Statement, ...]:
    """The statements of a valid job, in their order."""
    return parse(text).statements


def zones_before(text: bytes, offset: int) -> tuple[tuple[JobZone, ...], JobZone]:
    """The zones that the statements before an offset make, and what is in force there."""
    return parse(text).before(offset)


def in_force(text: bytes, offset: int) -> Parameters:
    """The parameters in force after the statements before an offset."""
    return zones_before(text, offset)[1].parameters
