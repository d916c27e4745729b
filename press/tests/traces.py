# SPDX-License-Identifier: Apache-2.0
"""Traces for the tests, as MuPDF's trace of a page would make them."""
from press.trace import Trace


def trace_of(*elements: tuple[str, dict[str, str]]) -> Trace:
    """The trace of these elements; a name with a slash ends one."""
    trace = Trace()
    for tag, values in elements:
        if tag.startswith("/"):
            trace.end(tag[1:])
        else:
            trace.start(tag, values)
    return trace
