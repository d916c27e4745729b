#!/usr/bin/env python3
# SPDX-License-Identifier: Apache-2.0
"""Tries the package trapping on NumPy arrays as a program has them: arrays of rows and columns, views whose rows lie apart, planes of one
stack, arrays that cannot be written, and four threads. The poster of examples/ says what has to come out."""
import ctypes
import gzip
import os
import pickle
import sys
from concurrent.futures import ThreadPoolExecutor

import numpy

TOP = os.path.dirname(os.path.dirname(os.path.dirname(os.path.abspath(__file__))))
sys.path.insert(0, os.path.join(TOP, "python"))
import trapping  # noqa: E402

POSTER = os.path.join(TOP, "examples", "poster")
INKS = ("Cyan", "Magenta", "Yellow", "Black")


def read(path):
    with open(os.path.join(POSTER, path), "rb") as file:
        return file.read()


def tints(folder, ink):
    """A plate of the poster as tints."""
    with gzip.open(os.path.join(POSTER, folder, ink + ".pgm.gz")) as file:
        file.readline()
        width, height = map(int, file.readline().split())
        maxval = int(file.readline())
        return maxval - numpy.frombuffer(file.read(), numpy.uint8).reshape(height, width)


JOB, REPORT = read("poster.job"), read("expected/report").decode()
BEFORE, AFTER = ([tints(folder, ink) for ink in INKS] for folder in ("plates", "expected"))


def padded(plane):
    """The same samples in an array whose rows are seven samples longer."""
    whole = numpy.full((plane.shape[0], plane.shape[1] + 7), 9, plane.dtype)
    whole[:, 3:-4] = plane
    return whole


def trap_apart(dtype):
    planes = {ink: plane.astype(dtype) for ink, plane in zip(INKS, BEFORE)}
    report = trapping.trap(JOB, planes, maxval=255)
    assert report.text == REPORT and report.edges == 3662 and report.zones[1] == (60000, 4604) and report.changed["Black"] == 1464
    assert all((planes[ink] == plane).all() for ink, plane in zip(INKS, AFTER))


def trap_views():
    wholes = [padded(plane) for plane in BEFORE]
    trapping.trap(JOB, {ink: whole[:, 3:-4] for ink, whole in zip(INKS, wholes)})
    assert all((whole == padded(plane)).all() for whole, plane in zip(wholes, AFTER))


def trap_stacks():
    stack = numpy.stack(BEFORE)
    trapping.trap(JOB, dict(zip(INKS, stack)))
    assert (stack == numpy.stack(AFTER)).all()
    wide = numpy.full((4, 300, 405), 7, numpy.uint16)
    wide[:, :, :400] = BEFORE
    trapping.trap_stack(JOB, INKS, wide, maxval=255, width=400)
    assert (wide[:, :, :400] == AFTER).all() and (wide[:, :, 400:] == 7).all()


def refused():
    planes = {ink: plane.copy() for ink, plane in zip(INKS, BEFORE)}
    try:
        trapping.trap(JOB.replace(b"/TrapWidth 0.75", b"/TrapWidth 0.00"), planes)
    except trapping.Refusal as refusal:
        told = pickle.loads(pickle.dumps(refusal))
        assert (told.status, told.subject, told.kind, told.detail) == (3, "job", "OutOfRange", "TrapWidth") and told.place > 0
    else:
        raise AssertionError("a width of 0 is no width")
    assert all((planes[ink] == plane).all() for ink, plane in zip(INKS, BEFORE))
    fixed = BEFORE[0].copy()
    fixed.flags.writeable = False
    for plane in (fixed, BEFORE[0].T.copy().T, BEFORE[0].astype(numpy.int16), BEFORE[0].astype(">u2"), BEFORE[0].ravel().copy(), 7):
        try:
            trapping.trap(JOB, {"Cyan": plane})
        except (TypeError, ValueError):
            continue
        raise AssertionError("%r is no plane" % plane)


def window(**changed):
    """Traps a window of 40 by 40 samples, by itself a sheet, with some arguments changed."""
    given = {"names": INKS, "sheet": (40, 40), "at": (0, 0), "core": (0, 0, 40, 40), **changed}
    return trapping.trap_window(JOB, given.pop("names"), bytearray(4 * 40 * 40), width=40, height=40, **given)


def raises(error, call):
    try:
        call()
    except error:
        return
    raise AssertionError("no %s" % error.__name__)


def raised(call):
    """The error of a call over an open job."""
    try:
        call()
    except trapping.TrapError as error:
        return error
    raise AssertionError("no error")


def wrong_arguments():
    assert window().edges == 0
    for changed in ({"core": (0, 0, 40)}, {"core": ()}, {"sheet": (40, 40, 0, 0), "at": ()}, {"core": (0, 0, 0, 40)},
                    {"core": (0, 0, 40, 0)}, {"core": (0, 0, 40, 40, 1)}, {"at": (0, -1)}, {"names": ["Cyan", "Magenta\nYellow"]}):
        raises(ValueError, lambda given=changed: window(**given))
    raises(TypeError, lambda: window(names="Cyan"))
    for changed in ({"step": 0}, {"core": (0, 0, 41, 40)}):
        raises(trapping.Refusal, lambda given=changed: window(**given))
    for job in (5, None, 1 << 40):
        raises(TypeError, lambda given=job: trapping.halo(given))


def trap_ctypes():
    for kind in (ctypes.c_uint8, ctypes.c_uint16):
        planes = {ink: (kind * plane.size)(*plane.ravel().tolist()) for ink, plane in zip(INKS, BEFORE)}
        trapping.trap(JOB, planes, maxval=255, width=BEFORE[0].shape[1], height=BEFORE[0].shape[0])
        assert all(list(planes[ink]) == plane.ravel().tolist() for ink, plane in zip(INKS, AFTER))


def open_jobs():
    """A job that is opened traps as its bytes do, also from four threads in turn, and once it is shared from both at once; once it is
    closed it does nothing."""
    def trapped(k):
        stack = numpy.stack(BEFORE)
        report = (other if k % 2 else opened).trap_window(INKS, stack, sheet=(400, 300), core=(0, 0, 400, 300), maxval=255)
        assert report.edges == 3662 and report.zones[1] == (60000, 4604) and report.changed["Black"] == 1464
        return report.text == REPORT and (stack == numpy.stack(AFTER)).all()

    with trapping.OpenJob(JOB) as opened, opened.share() as other, ThreadPoolExecutor(4) as pool:
        assert opened.halo() == trapping.halo(JOB) and opened.info() == other.info()
        assert opened.info() == (300, opened.halo(), 1, opened.info().reach, 3, 4) and opened.info().reach <= 2 * opened.halo()
        assert all(pool.map(trapped, range(8)))
    opened.close()
    raises(trapping.Refusal, opened.halo)
    for call in (lambda: trapped(0), opened.info, opened.share):
        assert raised(call).code == trapping.Kind.HANDLE
    error = raised(lambda: trapping.OpenJob(JOB.replace(b"/TrapWidth 0.75", b"/TrapWidth 0.00")))
    for told in (error, pickle.loads(pickle.dumps(error))):
        assert (told.code, told.kind, told.parameter) == (trapping.Kind.OUT_OF_RANGE, "OutOfRange", "TrapWidth")
        assert (told.status, told.plate, told.zone, f"job: OutOfRange TrapWidth at {told.place}") == (3, None, None, told.line)
    error = raised(lambda: trapping.OpenJob(JOB).trap_window(["Cyan", "Rust"], bytearray(8), sheet=(4, 1), core=(0, 0, 4, 1), width=4, height=1))
    assert (error.code, error.plate, error.place) == (trapping.Kind.NO_DETAILS, 1, None)
    raises(TypeError, lambda: trapping.OpenJob(5))


def shared_memory():
    one = numpy.zeros((40, 80), numpy.uint8)
    for cyan, magenta in ((one, one), (one[:20], one[10:30]), (one[:, :40], one[:, 39:79])):
        raises(ValueError, lambda first=cyan, second=magenta: trapping.trap(JOB, {"Cyan": first, "Magenta": second}))
    assert trapping.trap(JOB, {"Cyan": one[:, :40], "Magenta": one[:, 40:]}).edges == 0
    assert trapping.trap(JOB, {"Cyan": one[:20][::-1], "Magenta": one[20:]}).edges == 0


def threads():
    with ThreadPoolExecutor(4) as pool:
        list(pool.map(trap_apart, [numpy.uint8, numpy.uint16] * 4))


for tried in (lambda: trap_apart(numpy.uint8), lambda: trap_apart(numpy.uint16), trap_views, trap_stacks, trap_ctypes, refused, wrong_arguments, shared_memory,
              threads, open_jobs):
    tried()
print("library: NumPy arrays, views, stacks, refusals, wrong arguments, four threads and open jobs, as they have to be")
