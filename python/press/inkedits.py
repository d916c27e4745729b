# SPDX-License-Identifier: Apache-2.0
"""Plates that are merged, turned into process inks, dropped or renamed, once a page is rendered and before anything
else is done with it."""
from __future__ import annotations

import os
import re
from collections.abc import Callable, Iterable, Sequence
from dataclasses import dataclass, field, replace

import numpy

from .errors import PressError, Status
from .inks import Separation, folded, ink_called
from .names import PROCESS, job_names, readable
from .plates import BLOCK_BYTES, Array, Plates
from .render import Rendering

# The papers and guides that a swatch book prints behind one number: coated, uncoated, matt, and older books.
SUFFIXES = ("c", "u", "m", "cv", "cvc", "cvu", "cvp", "cp", "up", "ec", "pc", "k", "n", "e", "z")
BOOKS = ("pantone", "pms", "hks", "toyo", "dic")


@dataclass(frozen=True)
class InkEdits:
    """What is done with the plates of inks, by their names in the PDF or in the job."""

    merge: dict[bytes, bytes] = field(default_factory=dict)
    rename: dict[bytes, bytes] = field(default_factory=dict)
    to_process: frozenset[bytes] = frozenset()
    drop: frozenset[bytes] = frozenset()
    merge_suffixes: bool = False

    @property
    def inks(self) -> set[bytes]:
        """The inks whose plates are edited."""
        return {*self.merge, *self.rename, *self.to_process, *self.drop}

    def __bool__(self) -> bool:
        return bool(self.merge or self.rename or self.to_process or self.drop or self.merge_suffixes)


def without_suffix(name: bytes) -> str:
    """The name of a swatch without the letters for the paper: PANTONE 485 C and PANTONE 485 CVC are one ink."""
    words = folded(name).split()
    if len(words) > 2 and words[0] in BOOKS and words[-1] in SUFFIXES:
        words = words[:-1]
    # 485C in one word.
    if len(words) > 1 and words[0] in BOOKS:
        words[-1] = re.sub(rf"^(\d+)({'|'.join(SUFFIXES)})$", r"\1", words[-1])
    return " ".join(words)


def same_swatches(colorants: Sequence[bytes]) -> dict[bytes, bytes]:
    """Of each swatch that comes again under other letters the one that is kept: the first."""
    kept: dict[str, bytes] = {}
    found = {}
    for colorant in colorants:
        name = without_suffix(colorant)
        if name in kept:
            found[colorant] = kept[name]
        else:
            kept[name] = colorant
    return found


class Editor:
    """Edits the plates of one page. New planes are written into files of a scratch folder, and mapped."""

    def __init__(self, rendering: Rendering, folder: str, place: str) -> None:
        self.rendering, self.folder, self.place = rendering, folder, place
        self.separations = list(rendering.separations)
        self.arrays: list[Array] = list(rendering.plates.arrays)
        self.maxval = rendering.plates.maxval
        self.written = 0

    def at(self, name: bytes, option: str) -> int | None:
        """Which plate an ink has; None if the page does not have the ink."""
        number = ink_called(name, [(one.colorant, one.name.encode()) for one in self.separations])
        if number is not None and number < len(PROCESS) and option != "kept":
            raise PressError(Status.USAGE, f"{option}: {readable(name)} is a process ink", self.place)
        return number

    def edited(self, edits: InkEdits) -> Rendering:
        """The rendering with all edits."""
        merges = dict(edits.merge)
        if edits.merge_suffixes:
            spots = [one.colorant for one in self.separations[len(PROCESS):]]
            merges = {**same_swatches(spots), **merges}
        for old, kept in merges.items():
            self.merge(old, kept)
        for name in sorted(edits.to_process):
            self.to_process(name)
        for name in sorted(edits.drop):
            self.remove(self.at(name, "--drop"))
        for old, new in edits.rename.items():
            self.rename(old, new)
        names = job_names([one.colorant for one in self.separations])
        separations = tuple(replace(one, name=name) for one, name in zip(self.separations, names))
        plates = Plates(tuple(names), tuple(self.arrays), self.maxval, self.rendering.plates.resolution)
        return replace(self.rendering, separations=separations, plates=plates)

    def merge(self, old: bytes, kept: bytes) -> None:
        """Prints one ink with the plate of another: where both print, their tints are added."""
        one, other = self.at(old, "--merge"), self.at(kept, "kept")
        if one is None:
            return
        if other is None:
            # The other pages may have it.
            self.rename(old, kept)
            return
        self.arrays[other] = self.added([self.arrays[other], self.arrays[one]], [1.0, 1.0])
        self.remove(one)

    def to_process(self, name: bytes) -> None:
        """Prints a spot with the process inks that the PDF gives for it."""
        number = self.at(name, "--to-process")
        if number is None:
            return
        look = self.separations[number].look
        if look is None:
            message = f"--to-process: the PDF gives no process inks for {readable(name)}"
            raise PressError(Status.USAGE, message, self.place)
        for process, share in enumerate(look):
            if share:
                self.arrays[process] = self.added([self.arrays[process], self.arrays[number]], [1.0, share / 100])
        self.remove(number)

    def rename(self, old: bytes, new: bytes) -> None:
        """Gives a plate another name."""
        number = self.at(old, "--rename")
        if number is None:
            return
        if self.at(new, "kept") not in (None, number):
            message = f"--rename: the page has an ink {readable(new)} already: --merge puts both on one plate"
            raise PressError(Status.USAGE, message, self.place)
        suffix = re.sub(rb"[^A-Za-z0-9 _.-]", lambda byte: b"%%%02X" % byte.group()[0], new)
        self.separations[number] = replace(self.separations[number], colorant=new, suffix=suffix)

    def remove(self, number: int | None) -> None:
        """Takes a plate away."""
        if number is not None:
            del self.separations[number], self.arrays[number]

    def added(self, arrays: Sequence[Array], shares: Sequence[float]) -> Array:
        """A plate with the tints of several, each times its share, full ink at most; block by block."""
        self.written += 1
        shape, dtype = arrays[0].shape, arrays[0].dtype
        out = numpy.memmap(os.path.join(self.folder, f"edited-{self.written}"), dtype=dtype, mode="w+", shape=shape)
        rows = max(1, BLOCK_BYTES // max(1, shape[1] * 4))
        for start in range(0, shape[0], rows):
            tints = sum((self.maxval - array[start:start + rows].astype("f4")) * numpy.float32(share)
                        for array, share in zip(arrays, shares))
            out[start:start + rows] = numpy.rint(numpy.clip(self.maxval - tints, 0, self.maxval)).astype(dtype)
        return out


def edit_plates(rendering: Rendering, edits: InkEdits, folder: str, place: str) -> Rendering:
    """A rendering with its inks merged, turned into process inks, dropped and renamed, in this order."""
    return Editor(rendering, folder, place).edited(edits) if edits else rendering


def pairs_of(words: Iterable[str], option: str, fault: Callable[[str], Exception]) -> dict[bytes, bytes]:
    """OLD=NEW words as a map."""
    found = {}
    for word in words:
        old, equals, new = word.rpartition("=")
        if not equals or not old or not new:
            raise fault(f"{option} is OLD=NEW, and not '{word}'")
        found[os.fsencode(old)] = os.fsencode(new)
    return found


def twins(separations: Sequence[Separation]) -> list[tuple[bytes, bytes]]:
    """Spots that are one swatch with other letters for the paper: the one that is kept, and the other."""
    spots = [one.colorant for one in separations if one.name not in PROCESS]
    return [(kept, old) for old, kept in same_swatches(spots).items()]
