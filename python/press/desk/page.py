# SPDX-License-Identifier: Apache-2.0
"""One page that is open in the editor: its plates, its job with the edits, and its earlier versions."""
from __future__ import annotations

import secrets
import threading
from collections.abc import Callable, Mapping, Sequence
from dataclasses import replace
from pathlib import Path
from typing import Any

from press import folder as folders, keepaway
from press.errors import PressError, Status, reason
from press.files import whole_file
from press.folder import PageFolder
from press.job_language import KEYS, SCALE, Job
from press.names import readable
from press.origins import Origins
from press.picture import light_of
from press.tables import is_seen
from press.zones_anew import Strokes, composed, composed_images, first_strokes, margin_of, origins_of, rule_of

from .colours import Inks, soft_proof
from .drawn_back import DrawnBack, LastRun, begun_planes
from .edits_json import BadRequest, edits_of, most_keepaway, settings_of
from .history import EDIT, FOLLOW, REDO, UNDO, History
from .job_edits import Edits, apply_edits, pixels_of_polygon, rules_of, take_apart
from .job_sections import IMAGES, THIN, zone_names
from .kept import Kept
from .live import InkNames, LivePage
from .pyramid import Pyramid, open_pyramid, plates_key
from .reading import read_job
from .trapped_set import TrappedSet, bring


class VersionConflict(Exception):
    """A change was made on a version that is no longer the newest one."""


class DeskPage:
    """A page folder that is open. Whatever changes the job or the trapped plates holds the lock."""

    def __init__(self, path: str, profile: str | None = None) -> None:
        self.lock, self.bringing = threading.Lock(), threading.Lock()
        self.folder = PageFolder.read(path)
        self.folder.need_trapped()
        self.kept = Kept(Path(path))
        self.maxval = self.folder.head.maxval
        self.width, self.height = self.folder.head.width, self.folder.head.height
        self.resolution = self.folder.source.resolution
        self.names = [ink.name for ink in self.folder.inks]
        self.inked = [k for k, ink in enumerate(self.folder.inks) if ink in self.folder.inked]
        self.inks = Inks([light_of(ink.look) for ink in self.folder.inks],
                         [ink.kind != "Transparent" for ink in self.folder.inks], soft_proof(self.folder.inks, profile))
        # Tiles of an earlier server must not be taken for this one's: the browser keeps them for ever.
        self.epoch = secrets.token_hex(4)
        self.digest = "", ""
        self.trapped = TrappedSet()
        self.before = self._before()
        self.after = self._after(self.trapped)
        names = InkNames(self.names, self.inked)
        self.live = LivePage(begun_planes(self.folder), self.maxval, names, self.resolution)
        self._take(Path(self.folder.file(folders.JOB)).read_bytes())
        self.last = LastRun.of(self.folder, None if self.kept.is_behind(self.text) else self.drawn_back)
        self.origins = self._origins()
        self.first = first_strokes(self.folder, self._rule(self.original, Edits()))
        self.strokes = self.kept.strokes() or self.first
        self.history = self._history()
        # A change has to be made on this version or on a later one: what only moves thin strokes is no conflict.
        self.least = self.version
        # The last server may have ended before the folder had the traps of the newest job.
        self.shown = self.version - self.kept.is_behind(self.text)

    def _before(self) -> Pyramid:
        plates, paths = self.folder.plates(), [self.folder.plate(ink) for ink in self.folder.inks]
        return open_pyramid(plates.arrays, plates.maxval, self.kept.levels(trapped=False), plates_key(paths))

    def _after(self, made: TrappedSet) -> Pyramid:
        plates, paths = made.plates(self.folder), [made.plate(self.folder, ink) for ink in self.folder.inks]
        return open_pyramid(plates.arrays, plates.maxval, made.levels(self.kept), plates_key(paths))

    def _take(self, text: bytes) -> None:
        """Takes a text for the job."""
        self.text = text
        self.original, self.edits = take_apart(text)
        self.job: Job = read_job(text)
        self.drawn_back = DrawnBack.of(self.folder, text, self.job)

    def _origins(self) -> Origins | None:
        """What the press room's zones were made of, if the page has images and says it."""
        try:
            found = origins_of(self.folder)
        except PressError:
            return None
        return found if found.info and found.images else None

    def _history(self) -> History:
        """The versions that an earlier server kept. If somebody else changed the editor's part of the job since, that
        is one more version; if the job is another one, it begins anew."""
        found = History(self.kept.folder, self.text)
        if found.newest.text != self.text:
            if take_apart(found.newest.text)[0] == self.original:
                found.add(EDIT, self.text)
            else:
                found.begin_again(self.text)
        return found

    @property
    def version(self) -> int:
        """The number of the newest version."""
        return self.history.newest.number

    @property
    def size(self) -> tuple[float, float]:
        """Width and height in points."""
        return self.width * 72 / self.resolution, self.height * 72 / self.resolution

    # The job

    def change(self, version: int, said: Mapping[str, Any]) -> None:
        """Makes the edits of a browser on a version. Raises VersionConflict if there is a later one, BadRequest or
        trapping.Refusal if they make no job; nothing is changed then."""
        made = self._edited(self.edits_said(said))
        with self.lock:
            self._expect(version)
            if made != self.text:
                self._write(made, EDIT)
                self.least = self.version

    def step(self, version: int, is_undo: bool) -> None:
        """Goes back to the job before the last change, or forward again."""
        with self.lock:
            self._expect(version)
            texts = self.history.undo if is_undo else self.history.redo
            if not texts:
                raise BadRequest("there is nothing to undo" if is_undo else "there is nothing to redo")
            self._write(texts[-1], UNDO if is_undo else REDO)
            self.least = self.version

    def edits_said(self, said: Mapping[str, Any]) -> Edits:
        """Edits as a browser sends them. Raises BadRequest if they are none."""
        return edits_of(said, read_job(self.original), self.resolution, self.height)

    def _edited(self, edits: Edits) -> bytes:
        """The job by edits. Zones of thin strokes are composed anew if anything below them changes, and those of images
        if traps reach farther into them, or less far."""
        plain = replace(edits, thin=None, images=None)
        try:
            if self.first and self.strokes and THIN not in edits.off and plain.changes_zones():
                rule = self._rule(apply_edits(self.original, plain), plain)
                strokes = self.first if self.first.rule == rule else self.strokes
                plain = replace(plain, thin=composed(self.original, plain, strokes.places, self.size) or None)
            if self.origins and plain.changes_zones():
                plain = replace(plain, images=composed_images(self.original, plain, self.origins, self.resolution))
            return apply_edits(self.original, plain)
        except (KeyError, TypeError, ValueError, AttributeError) as fault:
            raise BadRequest(f"these are no edits: {fault}") from fault

    def rule(self) -> str:
        """What the places of thin strokes depend on, by the newest job."""
        return self._rule(self.text, self.edits)

    def _rule(self, text: bytes, edits: Edits) -> str:
        return rule_of(read_job(text), edits, margin_of(text, self.resolution) if self.origins else None)

    def other_text(self, other: Mapping[str, Any]) -> bytes:
        """The job of an earlier version, or by other settings. Raises BadRequest if there is none."""
        if "version" in other:
            found = [one.text for one in self.history.versions if one.number == other["version"]]
            if not found:
                raise BadRequest(f"version {other['version']} is not kept")
            return found[0]
        settings = {**self.edits.settings, **settings_of(other.get("settings", {}))}
        return self._edited(replace(self.edits, settings=settings))

    def _expect(self, version: int) -> None:
        if not self.least <= version <= self.version:
            raise VersionConflict(f"version {version} was changed by another window; the newest is {self.version}")

    def _write(self, text: bytes, kind: str) -> None:
        """Writes a job, if the engine accepts it for this page: one pixel is trapped by it."""
        self.live.check(text)
        DrawnBack.of(self.folder, text, read_job(text))
        if not self.kept.has_record():
            self.kept.record_trapped(self.text)
        with whole_file(self.folder.file(folders.JOB)) as path:
            Path(path).write_bytes(text)
        self._take(text)
        self.history.add(kind, text)

    # What the picture lacks while the page is not done

    def is_preview(self) -> bool:
        """Whether the page's plates will have more than what is shown at once."""
        return self.lacks_strokes() or self.lacks_keepaway()

    def lacks_keepaway(self) -> bool:
        """Whether the job draws inks back otherwise than the last run of the page, from which the traps begin."""
        return self.last.differs(self.drawn_back, self.resolution) or (
            self.version != self.shown and self.last.draws_whites())

    def lacks_strokes(self) -> bool:
        """Whether the zones of thin strokes are those of another rule than the job's."""
        if not self.first or not self.strokes or THIN in self.edits.off or not self.edits.changes_zones():
            return False
        return self.rule() not in (self.first.rule, self.strokes.rule)

    def take_strokes(self, version: int, strokes: Strokes) -> bool:
        """Takes the places of thin strokes that were found for a version. True if that changes the job, which then has
        a new version."""
        with self.lock:
            if version != self.version:
                return False
            self.strokes = strokes
            self.kept.keep_strokes(strokes)
            made = self._edited(self.edits)
            if made == self.text:
                return False
            self._write(made, FOLLOW)
            return True

    # The trapped plates

    def is_behind(self) -> bool:
        """Whether the trapped plates in the folder are known to be those of an older job."""
        return self.kept.is_behind(self.text) or self.is_preview()

    def take_trapped(self, version: int, made: TrappedSet) -> bool:
        """Shows trapped plates that were made by the job of a version; False, and they are removed from memory, if that
        is not the newest one."""
        old = made
        try:
            after, begun = self._after(made), begun_planes(self.folder, made.folder)
            with self.lock:
                if version != self.version:
                    return False
                old, self.trapped = self.trapped, made
                self.after, self.shown, self.live.planes = after, version, begun
                self.last = LastRun.of(self.folder, self.drawn_back, made.folder)
        finally:
            old.remove()
        return True

    def bring(self, is_wanted: Callable[[], bool] = lambda: True) -> None:
        """Has the page's folder hold the plates that are shown, if they are still in memory and those of the job: as
        long as that is wanted, and no others are shown."""
        with self.bringing:
            made = self.trapped
            if not made.is_in_memory or not self._is_newest(made):
                return
            try:
                if not bring(self.folder, self.kept, made, lambda: self._is_newest(made) and is_wanted()):
                    return
                on_disk = TrappedSet()
                after, begun = self._after(on_disk), begun_planes(self.folder)
            except OSError as fault:
                if self.trapped is not made:
                    return
                raise PressError(Status.OUTPUT, f"the traps are not on the disk: {reason(fault)}") from fault
            with self.lock:
                if self.trapped is not made:
                    return
                self.trapped, self.after, self.live.planes = on_disk, after, begun
            made.remove()

    def _is_newest(self, made: TrappedSet) -> bool:
        """Whether a set of plates is shown, and that of the job as it is now."""
        return self.trapped is made and made.text == self.text

    # What browsers see

    def state(self) -> dict[str, Any]:
        """The page as a browser gets it."""
        with self.lock:
            return {"width": self.width, "height": self.height, "dpi": self.resolution, "maxval": self.maxval,
                    "version": self.version, "shown": self.shown, "epoch": self.epoch, "preview": self.is_preview(),
                    "kept": not self.trapped.is_in_memory,
                    "lacks": ["thin strokes"] * self.lacks_strokes() + ["keepaway"] * self.lacks_keepaway(),
                    "keepaway": self._keepaway(),
                    "levels": self.before.last_level, "canUndo": bool(self.history.undo),
                    "canRedo": bool(self.history.redo),
                    "inks": [self._ink(k) for k in range(len(self.names))], "settings": self._settings(self.job),
                    "edits": self._edits_json(), "jobZones": self._job_zones(),
                    "canSoftProof": self.inks.soft is not None,
                    "rules": rules_of(self.original, self.edits, self._known_rules()),
                    "versions": [{"number": one.number, "time": one.time} for one in self.history.versions]}

    def _known_rules(self) -> list[str]:
        """The rules of which the places are known."""
        return [rule for rule, known in ((THIN, self.first), (IMAGES, self.origins)) if known]

    def _edits_json(self) -> dict[str, Any]:
        zones = [{"name": zone.name, "settings": dict(zone.settings), "overImages": zone.over_images,
                  "points": self._pixels(zone.polygon)} for zone in self.edits.zones]
        own = read_job(self.original).inks
        inks = {name: vars(ink) for name, ink in self.edits.inks.items()
                if name not in own or (own[name].density, own[name].kind) != (ink.density, ink.kind)}
        return {"settings": dict(self.edits.settings), "zones": zones, "inks": inks, "off": sorted(self.edits.off),
                "keepaway": self.edits.keepaway}

    def _keepaway(self) -> dict[str, Any]:
        """How far inks are drawn back, what the editor says of it, and what the last run of the page did."""
        titles = {ink.name: readable(ink.colorant) for ink in self.folder.inks}
        return {"width": self.drawn_back.width, "most": most_keepaway(self.resolution),
                "done": list(keepaway.lines_of(dict(self.last.report), titles))}

    def _pixels(self, ring: Sequence[tuple[int, int]]) -> list[tuple[float, float]]:
        return pixels_of_polygon(tuple(ring), self.resolution, self.height)

    def _settings(self, job: Job) -> dict[str, int | bool]:
        """The parameters of the page."""
        return {key: getattr(keepaway.page_parameters(job), name) for key, name in KEYS.items()}

    def _ink(self, number: int) -> dict[str, Any]:
        ink = self.folder.inks[number]
        details = self.job.inks.get(ink.name)
        return {"name": ink.name, "title": readable(ink.colorant), "light": self.inks.lights[number],
                "density": details.density / SCALE if details else float(ink.density),
                "kind": details.kind if details else ink.kind, "hasInk": ink.has_ink,
                "coverage": [one.coverage[number] for one in (self.before, self.after)]}

    def densities(self) -> list[float]:
        """The density of each plate's ink as the job has it; 0 for a varnish, which nobody sees."""
        inks = [(self.job.inks.get(ink.name), ink) for ink in self.folder.inks]
        return [(now.density / SCALE if now else float(ink.density)) if is_seen(now.kind if now else ink.kind) else 0.0
                for now, ink in inks]

    def zone_name(self, zone: int) -> str:
        """What a zone of the job is; 0 is what no zone covers."""
        return zone_names(self.text)[zone - 1] if zone else "the page" if len(self.job.zones) == 1 else "no zone"

    def _job_zones(self) -> list[dict[str, Any]]:
        """The job's zones for the picture: rings in pixels from the top left corner, and settings."""
        return [{"rings": [self._pixels(one) for one in zone.subpaths], "name": name,
                 "settings": {key: getattr(zone.parameters, field_name) for key, field_name in KEYS.items()}}
                for zone, name in zip(self.job.zones[1:], zone_names(self.text))]
