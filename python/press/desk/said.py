# SPDX-License-Identifier: Apache-2.0
"""What people say of a page, in the job's record: approval or rejection by name, and notes on places."""
from __future__ import annotations

import hashlib
from collections.abc import Mapping
from pathlib import Path
from typing import Any

from press.folder import TABLE

from .edits_json import BadRequest
from .history import now
from .page import DeskPage
from .pyramid import plates_key
from .record import changing, said_of
from .trapped_set import TrappedSet

MOST_NOTE, MOST_NAME, MOST_NOTES = 2000, 100, 500
VERDICTS = ("approved", "rejected")


def said_json(job: Path, number: int, page: DeskPage) -> dict[str, Any]:
    """The approval and the notes of a page as browsers get them."""
    said = said_of(job, number)
    approval = said.get("approval")
    if isinstance(approval, dict):
        is_current = not approval.get("lapsed") and approval.get("digest") == digest_of(page)
        approval = {**approval, "current": is_current}
    return {"approval": approval, "notes": said.get("notes", [])}


def approve(job: Path, number: int, page: DeskPage, body: Mapping[str, Any]) -> None:
    """Approves or rejects the page as it is now. Raises BadRequest."""
    verdict, name = str(body.get("verdict", "")), str(body.get("name", "")).strip()
    if verdict not in VERDICTS:
        raise BadRequest(f"a verdict is {' or '.join(VERDICTS)}")
    if not 0 < len(name) <= MOST_NAME:
        raise BadRequest("say your name")
    if body.get("version") != page.version or page.version != page.shown or page.is_preview():
        raise BadRequest("the page has changed, or is not trapped yet: look at it once more")
    page.bring()
    digest = digest_of(page)
    with changing(job) as part:
        part.setdefault(str(number), {})["approval"] = {"verdict": verdict, "name": name, "time": now(),
                                                        "digest": digest}


def add_note(job: Path, number: int, page: DeskPage, body: Mapping[str, Any]) -> None:
    """Adds a note on a place of the page. Raises BadRequest."""
    text = str(body.get("text", "")).strip()
    try:
        x, y = (int(part) for part in body["place"])
    except (KeyError, TypeError, ValueError) as bad:
        raise BadRequest("a note has a place, x and y in pixels") from bad
    if not 0 < len(text) <= MOST_NOTE or not (0 <= x < page.width and 0 <= y < page.height):
        raise BadRequest(f"a note has 1 to {MOST_NOTE} characters and a place on the page")
    with changing(job) as part:
        notes = part.setdefault(str(number), {}).setdefault("notes", [])
        if len(notes) >= MOST_NOTES:
            raise BadRequest(f"a page has at most {MOST_NOTES} notes")
        notes.append({"text": text, "place": [x, y], "time": now()})


def digest_of(page: DeskPage) -> str:
    """Changes if the job, the inks, or any plate does, before trapping or after. It is computed anew only if a file
    is another one, or has another size or time."""
    while True:
        made = page.trapped
        try:
            return digest_with(page, made)
        except FileNotFoundError:
            # Other plates may be shown by now, or the same ones from the page's folder.
            if page.trapped is made:
                raise


def digest_with(page: DeskPage, made: TrappedSet) -> str:
    """The digest with these trapped plates."""
    inks = page.folder.inks
    paths = [*(page.folder.plate(ink) for ink in inks), *(made.plate(page.folder, ink) for ink in inks)]
    head = page.text + Path(page.folder.file(TABLE)).read_bytes()
    key = hashlib.sha256(head + plates_key(paths).encode()).hexdigest()
    if page.digest[0] != key:
        found = hashlib.sha256(head)
        for path in paths:
            with open(path, "rb") as file:
                found.update(hashlib.file_digest(file, "sha256").digest())
        page.digest = key, found.hexdigest()
    return page.digest[1]
