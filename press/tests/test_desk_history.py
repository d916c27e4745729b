# SPDX-License-Identifier: Apache-2.0
"""The versions of a page's job in their file: what is read is what was kept, whatever became of the file."""
import json
import random

import pytest

pytest.importorskip("numpy")

from press.desk import history  # noqa: E402
from press.desk.history import EDIT, FILE, FOLLOW, REDO, UNDO, History  # noqa: E402

pytestmark = [pytest.mark.plain, pytest.mark.quick]


def state(found):
    """All that a history has."""
    return [(one.number, one.time, one.text) for one in found.versions], found.undo, found.redo


def change_at_random(found, rng, texts):
    """One change, as the page makes it."""
    kind = rng.choice([EDIT, EDIT, FOLLOW, UNDO, REDO])
    if kind == UNDO and found.undo:
        found.add(UNDO, found.undo[-1])
    elif kind == REDO and found.redo:
        found.add(REDO, found.redo[-1])
    else:
        found.add(FOLLOW if kind == FOLLOW else EDIT, rng.choice(texts))


@pytest.mark.parametrize("seed", range(6))
def test_what_is_read_is_what_was_kept(tmp_path, monkeypatch, seed):
    """After each of many changes, over the lines that say everything too. Few versions are kept, in a bounded file."""
    monkeypatch.setattr(history, "MOST_VERSIONS", 5)
    rng, texts = random.Random(seed), [bytes([65 + k, 0, 255, 10]) * 9 for k in range(8)]
    found = History(tmp_path, texts[0])
    for _ in range(60):
        change_at_random(found, rng, texts)
        assert state(History(tmp_path, b"another")) == state(found)
        assert len((tmp_path / FILE).read_text().splitlines()) <= 2 * 5 + 1
    assert len(found.versions) == 5 and max(len(found.undo), len(found.redo)) <= 5


def test_large_jobs_are_kept_less_often(tmp_path, monkeypatch):
    """By their bytes."""
    monkeypatch.setattr(history, "MOST_BYTES", 1000)
    found = History(tmp_path, b"")
    for number in range(20):
        found.add(EDIT, bytes([number]) * 300)
    assert len(found.versions) == len(found.undo) == 3
    assert (tmp_path / FILE).stat().st_size < 8 * 1000
    found.add(EDIT, bytes(5000))
    assert len(found.versions) == len(found.undo) == 1


def test_a_last_line_that_is_not_whole_does_not_count(tmp_path):
    """A server that was killed while it wrote. The next change writes everything."""
    found = History(tmp_path, b"first")
    for text in (b"second", b"third", b"fourth"):
        found.add(EDIT, text)
    whole = (tmp_path / FILE).read_text()
    (tmp_path / FILE).write_text(whole[:-5])
    again = History(tmp_path, b"x")
    assert again.newest.text == b"third"
    again.add(EDIT, b"fifth")
    assert state(History(tmp_path, b"x")) == state(again)
    assert [one.text for one in again.versions] == [b"first", b"second", b"third", b"fifth"]


@pytest.mark.parametrize("damage", ["", "{}\n", "[]\n", "x\n", json.dumps({"is": UNDO, "number": 2, "time": "", "text": ""}) + "\n",
                                    "\xff\n"])
def test_a_damaged_file_is_begun_again(tmp_path, damage):
    """Nothing of it is used, and the page opens."""
    (tmp_path / FILE).write_text(damage, encoding="latin-1")
    found = History(tmp_path, b"text")
    assert [one.text for one in found.versions] == [b"text"] and not found.undo
    found.add(EDIT, b"more")
    assert state(History(tmp_path, b"text")) == state(found)


def test_a_disk_that_is_full_stops_no_change(tmp_path, monkeypatch):
    """The versions are those in memory, and are written as soon as that goes."""
    found = History(tmp_path, b"first")
    found.add(EDIT, b"second")
    with monkeypatch.context() as there:
        there.setattr(history, "open", lambda *_, **__: (_ for _ in ()).throw(OSError(28, "No space left on device")), raising=False)
        found.add(EDIT, b"third")
    assert found.newest.text == b"third" and History(tmp_path, b"x").newest.text == b"second"
    found.add(EDIT, b"fourth")
    assert state(History(tmp_path, b"x")) == state(found)
