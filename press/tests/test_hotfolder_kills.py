# SPDX-License-Identifier: Apache-2.0
"""A watch that is killed before each change that it makes to the disk: each file is filed once, and is whole."""
import os
import sys
from collections.abc import Iterator
from pathlib import Path

import pytest
from press.hotfolder.config import HotFolder
from test_hotfolder import WHOLE, fixture_fake_run, hot_folder, put_in, work

pytestmark = [pytest.mark.plain, pytest.mark.slow]
KILLED = 9
# The fixture is taken from there.
__all__ = ["fixture_fake_run"]


def killed(hot: HotFolder, steps: int) -> bool:
    """Does the work in a process that is killed before it changes a file or folder for the so many-th time. Answers whether it was."""
    child = os.fork()
    if child == 0:
        left, own = [steps], os.getpid()

        def count(event: str, words: tuple[object, ...]) -> None:
            is_change = event in ("os.rename", "os.mkdir", "os.remove", "os.rmdir", "os.link", "shutil.rmtree", "tempfile.mkdtemp",
                                  "subprocess.Popen") or (event == "open" and isinstance(words[1], str) and "w" in words[1])
            if is_change and os.getpid() == own:
                left[0] -= 1
                if left[0] < 0:
                    os._exit(KILLED)

        sys.addaudithook(count)
        try:
            work(hot)
        finally:
            os._exit(0)
    return os.waitstatus_to_exitcode(os.waitpid(child, 0)[1]) == KILLED


def inputs(path: Path) -> Iterator[Path]:
    """All files of a hot folder that were put in."""
    for place, _, names in os.walk(path):
        yield from (Path(place, name).relative_to(path) for name in names if name in ("a.pdf", "why.txt-2"))


def test_killed_before_each_step(tmp_path: Path, fake_run: None) -> None:
    """Whichever step of its work a watch is killed before, and also if the next one is killed at once, each file is filed once and is whole."""
    steps, ran = 0, True
    while ran:
        hot = hot_folder(tmp_path / str(steps), command=("/bin/sh", "-c", 'echo "$1" >>"$0"', str(tmp_path / str(steps) / ".told")))
        path = Path(hot.path)
        expected = put_in(path)
        ran = killed(hot, steps)
        killed(hot, steps // 3)
        work(hot)
        assert {str(one) for one in inputs(path)} == set(expected), steps
        assert all((path / name).read_bytes() == data for name, data in expected.items())
        assert (path / "done/a/page-001/plates").read_bytes() == WHOLE
        assert sorted(os.listdir(path)) == [".claimed", ".told", "a.inks", "done", "failed"] and not list((path / ".claimed").iterdir())
        assert sorted(os.listdir(path / "done")) == ["a"] and sorted(os.listdir(path / "failed")) == ["why"]
        told = set((path / ".told").read_text().splitlines())
        assert told == {str(path / "done/a/job.json"), str(path / "failed/why/job.json")}, steps
        steps += 1
    assert steps > 30
