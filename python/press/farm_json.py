# SPDX-License-Identifier: Apache-2.0
"""What a farm prints with --json: the events of its pages, and its own, as JSON Lines; docs/JSON.md lists them."""
import json
import re
from typing import Any

from .printing import FarmLines, put

FAILED = re.compile(r"page (\d+): failed: (.*)", re.DOTALL)
# Each page's run has these too. The farm has them once.
OF_A_RUN = ("run-started", "run-done")
ONCE = ("finding", "warning", "refused")


class FarmJson(FarmLines):
    """An observer of a farm whose pages print their events: a line on standard output for each."""

    is_json = True

    def __init__(self, path: str) -> None:
        super().__init__(path, quiet=True)

    def tell(self, event: str, **more: Any) -> None:
        """Prints an event."""
        put(json.dumps({"event": event, **more}))

    def begin(self, pages: list[int], count: int, converted: bool) -> None:
        """The pages to make, of so many."""
        self.tell("run-started", path=self.path, pages=pages, count=count, converted=converted)

    def drop(self, host: str, why: str) -> None:
        """A machine that cannot work."""
        self.tell("host-dropped", host=host, why=why)

    def warn(self, text: str) -> None:
        """A warning of the farm's own, once."""
        if text not in self.warned:
            self.warned.add(text)
            self.tell("warning", page=None, command="press-farm", text=text)

    def page(self, line: str) -> None:
        """An event of a page, or the line of one that failed without an event."""
        if failed := FAILED.match(line):
            self.fail(int(failed[1]))
            self.tell("page-failed", page=int(failed[1]), status=None, why=failed[2])
            return
        try:
            record: dict[str, Any] = json.loads(line)
        except ValueError:
            self.work(line)
            return
        event, text = record.get("event"), str(record.get("text"))
        # What concerns the whole file comes with each page.
        said = text if record.get("page") is None else f"page {record['page']}: {text}"
        if event == "page-failed":
            self.fail(int(record["page"]))
        elif event == "page-done":
            self.ended.add(int(record["page"]))
        if event in OF_A_RUN or event in ONCE and said in self.warned:
            return
        self.warned.update([said] if event in ONCE else [])
        if event == "refused":
            self.tell("warning", page=None, command="press-all", text=f"{record['place']}: {text}")
        else:
            put(line)

    def fail(self, page: int) -> None:
        """A page has failed."""
        self.ended.add(page)
        self.failed.add(page)

    def work(self, line: str) -> None:
        """A line that is no event, such as one of ssh: a refusal has been printed as one."""
        if not line.startswith("press-all: ") and line not in self.warned:
            self.warned.add(line)
            self.tell("warning", page=None, command="parallel", text=line)

    def end(self) -> None:
        """All pages are done or failed."""
        self.tell("run-done", failed=sorted(self.failed))
