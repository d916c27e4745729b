# SPDX-License-Identifier: Apache-2.0
"""What documents and manual pages show set off from their text: commands, jobs, tables, programs and what is printed."""
import re
from collections.abc import Iterator
from dataclasses import dataclass

from room import TOP

DOCUMENTS = sorted(str(path.relative_to(TOP)) for pattern in ("README.md", "docs/*.md", "python/README.md", "examples/*/README.md")
                   for path in TOP.glob(pattern))
PAGES = sorted(str(path.relative_to(TOP)) for path in TOP.glob("man/*.[1357]"))
FENCE = re.compile(r"^```(\w*)\n(.*?)^```$", re.M | re.S)
INDENTED = re.compile(r"(?:^|\n)\n((?:    .*\n|\n(?=    ))+)")
LIST = re.compile(r"^\s*(?:[-*]|\d+\.) ")
COMMAND = re.compile(r"(?:press/|press |bin/|bench/|check/|examples/|\./|\.\./\S*bin/|\$ )\S|(?:apt|make|cc|pip|python3|cd|env|sbatch|eval|mkdir|cat"
                     r"|presscheck|trap|trapset|trapsheet|trapkeep|trappool|traprun|poster=|for) ?\S")
PICTURE = re.compile(r"[─│]|\+--")
REPORT = "trap report"
JOB = re.compile(r"\b(?:settrapparams|setpagedevice|settrapzone|showpage)\b")
ROFF = ((r"\\fB|\\fR|\\fI|\\&", ""), (r"\\-", "-"), (r"\\e", r"\\"))


@dataclass(frozen=True)
class Block:
    """A block of a document: its language if it names one, and its text."""

    document: str
    language: str
    text: str

    @property
    def kind(self) -> str:
        """What it is: commands, a job, a table, a program in Python or C, hot folders, or another thing."""
        if "[[folder]]" in self.text:
            return "folders"
        if self.language in ("sh", "python", "c", "text", "rust", "toml"):
            return {"sh": "commands"}.get(self.language, self.language)
        lines = [line for line in self.text.splitlines() if line.strip()]
        if PICTURE.search(self.text):
            return "picture"
        if lines[0] == REPORT:
            return "text"
        if JOB.search(self.text):
            return "job"
        if all("\t" in line for line in lines):
            return "table"
        if COMMAND.match(lines[0]):
            return "commands"
        if lines[0] == "[dependencies]":
            return "toml"
        return "python" if re.match(r"import |\w+ = \w+\.", lines[0]) else "other"

    def commands(self) -> Iterator[str]:
        """The commands of the block, without comments; a line that ends with a backslash goes on in the next one."""
        for line in re.sub(r"\\\n\s*", "", self.text).splitlines():
            command = re.sub(r"\s+#.*", "", line).strip()
            if self.document.startswith("man/") and self.text.lstrip().startswith("$ "):
                command = command.removeprefix("$ ") if command.startswith("$ ") else ""
            if command:
                yield command


def without_indent(text: str) -> str:
    """An indented block as it is typed."""
    return "".join(line[4:] if line.strip() else line for line in text.splitlines(keepends=True)).rstrip("\n") + "\n"


def blocks_of(document: str) -> list[Block]:
    """The blocks of a document or of a manual page's examples."""
    text = (TOP / document).read_text(encoding="utf-8")
    if document.startswith("man/"):
        return list(examples_of(document, text))
    found = [(match.start(), Block(document, match[1], match[2])) for match in FENCE.finditer(text)]
    rest = FENCE.sub(lambda match: "\0" * (match.end() - match.start()), text)
    for match in INDENTED.finditer(rest):
        before = rest[:match.start() + 1].rstrip("\n").rpartition("\n")[2]
        if not LIST.match(before):
            found.append((match.start(), Block(document, "", without_indent(match[1]))))
    return [block for _, block in sorted(found, key=lambda one: one[0])]


def examples_of(document: str, text: str) -> Iterator[Block]:
    """The commands of a manual page's EXAMPLES."""
    examples = re.search(r"^\.Sh EXAMPLES\n(.*?)(?=^\.Sh )", text, re.M | re.S)
    for match in re.finditer(r"^\.Dl (.*)\n|^\.Bd .*\n((?:(?!\.Ed).*\n)*)", examples[1] if examples else "", re.M):
        shown = (match[1] or match[2]).rstrip("\n") + "\n"
        for pattern, instead in ROFF:
            shown = re.sub(pattern, instead, shown)
        yield Block(document, "", shown)


def every_block() -> list[Block]:
    """The blocks of all documents and manual pages."""
    return [block for document in (*DOCUMENTS, *PAGES) for block in blocks_of(document)]


def fault_examples() -> Iterator[tuple[str, str, int]]:
    """The examples of docs/JOBS.md's table of faults that are whole jobs: the fault, the job, and the offset."""
    for line in (TOP / "docs" / "JOBS.md").read_text(encoding="utf-8").splitlines():
        cells = [cell.strip() for cell in line.split("|")[1:-1]]
        shown = re.fullmatch(r"`([^`]*)` at (\d+)", cells[2]) if len(cells) == 4 and re.match(r"`[A-Z]", cells[0]) else None
        if shown:
            yield re.sub(r"`(\w+)`.*", r"\1", cells[0]), shown[1], int(shown[2])
