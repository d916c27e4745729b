# SPDX-License-Identifier: Apache-2.0
"""What the documents say is what happens: the first run of the README, command by command."""
import re
import subprocess
import unittest
from pathlib import Path

TOP = Path(__file__).resolve().parent.parent.parent


def blocks(text: str, kind: str) -> "list[str]":
    """The fenced blocks of a document of one kind."""
    return re.findall(rf"^```{kind}\n(.*?)^```$", text, re.M | re.S)


class TestReadme(unittest.TestCase):
    """README.md."""

    def test_first_run(self) -> None:
        text = (TOP / "README.md").read_text(encoding="utf-8")
        [commands], [printed] = blocks(text, "sh"), blocks(text, "text")
        ran = subprocess.run(["bash", "-euc", commands], cwd=TOP, capture_output=True, text=True, check=False)
        self.assertEqual((ran.returncode, ran.stdout), (0, printed), ran.stderr)

    def test_links(self) -> None:
        """Each link of a document leads to a file of the repository."""
        for document in [*TOP.glob("*.md"), *TOP.glob("*/*.md"), *TOP.glob("examples/*/*.md")]:
            text = document.read_text(encoding="utf-8")
            for link in re.findall(r"\]\(([^)#:]+)(?:#[^)]*)?\)", text):
                self.assertTrue((document.parent / link).exists(), f"{document.relative_to(TOP)}: {link}")


if __name__ == "__main__":
    unittest.main()
