# SPDX-License-Identifier: Apache-2.0
"""The repository has no symbolic links: the gate stops at the first one before it proves anything."""
import subprocess
import unittest
from pathlib import Path

TOP = Path(__file__).resolve().parents[2]


class Links(unittest.TestCase):
    def test_no_file_is_a_link(self) -> None:
        found = subprocess.run(["git", "ls-files", "--stage"], cwd=TOP, capture_output=True, text=True, check=False)
        if found.returncode:
            self.skipTest("this is no git checkout")
        self.assertEqual([line for line in found.stdout.splitlines() if line.startswith("120000")], [])


if __name__ == "__main__":
    unittest.main()
