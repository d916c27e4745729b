# SPDX-License-Identifier: Apache-2.0
"""Which program a launcher runs: the released one if it was made of these sources; else one that is built, or none."""
import shutil
import sys
import unittest
from pathlib import Path

from repository import PROGRAMS, STEP, RepositoryTest, write_program

# Builds a program that prints "built", or fails, or is at work while a source is changed.
PROVE = f"""
[ ! -e fails ] || exit 1
[ ! -e changed ] || {{ sleep {STEP} && echo >>"crates/$1/src/main.rt"; }}
mkdir -p "crates/$1/out"
printf '#!/bin/sh\\necho built\\n' >"crates/$1/out/$1"
chmod +x "crates/$1/out/$1"
"""
OTHER = "the release in release/ was made of other sources"


class Released(RepositoryTest):
    """A repository with a release of programs that print "released"."""

    def setUp(self) -> None:
        super().setUp()
        write_program(self.place / "bin" / "rt", "echo a toolchain\n")
        write_program(self.top / "tools" / "prove", PROVE)
        for name in PROGRAMS:
            write_program(self.top / "crates" / name / "out" / name, "echo released\n")
        packed = self.run_tool("tools/release")
        self.assertEqual(packed.returncode, 0, packed.stderr)

    def clear(self) -> None:
        """Removes what is built."""
        for path in (*self.top.glob("crates/*/out"), self.top / "out"):
            shutil.rmtree(path, ignore_errors=True)

    def prints(self, program: str, text: str) -> str:
        """Checks what a program prints; the lines of the launcher are returned."""
        ran = self.run_tool(f"bin/{program}")
        self.assertEqual((ran.stdout, ran.returncode), (text + "\n", 0), ran.stderr)
        return ran.stderr

    def refuses(self, line: str) -> None:
        """Checks that the launcher of trap runs no program, and why."""
        ran = self.run_tool("bin/trap")
        self.assertEqual((ran.stdout, ran.returncode), ("", 1))
        self.assertIn(line, ran.stderr)


class TestRelease(Released):
    """Packing, comparing and checksums."""

    def test_same_programs(self) -> None:
        self.assertIn("byte for byte: " + " ".join(PROGRAMS) + "\n", self.run_tool("tools/release", "--check").stdout)

    def test_packing_twice_gives_the_same_bytes(self) -> None:
        archive = self.top / "release" / "trap-x86_64-linux.tar.gz"
        before = archive.read_bytes()
        self.run_tool("tools/release")
        self.assertEqual(archive.read_bytes(), before)

    def test_another_program(self) -> None:
        self.change("crates/trapset/out/trapset", "# another\n")
        ran = self.run_tool("tools/release", "--check")
        self.assertEqual((ran.returncode, ran.stderr), (1, "tools/release: not the same as built: trapset\n"))

    def test_program_of_other_sources(self) -> None:
        self.change("crates/trapset/src/main.rt", "// changed\n")
        ran = self.run_tool("tools/release", "--check")
        self.assertEqual(ran.returncode, 0, ran.stderr)
        self.assertIn("made of other sources: trapset\n", ran.stdout)

    def test_missing_program(self) -> None:
        shutil.rmtree(self.top / "crates" / "traprun" / "out")
        ran = self.run_tool("tools/release")
        self.assertEqual((ran.returncode, ran.stderr), (1, "tools/release: traprun is not built\n"))

    def test_damaged_archive(self) -> None:
        self.clear()
        self.change("release/trap-x86_64-linux.tar.gz", "x")
        ran = self.run_tool("tools/release", "--unpack", "trap")
        self.assertEqual(ran.returncode, 1)
        self.assertIn("trap-x86_64-linux.tar.gz has another checksum than release/SHA256SUMS gives", ran.stderr)
        self.assertFalse((self.top / "out" / "release" / "trap").exists())


class TestLaunch(Released):
    """The launchers."""

    def setUp(self) -> None:
        super().setUp()
        self.clear()

    def test_release_is_taken(self) -> None:
        self.assertIn("trap: taken from the release", self.prints("trap", "released"))
        self.assertEqual(self.prints("trap", "released"), "")
        place = str(self.top.resolve() / "out" / "release" / "trap")
        self.assertEqual(self.run_tool("tools/program", "trap").stdout, place + "\n")

    def test_launcher_by_a_link(self) -> None:
        (self.top / "mine").symlink_to("bin/trap")
        self.assertEqual(self.run_tool("mine").stdout, "released\n")
        self.assertIn("not a program of programs.txt", self.run_tool("bin/launch").stderr)

    def test_heap(self) -> None:
        write_program(self.top / "out" / "release" / "traprun", "echo $GLIBC_TUNABLES\n")
        write_program(self.top / "out" / "release" / "trapset", "echo $GLIBC_TUNABLES\n")
        self.prints("traprun", "glibc.malloc.hugetlb=1:glibc.malloc.mmap_max=0")
        self.prints("trapset", "glibc.malloc.hugetlb=1")

    def test_changed_source_is_built(self) -> None:
        self.prints("trap", "released")
        self.change("crates/trap/src/main.rt")
        self.assertIn("trap: proving and building the program", self.prints("trap", "built"))
        self.assertEqual(self.prints("trap", "built"), "")

    def test_each_text_below_is_a_source(self) -> None:
        for name in ("src/lib.rt", "specs/Lists.antt", "proofs/Lists.antt"):
            before = (self.top / "crates" / "lists" / name).read_text(encoding="utf-8")
            self.prints("trap", "released")
            self.change(f"crates/lists/{name}")
            self.prints("trap", "built")
            self.write(f"crates/lists/{name}", before)
            self.clear()

    def test_source_of_another_program(self) -> None:
        self.change("crates/trapset/src/main.rt")
        self.prints("trap", "released")
        self.prints("trapset", "built")

    def test_failed_build(self) -> None:
        self.change("crates/trap/src/main.rt")
        self.write("fails", "")
        for _ in range(2):
            self.refuses("the program could not be built")

    def test_source_changed_during_the_build(self) -> None:
        self.change("crates/trap/src/main.rt")
        self.write("changed", "")
        self.refuses("a source was changed during the build")
        (self.top / "changed").unlink()
        self.prints("trap", "built")

    def test_no_toolchain(self) -> None:
        self.change("crates/trap/src/main.rt")
        (self.place / "bin" / "rt").unlink()
        plain = self.place / "plain"
        plain.mkdir()
        for folder in ("/usr/bin", "/bin"):
            for tool in Path(folder).iterdir():
                if tool.name != "rt" and not (plain / tool.name).is_symlink():
                    (plain / tool.name).symlink_to(tool)
        if not (plain / "python3").exists():
            (plain / "python3").symlink_to(sys.executable)
        self.path = str(plain)
        self.refuses(OTHER)


if __name__ == "__main__":
    unittest.main()
