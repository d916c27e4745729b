# SPDX-License-Identifier: Apache-2.0
"""tools/prove: each crate after those that it uses, and what is kept if it fails or is interrupted."""
import os
import signal
import subprocess
import time
import unittest

from repository import RepositoryTest, write_program

# A toolchain that notes the crate with the libraries that it finds below, and makes a library or a program.
RT = """name=${PWD##*/}
[ "$1" != version ] || { echo a toolchain; exit; }
below=$(cd .. && ls -d */out/rlib 2>/dev/null | sed 's,/.*,,' | grep -vx "$name" | paste -sd ' ')
echo "$name $1: $below" >>"$ORDER"
mkdir -p out/incremental && echo kept >out/incremental/note
[ ! -e "$ORDER.$name.fails" ] || { echo "a goal is open"; exit 1; }
[ ! -e "$ORDER.$name.waits" ] || { trap 'exit 1' TERM; touch "$ORDER.$name.waiting"; while :; do sleep 0.02; done; }
if [ "$1" = run ]; then printf '#!/bin/sh\\n' >out/$name && chmod +x out/$name && exit 2; fi
mkdir -p out/rlib && echo "$name" >out/rlib/lib
"""


class TestProve(RepositoryTest):
    """A program on two libraries that use a third."""

    def setUp(self) -> None:
        super().setUp()
        write_program(self.place / "bin" / "rt", RT)
        for name in ("left", "right"):
            self.write(f"crates/{name}/src/lib.rt", "-- a library\n")
        lines = ["# the crates", "", "lists: itoa", "left: lists", "right: lists", "trap: left right lists"]
        self.write("crates.txt", "\n".join(lines) + "\n")
        self.order = self.place / "order"
        os.environ["ORDER"] = str(self.order)
        self.addCleanup(os.environ.pop, "ORDER")

    def lines(self) -> "list[str]":
        """What the toolchain was called for."""
        return self.order.read_text(encoding="utf-8").splitlines()

    def test_order_and_libraries(self) -> None:
        ran = self.run_tool("tools/prove", "trap")
        self.assertEqual(ran.returncode, 0, ran.stderr)
        lines = self.lines()
        self.assertEqual((lines[0], sorted(lines[1:3]), lines[3:]),
                         ("lists lib: ", ["left lib: lists", "right lib: lists"], ["trap run: left lists right"]))
        self.assertIn("4 of 4 crates left; working on lists\n", ran.stderr)
        self.assertTrue((self.top / "crates" / "left" / "out" / "rlib" / "lib").is_file())
        self.assertEqual(list((self.top / "out").glob("prove-*")), [])

    def test_static_library_in_its_own_place(self) -> None:
        self.write("crates.txt", "lists:\nleft staticlib: lists\n")
        self.assertEqual(self.run_tool("tools/prove", "left").returncode, 0)
        self.assertEqual(self.lines()[1], "left lib: lists")

    def test_unknown_crate(self) -> None:
        ran = self.run_tool("tools/prove", "none")
        self.assertEqual((ran.returncode, ran.stderr), (1, "tools/prove: crates.txt has no crate none\n"))

    def test_failure(self) -> None:
        self.write("../order.left.fails", "")
        ran = self.run_tool("tools/prove", "trap")
        self.assertEqual(ran.returncode, 1)
        self.assertIn("a goal is open\ntools/prove: left was not proved\n", ran.stderr)
        self.assertTrue((self.top / "crates" / "left" / "out" / "incremental" / "note").is_file())

    def test_interruption_keeps_what_was_made(self) -> None:
        self.write("../order.lists.waits", "")
        surroundings = {**os.environ, "PATH": self.path}
        words = [self.top / "tools" / "prove", "trap"]
        with subprocess.Popen(words, env=surroundings, stderr=subprocess.DEVNULL) as process:
            while not (self.place / "order.lists.waiting").exists():
                self.assertIsNone(process.poll())
                time.sleep(0.02)
            process.send_signal(signal.SIGTERM)
            self.assertEqual(process.wait(), 130)
        self.assertTrue((self.top / "crates" / "lists" / "out" / "incremental" / "note").is_file())
        self.assertEqual(list((self.top / "out").glob("prove-*")), [])


if __name__ == "__main__":
    unittest.main()
