# SPDX-License-Identifier: Apache-2.0
"""No function has more than eight parameters, the calls of `libtrap` excepted: the C header fixes those."""
import re
import unittest
from pathlib import Path

CRATES = Path(__file__).resolve().parents[2] / "crates"
MOST = 8
OPENING, CLOSING = "(<[{", ")>]}"


def bracketed(text: str) -> str:
    """What stands in the bracket that the text begins with."""
    depth = 0
    for at, sign in enumerate(text):
        depth += (sign in OPENING) - (sign in CLOSING)
        if depth == 0:
            return text[1:at]
    return text[1:]


def count_parts(text: str) -> int:
    """How many parts, separated by commas outside of brackets, are not blank."""
    depth, parts = 0, [""]
    for sign in text:
        depth += (sign in OPENING) - (sign in CLOSING)
        if sign == "," and depth == 0:
            parts.append("")
        else:
            parts[-1] += sign
    return sum(bool(part.strip()) for part in parts)


def parameters(source: str) -> list[tuple[str, int]]:
    """The functions of a source file, and how many parameters each has."""
    plain = re.sub(r"//.*", "", source).replace("->", "  ")
    found = []
    for head in re.finditer(r"\bfn (\w+)(?=[<(])", plain):
        rest = plain[head.end():]
        if rest.startswith("<"):
            rest = rest[len(bracketed(rest)) + 2:]
        found.append((head[1], count_parts(bracketed(rest))))
    return found


class Parameters(unittest.TestCase):
    def test_parameters_are_counted(self) -> None:
        self.assertEqual(parameters("fn none() {} // fn gone(a: u8)\n"), [("none", 0)])
        self.assertEqual(parameters("fn one<W: FnMut(u8, u8) -> A, A>(work: &mut W,) -> A {}"), [("one", 1)])
        self.assertEqual(parameters("fn two<S>(a: &[(u8, u8)], b: &Names<'_, S>) {}\nfn three(a: u8, b: u8, c: u8)"), [("two", 2), ("three", 3)])

    def test_no_function_has_more_than_eight(self) -> None:
        sources = [path for path in sorted(CRATES.glob("*/src/**/*.rt")) if path.relative_to(CRATES).parts[0] != "trap_c"]
        self.assertGreater(len(sources), 100)
        wide = [(path.name, name, count) for path in sources for name, count in parameters(path.read_text("utf-8")) if count > MOST]
        self.assertEqual(wide, [])


if __name__ == "__main__":
    unittest.main()
