# SPDX-License-Identifier: Apache-2.0
"""How names are spelled in a job, in a table and for people."""
import pytest

from press import names

pytestmark = pytest.mark.quick


@pytest.mark.parametrize("colorant, spelled", [
    (b"Cyan", "Cyan"), (b"PANTONE 185 C", "PANTONE_185_C"), (b"100% (matt)", "100___matt_"), ("Grün".encode(), "Gr__n"), (b"-dash", "_dash"),
    (b"a:b", "a_b"), (b"", "_"), (b"x" * 100, "x" * 64)])
def test_name_in_a_job(colorant: bytes, spelled: str) -> None:
    """Bytes that a name cannot have are underscores, and a name is not too long."""
    assert names.job_name(colorant, []) == spelled


def test_names_that_would_be_the_same() -> None:
    """Two colorants never have one name, also where the number makes the name too long."""
    assert names.job_names([b"a b", b"a/b", b"a:b"]) == ["a_b", "a_b_2", "a_b_3"]
    long = names.job_names([b"y" * 70, b"y" * 64])
    assert long == ["y" * 64, "y" * 62 + "_2"]


@pytest.mark.parametrize("name", [b"Warm Red", b"#5", b"tab\there", bytes(range(256)), b""])
def test_table_keeps_every_name(name: bytes) -> None:
    """A name's spelling in colorants.txt is ASCII without tabs, and gives the name back."""
    spelled = names.table_name(name)
    assert spelled.isascii() and spelled.isprintable()
    assert names.from_table(spelled) == name


@pytest.mark.parametrize("name, shown", [("Grün".encode(), "Grün"), (b"Gr\xfcn", "Gr#FCn"), (b" a b ", "#20a b#20"), (b"a\nb", "a#0Ab")])
def test_names_for_people(name: bytes, shown: str) -> None:
    """Printable text stays; other bytes, and blanks that nobody would see, are spelled out."""
    assert names.readable(name) == shown


def test_lines_for_a_terminal() -> None:
    """What would move the cursor is spelled out; bytes of a name that is no UTF-8 stay."""
    assert names.clean("a\x1b[31m\nb\u202ec") == r"a\x1b[31m\x0ab\xe2\x80\xaec"
    assert names.clean("Gr\udcfcn") == "Gr\udcfcn"
