# SPDX-License-Identifier: Apache-2.0
"""How the names of inks and files are spelled: in a job, in a table, and for people."""
import os
import re

MOST_PLATES = 16
LONGEST_NAME = 64
# The process inks: neutral density, and cyan, magenta, yellow and black in per cent.
PROCESS: dict[str, tuple[float, tuple[float, float, float, float]]] = {
    "Cyan": (0.61, (100, 0, 0, 0)),
    "Magenta": (0.76, (0, 100, 0, 0)),
    "Yellow": (0.16, (0, 0, 100, 0)),
    "Black": (1.70, (0, 0, 0, 100)),
}


def clean(text: str) -> str:
    """A text for a terminal or a log: characters that would move the cursor, colour it or break the line are
    spelled out."""
    return "".join(char if char.isprintable() or 0xDC80 <= ord(char) <= 0xDCFF else
                   "".join(f"\\x{byte:02x}" for byte in char.encode("utf-8", "surrogateescape")) for char in text)


def job_name(colorant: bytes, taken: list[str]) -> str:
    """How a job spells a colorant's name: each byte that a name cannot have is an underscore, and no two are
    the same."""
    allowed = set(range(33, 127)) - set(b"()<>[]{}/%:")
    name = "".join(chr(byte) if byte in allowed else "_" for byte in colorant)[:LONGEST_NAME] or "_"
    # A word that begins with a dash would be read as an option.
    name = "_" + name[1:] if name.startswith("-") else name
    spelled, count = name, 1
    while spelled in taken:
        count += 1
        spelled = name[:LONGEST_NAME - len(str(count)) - 1] + f"_{count}"
    return spelled


def job_names(colorants: list[bytes]) -> list[str]:
    """The names of several colorants in one job."""
    names: list[str] = []
    for colorant in colorants:
        names.append(job_name(colorant, names))
    return names


def table_name(name: bytes) -> str:
    """A name as colorants.txt has it: #xx for each byte that is no printable ASCII character, and for #."""
    return "".join(chr(byte) if 32 <= byte < 127 and byte != 35 else f"#{byte:02X}" for byte in name)


def from_table(text: str) -> bytes:
    """The name that colorants.txt spells so."""
    return re.sub(rb"#([0-9A-F]{2})", lambda found: bytes([int(found.group(1), 16)]), text.encode())


def readable(name: bytes) -> str:
    """A name as people read it: printable UTF-8 as it is, #xx for each other byte and for blanks at its ends."""
    text = name.decode("utf-8", "surrogateescape")
    first, last = len(text) - len(text.lstrip(" ")), len(text.rstrip(" "))
    return "".join(char if char.isprintable() and first <= at < last else
                   "".join(f"#{byte:02X}" for byte in char.encode("utf-8", "surrogateescape"))
                   for at, char in enumerate(text))


def file_name(path: str) -> str:
    """The last part of a path as people read it."""
    return readable(os.fsencode(os.path.basename(path)))
