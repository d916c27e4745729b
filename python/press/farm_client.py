# SPDX-License-Identifier: Apache-2.0
"""Asks the process of a farm on this machine for a page: farm_client.py FOLDER WORD.. The words are those of press/all,
which takes the place of this script if that process is gone. It is started for each page, as a script, and so imports
nothing but what is built into Python."""
import posix
import sys

import _signal  # type: ignore[import]
import _socket

# The socket in the folder; and how many digits say how long the words are.
SOCKET, DIGITS = "pages", 8


def status_of(folder: str, text: bytes) -> bytes:
    """The status with which the page ended; nothing if the process is gone. A signal ends the page first."""
    asked = _socket.socket(_socket.AF_UNIX, _socket.SOCK_STREAM)
    stopped: list[int] = []

    def stop(number: int, _: object) -> None:
        stopped.append(number)
        asked.shutdown(_socket.SHUT_WR)

    # A path of its own may be too long for a socket.
    asked.connect(f"/proc/self/fd/{posix.open(folder, posix.O_RDONLY)}/{SOCKET}")
    handles = b"".join(number.to_bytes(4, sys.byteorder) for number in (1, 2))
    sent = asked.sendmsg([text], [(_socket.SOL_SOCKET, _socket.SCM_RIGHTS, handles)])
    asked.sendall(text[sent:])
    for number in (_signal.SIGINT, _signal.SIGTERM, _signal.SIGHUP):
        _signal.signal(number, stop)
    status = asked.recv(DIGITS)
    return b"%d" % (128 + stopped[0]) if stopped else status


def main(folder: str, words: list[str]) -> None:
    """Has the page made, and ends as it does."""
    text = b"\0".join(word.encode(sys.getfilesystemencoding(), "surrogateescape") for word in words)
    try:
        status = int(status_of(folder, b"%0*d" % (DIGITS, len(text)) + text))
    except (OSError, ValueError):
        posix.execv(words[0], words)
    if status < 0:
        posix.kill(posix.getpid(), -status)
    posix._exit(status)  # pylint: disable=protected-access


if __name__ == "__main__":
    main(sys.argv[1], sys.argv[2:])
