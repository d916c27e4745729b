# SPDX-License-Identifier: Apache-2.0
"""The pages of a farm on its own machine. GNU parallel starts a command for each page, as on other machines; here that
command is a small client of one process that has the libraries, the tables and the file open already, and makes each
page in a process of its own, which is a copy of it. What the page does, prints and ends with is that of press/all."""
from __future__ import annotations

import contextlib
import gc
import multiprocessing
import os
import re
import runpy
import selectors
import shlex
import socket
import sys
from collections.abc import Iterator, Mapping, Sequence
from dataclasses import dataclass, field
from multiprocessing.process import BaseProcess

from PIL import Image

from . import farm_client, runs, tools
from .command import LOG
from .farm_client import DIGITS, SOCKET
from .inks import Separation

PIECE_BYTES = 1 << 16
# How often it is looked whether there is memory for a page that waits for it, in seconds.
LOOK_SECONDS = 0.5


def free_memory() -> int | None:
    """The bytes of memory that this machine has to spare."""
    with open("/proc/meminfo", encoding="ascii") as file:
        found = re.search(r"^MemAvailable:\s+(\d+) kB", file.read(), re.MULTILINE)
    return int(found.group(1)) * 1024 if found else None


def page_line(folder: str, words: Sequence[str]) -> str:
    """What a shell does for a page: on the machine of the folder it asks the process there; elsewhere, or if that is
    gone, it runs the words itself."""
    place, client = shlex.quote(os.path.join(folder, SOCKET)), shlex.quote(os.path.realpath(farm_client.__file__))
    ask = f'exec {shlex.quote(sys.executable)} -I -S {client} {shlex.quote(folder)} "$@"'
    return f'set -- {shlex.join(words)}; [ ! -S {place} ] || {ask}; exec "$@"'


@dataclass(eq=False)
class Page:
    """A page that is asked for: its client, what came of the words so far, where it prints, and its process."""

    client: socket.socket
    text: bytes = b""
    handles: list[int] = field(default_factory=list)
    process: BaseProcess | None = None

    @property
    def words(self) -> list[str]:
        """The words, once they are here."""
        size, text = self.text[:DIGITS], self.text[DIGITS:]
        whole = len(size) == DIGITS and len(text) == int(size)
        return [os.fsdecode(word) for word in text.split(b"\0")] if whole else []

    def close(self) -> None:
        """Closes where it prints."""
        while self.handles:
            os.close(self.handles.pop())


class Slots:
    """The process that makes pages: it waits for clients, and starts a process for each. While pages are at work, no
    other starts unless so many bytes of memory are free."""

    def __init__(self, listener: socket.socket, environment: Mapping[str, str], memory: int) -> None:
        self.listener, self.environment, self.memory = listener, environment, memory
        self.heard = selectors.PollSelector()
        self.heard.register(listener, selectors.EVENT_READ)
        self.context = multiprocessing.get_context("fork")
        self.waiting: list[Page] = []
        self.active: list[Page] = []

    def serve(self, parent: int) -> None:
        """Serves until a signal ends it, and then ends the pages that are at work."""
        tools.begin_process(parent)
        os.environ.update(self.environment)
        # Pages share this memory so long as nothing is written there.
        gc.collect()
        gc.freeze()
        try:
            while True:
                for key, _ in self.heard.select(LOOK_SECONDS if self.waiting else None):
                    self.hear(key)
                while self.waiting and (not self.active or (free_memory() or self.memory) >= self.memory):
                    self.start(self.waiting.pop(0))
        finally:
            self.stop()

    def hear(self, key: selectors.SelectorKey) -> None:
        """A client comes, asks, or goes; or a page has ended."""
        page: Page | None = key.data
        if page is None:
            client, _ = self.listener.accept()
            self.heard.register(client, selectors.EVENT_READ, Page(client))
        elif key.fileobj is page.client:
            self.read(page)
        else:
            self.end(page)

    def read(self, page: Page) -> None:
        """What a client sends. One that goes, or is to stop, ends its page."""
        data, handles, _, _ = socket.recv_fds(page.client, PIECE_BYTES, 2)
        page.text += data
        page.handles += handles
        if data and page.words:
            self.waiting.append(page)
        elif not data:
            self.heard.unregister(page.client)
            if page.process:
                page.process.terminate()
            else:
                self.waiting = [one for one in self.waiting if one is not page]
                page.close()
                page.client.close()

    def start(self, page: Page) -> None:
        """Starts a page."""
        process = self.context.Process(target=self.make, args=(page, os.getpid()))
        with tools.signals_wait():
            process.start()
            page.process = process
        page.close()
        self.active.append(page)
        self.heard.register(process.sentinel, selectors.EVENT_READ, page)

    def make(self, page: Page, parent: int) -> None:
        """Is the command of a page."""
        for handle, place in zip(page.handles, (1, 2)):
            os.dup2(handle, place)
        # pylint: disable-next=consider-using-with
        sys.stdout, sys.stderr = (open(place, "w", buffering=how, encoding=old.encoding, closefd=False)
                                  for place, how, old in ((1, -1, sys.stdout), (2, 1, sys.stderr)))
        page.close()
        for key in self.heard.get_map().values():
            if isinstance(key.fileobj, socket.socket):
                key.fileobj.close()
        tools.begin_process(parent)
        LOG.handlers.clear()
        sys.argv[:] = page.words
        runpy.run_path(page.words[0], run_name="__main__")

    def end(self, page: Page) -> None:
        """A page has ended: its client gets the status."""
        assert page.process
        self.heard.unregister(page.process.sentinel)
        page.process.join()
        self.active.remove(page)
        with contextlib.suppress(KeyError):
            self.heard.unregister(page.client)
        with contextlib.suppress(OSError):
            page.client.sendall(b"%d" % (page.process.exitcode or 0))
        page.client.close()

    def stop(self) -> None:
        """Ends the pages that are at work, and waits until they have cleared away what they made."""
        processes = [page.process for page in self.active if page.process]
        for process in processes:
            process.terminate()
        for process in processes:
            process.join()


@contextlib.contextmanager
def slots(opened: runs.Opened, environment: Mapping[str, str], memory: int) -> Iterator[None]:
    """The process that makes the pages of a file while the block runs, by a socket in the file's scratch folder, which
    is the user's alone. Beside others a page needs so many bytes of free memory to start."""
    with contextlib.ExitStack() as stack:
        listener = stack.enter_context(socket.socket(socket.AF_UNIX, socket.SOCK_STREAM))
        handle = os.open(opened.source.folder, os.O_RDONLY)
        stack.callback(os.close, handle)
        listener.bind(f"/proc/self/fd/{handle}/{SOCKET}")
        listener.listen(socket.SOMAXCONN)
        process = multiprocessing.get_context("fork").Process(
            target=serve, args=(Slots(listener, environment, memory), opened, os.getpid()))
        with tools.signals_wait():
            process.start()
            stack.callback(process.join)
            stack.callback(process.terminate)
        yield


def serve(pages: Slots, opened: runs.Opened, parent: int) -> None:
    """Is the process that makes the pages of a file."""
    runs.OPEN_HERE.append(opened)
    prepare_for_pages(opened)
    pages.serve(parent)


def prepare_for_pages(opened: runs.Opened) -> None:
    """Does once what each page would do: the library's patterns are compiled when an ink is looked up that no table
    has, and Pillow imports its writers."""
    if opened.book:
        opened.book.ink(Separation(b"-", b"-", None, "-"))
    Image.preinit()
    Image.init()
