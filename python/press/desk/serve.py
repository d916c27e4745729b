# SPDX-License-Identifier: Apache-2.0
"""Starts the server: its address, its token, the browser, and an end within two seconds of a signal."""
from __future__ import annotations

import asyncio
import ipaddress
import os
import secrets
import signal
import socket
import time
import webbrowser
from collections.abc import Callable
from dataclasses import dataclass

import uvicorn

import trapping

from press import tools
from press.errors import PressError, Status, UsageError, reason
from press.files import need_folder, table_lines
from press.picture import need_profile

from .guard import LOOPBACK, allowed_hosts
from .memory import share_heaps
from .server import LEAFLET, application
from .store import Store

USUAL_PORT = 8631
SHORTEST_TOKEN = 16
SECONDS_TO_END, SECONDS_TO_KEEP = 1.0, 1.6
"""After a signal: to end answers that are under way, and to have the disk hold what is in memory."""


@dataclass(frozen=True)
class How:
    """Whether a browser is opened, and the profile of the press if there is one."""

    opens_browser: bool = True
    profile: str | None = None


@dataclass(frozen=True)
class Where:
    """The port, the address for other machines if there is one, and the file of the token."""

    port: int
    listen: str | None = None
    token_file: str | None = None

    @property
    def host(self) -> str:
        """The address that the server binds to."""
        return self.listen or "127.0.0.1"

    def token(self) -> str | None:
        """The token that browsers need; None on the loopback address."""
        if self.listen is None:
            if self.token_file:
                raise UsageError("--token goes with --listen")
            return None
        if self.token_file is None:
            return secrets.token_urlsafe(24)
        lines = table_lines(self.token_file)
        token = lines[0].strip() if lines else ""
        if len(token) < SHORTEST_TOKEN or not token.isprintable():
            raise PressError(Status.INPUT, f"a token has {SHORTEST_TOKEN} characters at least", self.token_file)
        return token

    def hosts(self) -> frozenset[str]:
        """The names by which browsers may call the server."""
        if self.listen is None:
            return allowed_hosts(LOOPBACK, self.port)
        return allowed_hosts((*LOOPBACK, bracketed(self.listen), socket.gethostname()), self.port)


def bracketed(address: str) -> str:
    """An address as a URL has it."""
    try:
        return f"[{address}]" if ipaddress.ip_address(address).version == 6 else address
    except ValueError:
        return address


class DeskServer(uvicorn.Server):  # type: ignore[misc]
    """A server that closes its WebSockets when a signal comes, since an open one would keep it from ending."""

    def __init__(self, config: uvicorn.Config, store: Store, ready: Callable[[], None]) -> None:
        super().__init__(config)
        self.should_exit: bool = False
        self.force_exit: bool = False
        self.store, self.ready = store, ready

    def install_signal_handlers(self) -> None:
        """A first signal ends the server in order, a second one at once."""
        loop = asyncio.get_running_loop()
        for number in (signal.SIGINT, signal.SIGTERM):
            loop.add_signal_handler(number, self._end)

    def _end(self) -> None:
        if self.should_exit:
            self.force_exit = True
        else:
            self.store.until = time.monotonic() + SECONDS_TO_KEEP
        self.should_exit = True
        self.store.events.stop()
        asyncio.get_running_loop().call_later(SECONDS_TO_END, self._force)

    def _force(self) -> None:
        self.force_exit = True

    async def startup(self, sockets: list[socket.socket] | None = None) -> None:
        """Says where the app is once the server answers."""
        await super().startup(sockets)
        self.ready()


def bound_socket(where: Where) -> socket.socket:
    """A socket that is bound, so that a port in use is a refusal with a line."""
    family = socket.AF_INET6 if ":" in where.host else socket.AF_INET
    # asyncio switches Nagle's algorithm off only if a socket names its protocol; with it an answer takes 40 ms more.
    made = socket.socket(family, socket.SOCK_STREAM, socket.IPPROTO_TCP)
    made.setsockopt(socket.SOL_SOCKET, socket.SO_REUSEADDR, 1)
    try:
        made.bind((where.host, where.port))
    except OSError as fault:
        made.close()
        raise PressError(Status.OUTPUT, reason(fault), f"{where.host}:{where.port}") from fault
    return made


def find_library() -> None:
    """Has the Python library find libtrap, and refuses to serve without it."""
    path = tools.library()
    if path:
        os.environ["TRAP_LIBRARY"] = path
    try:
        trapping.library_version()
    except ImportError as fault:
        how = "make library builds it" if tools.is_program(tools.FINDER) else "Debian: apt install libtrap1"
        raise PressError(Status.NO_TOOL, f"the library libtrap.so.1 is not there ({how})") from fault


def serve(folder: str, where: Where, how: How, say: Callable[[str], None]) -> None:
    """Serves a folder until a signal comes. `say` gets the line with the address."""
    need_folder(folder)
    if not os.access(folder, os.W_OK):
        raise PressError(Status.OUTPUT, "cannot be written to", folder)
    if not LEAFLET.is_dir():
        raise PressError(Status.NO_TOOL, "Leaflet is not there (Debian: apt install libjs-leaflet)")
    if how.profile:
        need_profile(how.profile)
    find_library()
    share_heaps()
    token = where.token()
    address = f"http://{bracketed(where.host)}:{where.port}/" + (f"?token={token}" if token else "")
    with bound_socket(where) as listening:
        store = Store(folder, how.profile)

        def ready() -> None:
            say(address)
            if how.opens_browser:
                webbrowser.open(address)
        config = uvicorn.Config(application(store, where.hosts(), token), log_level="warning", access_log=False,
                                timeout_keep_alive=30)
        try:
            DeskServer(config, store, ready).run([listening])
        finally:
            # Uvicorn leaves that out if an answer takes too long.
            store.close()
