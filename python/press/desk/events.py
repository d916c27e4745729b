# SPDX-License-Identifier: Apache-2.0
"""Events for all browsers: one WebSocket a browser, so that many windows do not use up its connections."""
from __future__ import annotations

import asyncio
from typing import Any

from starlette.websockets import WebSocket, WebSocketDisconnect

WAITING = 256
"""Events that wait for one slow browser; after that the browser has to ask for everything again."""


class Events:
    """The browsers that listen. `tell` may be called from any thread."""

    def __init__(self) -> None:
        self.listeners: set[asyncio.Queue[dict[str, Any] | None]] = set()
        self.loop: asyncio.AbstractEventLoop | None = None

    def start(self) -> None:
        """Notes the loop that the server runs in."""
        self.loop = asyncio.get_running_loop()

    def stop(self) -> None:
        """Closes all connections: one that is open would keep the server from ending."""
        for queue in self.listeners:
            queue.put_nowait(None)

    def tell(self, **event: Any) -> None:
        """Sends an event to every browser."""
        if self.loop and not self.loop.is_closed():
            self.loop.call_soon_threadsafe(self._put, event)

    def _put(self, event: dict[str, Any]) -> None:
        for queue in self.listeners:
            if queue.qsize() >= WAITING:
                while not queue.empty():
                    queue.get_nowait()
                queue.put_nowait({"kind": "reconnect"})
            queue.put_nowait(event)

    async def serve(self, socket: WebSocket) -> None:
        """Sends events to one browser until it goes or the server ends."""
        await socket.accept()
        queue: asyncio.Queue[dict[str, Any] | None] = asyncio.Queue()
        self.listeners.add(queue)
        gone = asyncio.ensure_future(self._wait_for_end(socket))
        try:
            while True:
                waiting = asyncio.ensure_future(queue.get())
                await asyncio.wait((waiting, gone), return_when=asyncio.FIRST_COMPLETED)
                if gone.done():
                    waiting.cancel()
                    return
                event = waiting.result()
                if event is None:
                    await socket.close(1001)
                    return
                await socket.send_json(event)
        except (WebSocketDisconnect, RuntimeError, ConnectionError):
            return
        finally:
            gone.cancel()
            self.listeners.discard(queue)

    @staticmethod
    async def _wait_for_end(socket: WebSocket) -> None:
        try:
            while True:
                await socket.receive_text()
        except (WebSocketDisconnect, RuntimeError, KeyError):
            return
