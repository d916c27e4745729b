# SPDX-License-Identifier: Apache-2.0
"""The web server of the trap editor: routes, and nothing that the other modules do.

Ids are the only way to a job or a page: no name that a browser sends becomes part of a path.
"""
from __future__ import annotations

import asyncio
import json
import shutil
import struct
import time
from collections.abc import AsyncIterator, Awaitable, Callable
from contextlib import asynccontextmanager
from pathlib import Path
from typing import Any

from starlette.applications import Starlette
from starlette.background import BackgroundTask
from starlette.concurrency import run_in_threadpool
from starlette.requests import Request
from starlette.responses import FileResponse, JSONResponse, Response
from starlette.routing import Mount, Route, WebSocketRoute
from starlette.staticfiles import StaticFiles
from starlette.types import ASGIApp

import trapping

from press.errors import PressError

from .guard import Guard
from .edits_json import BadRequest
from .page import DeskPage, VersionConflict
from .page_views import MODES, Drawn, View
from .job_queue import TooMuch
from .outputs import NoSuchOutput
from .store import NoSuchThing, Store
from .uploads import SetOf

STATIC = Path(__file__).parent / "static"
LEAFLET = Path("/usr/share/javascript/leaflet")
MOST_BODY = 1 << 20
MOST_LEVEL = 20
SECONDS_OF_PART, SECONDS_OF_UPLOAD = 60.0, 3600.0

Handler = Callable[[Request], Awaitable[Response]]


def fault(status: int, text: str) -> JSONResponse:
    """A refusal as browsers get it."""
    return JSONResponse({"error": text}, status)


def answers(handler: Handler) -> Handler:
    """Turns what a handler raises into an answer with the right status."""
    async def guarded(request: Request) -> Response:
        try:
            return await handler(request)
        except (NoSuchThing, NoSuchOutput) as missing:
            return fault(404, str(missing))
        except VersionConflict as conflict:
            return fault(409, str(conflict))
        except TooMuch as beyond:
            return fault(413, str(beyond))
        except (BadRequest, json.JSONDecodeError, UnicodeDecodeError) as bad:
            return fault(400, str(bad))
        except (trapping.Refusal, PressError) as refused:
            return fault(422, str(refused))
    return guarded


def with_pixels(head: bytes, drawn: Drawn) -> Response:
    """JSON and pixels as browsers take them: the length of the JSON in four bytes, the JSON, spaces up to a multiple of
    four, and the pixels; without JSON the pixels alone. A header has the number of gaps."""
    padded = head.ljust(-(-len(head) // 4) * 4)
    body = (struct.pack("<I", len(padded)) + padded if head else b"") + drawn.pixels.tobytes()
    headers = {"cache-control": "no-store", **({} if drawn.gaps is None else {"x-gaps": str(drawn.gaps)})}
    return Response(body, 200, headers, "application/octet-stream")


async def json_body(request: Request) -> dict[str, Any]:
    """The JSON object of a request, of a bounded size."""
    body = b""
    async for part in request.stream():
        body += part
        if len(body) > MOST_BODY:
            raise BadRequest(f"the request has more than {MOST_BODY} bytes")
    said = json.loads(body or b"{}")
    if not isinstance(said, dict):
        raise BadRequest("the request is no JSON object")
    return said


async def in_time(parts: AsyncIterator[bytes], idle: float, total: float) -> AsyncIterator[bytes]:
    """The parts of an upload. Raises TooMuch if none comes for `idle` seconds, or not all in `total` seconds."""
    end = time.monotonic() + total
    try:
        while True:
            yield await asyncio.wait_for(anext(parts), min(idle, end - time.monotonic()))
    except StopAsyncIteration:
        return
    except asyncio.TimeoutError as slow:
        raise TooMuch("the file takes too long to arrive") from slow


class Server:
    """The routes over a store of jobs."""

    def __init__(self, store: Store) -> None:
        self.store = store

    # Jobs

    async def jobs(self, _: Request) -> Response:
        """All jobs with their pages."""
        return JSONResponse(await run_in_threadpool(self.store.listing))

    async def upload(self, request: Request) -> Response:
        """A file as the request's body becomes a job."""
        query = request.query_params
        upload = self.store.begin_upload(query.get("name", ""), SetOf.of_query(query))
        try:
            async for part in in_time(request.stream(), SECONDS_OF_PART, SECONDS_OF_UPLOAD):
                upload.write(part)
            return JSONResponse({"id": upload.finish()})
        finally:
            upload.close()

    async def cancel(self, request: Request) -> Response:
        """Stops a job that runs, or one page of it."""
        page = (await json_body(request)).get("page")
        if page is not None and not isinstance(page, int):
            raise BadRequest("a page is a number")
        await run_in_threadpool(self.store.cancel, request.path_params["job"], page)
        return JSONResponse({})

    # Pages

    async def page(self, request: Request) -> Response:
        """A page, its job and its edits."""
        return JSONResponse(await run_in_threadpool(self.store.page_state, request.path_params["page"]))

    async def edits(self, request: Request) -> Response:
        """New edits of a page, made on a version of it."""
        return await self._changed(request, lambda page, said: page.change(int(said["version"]), said["edits"]))

    async def undo(self, request: Request) -> Response:
        """The job before the last change."""
        return await self._changed(request, lambda page, said: page.step(int(said["version"]), True))

    async def redo(self, request: Request) -> Response:
        """The job after the last change that was undone."""
        return await self._changed(request, lambda page, said: page.step(int(said["version"]), False))

    async def _changed(self, request: Request, change: Callable[[DeskPage, dict[str, Any]], None]) -> Response:
        """Changes a page. The answer is the page; and behind it, if the request has a view, what that shows then."""
        said, key = await json_body(request), request.path_params["page"]
        view = View.of_json(said["view"]) if said.get("view") else None

        def work() -> Response:
            views = self.store.views(key)
            if view:
                views.check(view)
            try:
                change(views.page, said)
            except (KeyError, TypeError) as bad:
                raise BadRequest(f"the request lacks {bad}") from bad
            self.store.page_changed(key, is_seen=view is not None)
            state = JSONResponse(self.store.page_state(key))
            return with_pixels(bytes(state.body), views.view(view)) if view else state
        return await run_in_threadpool(work)

    async def tile(self, request: Request) -> Response:
        """A tile of a page. Its address has the page's version, so browsers keep it for ever."""
        at = request.path_params
        if at["mode"] not in MODES or at["level"] > MOST_LEVEL:
            raise NoSuchThing("no such tile")
        views, soft = self.store.views(at["page"]), "soft" in request.query_params
        body = await run_in_threadpool(views.tile, at["mode"], at["inks"], at["level"], (at["x"], at["y"]), soft)
        if body is None:
            raise NoSuchThing("no such tile")
        return Response(body, 200, {"cache-control": "private, max-age=31536000, immutable"}, "image/png")

    async def view(self, request: Request) -> Response:
        """A part of a page at 1:1, as the browser's canvas takes it."""
        view = View.of_json(await json_body(request))
        views = self.store.views(request.path_params["page"])
        return with_pixels(b"", await run_in_threadpool(views.view, view))

    async def why(self, request: Request) -> Response:
        """Why a pixel is trapped, or is not."""
        views, x, y = self.store.views(request.path_params["page"]), request.path_params["x"], request.path_params["y"]
        if x >= views.page.width or y >= views.page.height:
            raise NoSuchThing("no such pixel")
        return JSONResponse(await run_in_threadpool(views.why, x, y))

    async def approval(self, request: Request) -> Response:
        """Approves a page, or rejects it."""
        said = await json_body(request)
        key = request.path_params["page"]
        await run_in_threadpool(self.store.approve, key, said)
        return JSONResponse(await run_in_threadpool(self.store.page_state, key))

    async def notes(self, request: Request) -> Response:
        """Adds a note on a place of a page."""
        said = await json_body(request)
        key = request.path_params["page"]
        await run_in_threadpool(self.store.add_note, key, said)
        return JSONResponse(await run_in_threadpool(self.store.page_state, key))

    async def apply_to_all(self, request: Request) -> Response:
        """Applies a page's settings to the other pages of its job."""
        said = await json_body(request)
        await run_in_threadpool(self.store.apply_to_all, request.path_params["page"], said)
        return JSONResponse({})

    async def make_output(self, request: Request) -> Response:
        """Makes a file of a page, to be fetched by its key."""
        at, said = request.path_params, await json_body(request)
        key, name = await run_in_threadpool(self.store.make_output, at["page"], at["kind"], said)
        return JSONResponse({"key": key, "name": name})

    async def output(self, request: Request) -> Response:
        """A file that was made. It is removed once it was sent."""
        made = self.store.take_output(request.path_params["key"])
        after = BackgroundTask(shutil.rmtree, made.folder, ignore_errors=True)
        return FileResponse(made.path, filename=made.name, headers={"cache-control": "no-store"}, background=after)

    def routes(self) -> list[Route | WebSocketRoute | Mount]:
        """All addresses of the server."""
        page = "/api/pages/{page:str}"
        post = ["POST"]
        return [
            Route("/", index), Route("/api/jobs", answers(self.jobs)),
            Route("/api/jobs", answers(self.upload), methods=post),
            Route("/api/jobs/{job:str}/cancel", answers(self.cancel), methods=post),
            Route(page, answers(self.page)), Route(f"{page}/edits", answers(self.edits), methods=post),
            Route(f"{page}/undo", answers(self.undo), methods=post),
            Route(f"{page}/redo", answers(self.redo), methods=post),
            Route(page + "/tiles/{mode}/{version}/{inks:int}/{level:int}/{x:int}/{y:int}", answers(self.tile)),
            Route(f"{page}/view", answers(self.view), methods=post),
            Route(page + "/why/{x:int}/{y:int}", answers(self.why)),
            Route(f"{page}/approval", answers(self.approval), methods=post),
            Route(f"{page}/notes", answers(self.notes), methods=post),
            Route(f"{page}/all", answers(self.apply_to_all), methods=post),
            Route(page + "/outputs/{kind}", answers(self.make_output), methods=post),
            Route("/api/outputs/{key}", answers(self.output)),
            WebSocketRoute("/api/events", self.store.events.serve),
            Mount("/leaflet", StaticFiles(directory=LEAFLET)), Mount("/static", StaticFiles(directory=STATIC))]


async def index(_: Request) -> Response:
    """The app."""
    return FileResponse(STATIC / "index.html", headers={"cache-control": "no-cache"})


def application(store: Store, hosts: frozenset[str], token: str | None = None) -> ASGIApp:
    """The server's application, behind its guard."""
    @asynccontextmanager
    async def lifespan(_: Starlette) -> AsyncIterator[None]:
        store.events.start()
        yield
        store.events.stop()
        await run_in_threadpool(store.close)
    return Guard(Starlette(routes=Server(store).routes(), lifespan=lifespan), hosts, token)
