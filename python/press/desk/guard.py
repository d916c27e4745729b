# SPDX-License-Identifier: Apache-2.0
"""Who may talk to the server: the right Host, the right origin for changes, and a token if it listens elsewhere.

Plain ASGI, so that nothing is buffered. The Host header is compared with its port, against DNS rebinding.
"""
from __future__ import annotations

import hmac
from collections.abc import Iterable
from http.cookies import SimpleCookie
from typing import Any
from urllib.parse import parse_qs

from starlette.responses import PlainTextResponse, RedirectResponse, Response
from starlette.types import ASGIApp, Message, Receive, Scope, Send

COOKIE = "press-desk"
LOOPBACK = ("127.0.0.1", "localhost", "[::1]")
SECURITY_HEADERS = [
    (b"content-security-policy", b"default-src 'self'; img-src 'self' blob: data:; style-src 'self' 'unsafe-inline';"
                                 b" connect-src 'self'; frame-ancestors 'none'; base-uri 'none'; form-action 'none'"),
    (b"x-content-type-options", b"nosniff"), (b"referrer-policy", b"no-referrer"), (b"x-frame-options", b"DENY"),
    (b"cross-origin-resource-policy", b"same-origin")]


def allowed_hosts(names: Iterable[str], port: int) -> frozenset[str]:
    """The values of Host that are this server's."""
    return frozenset(f"{name}:{port}" for name in names)


class Guard:
    """Refuses foreign hosts, changes from foreign origins, and whoever does not know the token."""

    def __init__(self, app: ASGIApp, hosts: frozenset[str], token: str | None = None) -> None:
        self.app, self.hosts, self.token = app, hosts, token

    async def __call__(self, scope: Scope, receive: Receive, send: Send) -> None:
        if scope["type"] not in ("http", "websocket"):
            await self.app(scope, receive, send)
            return
        headers = {name.decode("latin-1"): value.decode("latin-1") for name, value in scope["headers"]}
        answer = self.refusal(scope, headers)
        if answer is None:
            await self.app(scope, receive, with_headers(send))
        elif scope["type"] == "websocket":
            await receive()
            await send({"type": "websocket.close", "code": 4403})
        else:
            await answer(scope, receive, with_headers(send))

    def refusal(self, scope: Scope, headers: dict[str, str]) -> Response | None:
        """Why a request is not taken; None if it is."""
        if headers.get("host") not in self.hosts:
            return PlainTextResponse("wrong host", 403)
        changes = scope["type"] == "websocket" or scope["method"] not in ("GET", "HEAD")
        if changes and headers.get("origin", "").partition("://")[2] != headers["host"]:
            return PlainTextResponse("wrong origin", 403)
        if self.token is None or self.knows_token(headers.get("cookie", "")):
            return None
        given = parse_qs(scope.get("query_string", b"").decode("latin-1")).get("token", [""])[0]
        is_first = scope["type"] == "http" and scope["path"] == "/"
        if is_first and hmac.compare_digest(given.encode(), self.token.encode()):
            welcome = RedirectResponse("/", 303)
            welcome.set_cookie(COOKIE, self.token, httponly=True, samesite="strict", path="/")
            return welcome
        return PlainTextResponse("open the address that press/desk printed: it has the token", 403)

    def knows_token(self, cookies: str) -> bool:
        """Whether a cookie has the token."""
        jar: SimpleCookie[Any] = SimpleCookie()
        jar.load(cookies)
        held = jar[COOKIE].value if COOKIE in jar else ""
        return hmac.compare_digest(held.encode(), (self.token or "").encode())


def with_headers(send: Send) -> Send:
    """Adds the security headers to each answer."""
    async def answer(message: Message) -> None:
        if message["type"] == "http.response.start":
            message = {**message, "headers": [*message.get("headers", []), *SECURITY_HEADERS]}
        await send(message)
    return answer
