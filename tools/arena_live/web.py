"""The page, its socket, the map and the metrics, by HTTP."""
import asyncio
import itertools
import os
import resource
from contextlib import suppress
from time import monotonic
from typing import Dict
from urllib.parse import urlsplit

from aiohttp import WSMsgType, web

from arena_live.guard import GOODBYE_SECONDS, Full, Guard
from arena_live.match import Arena
from arena_live.metrics import Metrics
from arena_live.sessions import GOODBYE, MOST_MESSAGE, Sessions

PAGE = os.path.join(os.path.dirname(os.path.abspath(__file__)), "page")
LOCAL = ("127.0.0.1", "::1", "localhost")
# The paths that are answered; all others are not found.
FILES = {
    "/": ("index.html", "text/html"),
    "/page.js": ("page.js", "text/javascript"),
    "/page.css": ("page.css", "text/css"),
    "/icon.svg": ("icon.svg", "image/svg+xml"),
}
HEADERS = {
    "Content-Security-Policy": "default-src 'none'; script-src 'self'; style-src 'self'; connect-src 'self';"
    " img-src 'self'; base-uri 'none'; form-action 'none'; frame-ancestors 'none'",
    "X-Content-Type-Options": "nosniff",
    "Referrer-Policy": "no-referrer",
    "Cache-Control": "no-cache",
}
# Messages that wait for a slow page; with more the oldest is dropped. Snapshots are whole, and the scores come again.
MOST_WAITING = 40
# Messages that a page may send in the time of a frame; one that sends more is closed.
MOST_RECEIVED = 64
# Connections at once. Where the system grants few files, so many are for the match, and for connections that are refused.
MOST_CONNECTIONS, LEAST_CONNECTIONS, OTHER_FILES = 400, 16, 160
# Connections that are taken in a row.
BACKLOG = 32


class Outbox:
    """What a page is to be sent, in order."""

    def __init__(self, metrics: Metrics, guard: Guard):
        self._metrics, self._guard = metrics, guard
        self._queue: asyncio.Queue = asyncio.Queue(MOST_WAITING)

    def put(self, message: bytes) -> None:
        if self._queue.full():
            self._queue.get_nowait()
            self._metrics.counts["arena_dropped_messages_total"] += 1
        self._queue.put_nowait(message)
        if message[:1] == GOODBYE:
            self._guard.end_soon()

    async def send_to(self, socket: web.WebSocketResponse) -> None:
        """Sends until the last message, a goodbye, or until nobody is there any more."""
        message = b""
        with suppress(OSError):
            while message[:1] != GOODBYE:
                message = await self._queue.get()
                await socket.send_bytes(message)
            await socket.close()


class Web:
    def __init__(self, ground: Arena, sessions: Sessions, metrics: Metrics):
        self._sessions, self._metrics = sessions, metrics
        self._map = b"".join(line + b"\n" for line in ground.lines)
        self._numbers = itertools.count()
        self._runner, self._server, self._bind = None, None, ""
        self._guards: Dict[asyncio.Protocol, Guard] = {}

    async def listen(self, bind: str, port: int) -> int:
        """Serves on this address, and gives the port."""
        self._bind = bind
        app = web.Application()
        app.router.add_get("/live", self._live)
        app.router.add_get("/map", self._send_map)
        app.router.add_get("/metrics", self._send_metrics)
        for path in FILES:
            app.router.add_get(path, self._send_file)
        app.on_response_prepare.append(_add_headers)
        self._runner = web.AppRunner(app, access_log=None)
        await self._runner.setup()
        self._server = await asyncio.get_running_loop().create_server(self._connection, bind, port, backlog=BACKLOG)
        return self._server.sockets[0].getsockname()[1]

    async def close(self) -> None:
        if self._server is not None:
            self._server.close()
        if self._runner is not None:
            await self._runner.server.shutdown(1)
            await self._runner.cleanup()

    def _connection(self) -> asyncio.Protocol:
        files, _ = resource.getrlimit(resource.RLIMIT_NOFILE)
        if len(self._guards) >= max(LEAST_CONNECTIONS, min(MOST_CONNECTIONS, files - OTHER_FILES)):
            self._metrics.refusals["front-full"] += 1
            return Full()
        return Guard(self._runner.server(), self._guards)

    async def _send_file(self, request: web.Request) -> web.StreamResponse:
        name, kind = FILES[request.path]
        with open(os.path.join(PAGE, name), encoding="utf-8") as file:
            return web.Response(text=file.read(), content_type=kind)

    async def _send_map(self, request: web.Request) -> web.StreamResponse:
        return web.Response(body=self._map, content_type="text/plain")

    async def _send_metrics(self, request: web.Request) -> web.StreamResponse:
        headers = {"Content-Type": "text/plain; version=0.0.4; charset=utf-8"}
        return web.Response(text=self._metrics.text(), headers=headers)

    async def _live(self, request: web.Request) -> web.StreamResponse:
        """A client of its own for each socket; a page of another site gets none."""
        if not self._is_own_page(request):
            raise web.HTTPForbidden(text="a page of another site asks for this socket\n")
        guard = self._guards.get(request.protocol)
        if guard is None:
            raise web.HTTPForbidden(text="the page is gone\n")
        socket = web.WebSocketResponse(max_msg_size=MOST_MESSAGE, compress=False, autoping=False, timeout=GOODBYE_SECONDS)
        try:
            await socket.prepare(request)
        except (OSError, ValueError):  # It is gone, or a header isn't of ASCII.
            raise web.HTTPBadRequest(text="this asks for no socket\n") from None
        guard.is_socket = True
        outbox, address = Outbox(self._metrics, guard), ("page", next(self._numbers))
        sending = asyncio.create_task(outbox.send_to(socket))
        try:
            if self._sessions.open(address, "page", outbox.put, monotonic()) is None:
                await sending
                return socket
            await self._receive(socket, address, guard)
        except OSError:
            pass  # The page is gone.
        finally:
            self._sessions.close(address)
            sending.cancel()
            guard.end_soon()  # One that reads nothing never takes what is still to be sent.
            with suppress(OSError):
                await socket.close()
        return socket

    async def _receive(self, socket: web.WebSocketResponse, address: tuple, guard: Guard) -> None:
        """Takes what a page sends until it is gone, or sends a text or so much as no page does."""
        count, until = 0, 0.0
        async for message in socket:
            now = monotonic()
            if now >= until:
                count, until = 0, now + 1 / self._sessions.hz
            count += 1
            if count > MOST_RECEIVED:
                self._metrics.refusals["front-flood"] += 1
                guard.abort()
                return
            if message.type == WSMsgType.PING:
                await socket.pong(message.data)
            elif message.type == WSMsgType.BINARY:
                self._sessions.receive(address, message.data, now)
            elif message.type != WSMsgType.PONG:
                return

    def _is_own_page(self, request: web.Request) -> bool:
        """Whether the page that asks came from here, and on a local address by a local name.

        Else a site could point a name of its own to this machine, and its page would seem to be ours.
        """
        # Not the request's `host`: where it names none, that would ask for this machine's name, and wait for an answer.
        origin, host = request.headers.get("Origin"), request.headers.get("Host", "")
        try:
            is_same = origin is None or urlsplit(origin).netloc == host
            return is_same and (self._bind not in LOCAL or urlsplit(f"//{host}").hostname in LOCAL)
        except ValueError:
            return False


async def _add_headers(_request: web.Request, response: web.StreamResponse) -> None:
    response.headers.update(HEADERS)
    if not isinstance(response, web.WebSocketResponse):
        response.force_close()
        response.headers["Connection"] = "close"
