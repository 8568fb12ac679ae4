"""What stands before the handler of a connection of HTTP, so that no client can keep more of the front than one request.

A handler alone reads and keeps requests faster than it answers them, and waits for one without an end.
"""
import asyncio
from typing import Dict

# Bytes of a request, and seconds in which it comes and is answered. A web socket has both behind it.
MOST_REQUEST, REQUEST_SECONDS = 1 << 14, 10
# Bytes that are read in a row, so that one that sends without end leaves time to the clock.
READ_BYTES = 1 << 11
# Seconds that a page has to take its goodbye.
GOODBYE_SECONDS = 2


class Guard(asyncio.Protocol):
    """A connection, whose handler gets its first request, and after that what comes by its web socket, if it is one."""

    def __init__(self, handler: asyncio.Protocol, guards: Dict[asyncio.Protocol, "Guard"]):
        self._handler, self._guards = handler, guards
        self._request, self._is_read, self.is_socket = bytearray(), False, False
        guards[handler] = self

    def connection_made(self, transport: asyncio.Transport) -> None:
        self._transport = transport
        transport.max_size = READ_BYTES
        self._handler.connection_made(transport)
        asyncio.get_running_loop().call_later(REQUEST_SECONDS, self._end_request)

    def _end_request(self) -> None:
        if not self.is_socket:
            self._transport.abort()

    def end_soon(self) -> None:
        asyncio.get_running_loop().call_later(GOODBYE_SECONDS, self._transport.abort)

    def abort(self) -> None:
        self._transport.abort()

    def data_received(self, data: bytes) -> None:
        if self.is_socket:
            self._handler.data_received(data)
        elif not self._is_read:
            self._request += data
            head, end, _ = self._request.partition(b"\r\n\r\n")
            self._is_read = bool(end)
            if len(head) > MOST_REQUEST:
                self._transport.abort()
            elif end:
                self._hand_on(bytes(head + end))

    def _hand_on(self, request: bytes) -> None:
        try:
            self._handler.data_received(request)
        except ValueError:  # of a path that can't be split
            self._transport.abort()

    def eof_received(self) -> None:
        self._handler.eof_received()

    def pause_writing(self) -> None:
        self._handler.pause_writing()

    def resume_writing(self) -> None:
        self._handler.resume_writing()

    def connection_lost(self, why: Exception) -> None:
        del self._guards[self._handler]
        self._handler.connection_lost(why)


class Full(asyncio.Protocol):
    """A connection that is one too many."""

    def connection_made(self, transport: asyncio.Transport) -> None:
        transport.abort()
