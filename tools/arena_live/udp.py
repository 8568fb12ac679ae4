"""Clients by UDP: a message is a datagram. One of 16 zero bytes asks for a token."""
import asyncio
import socket
from time import monotonic

from arena_live.metrics import Metrics
from arena_live.sessions import MOST_MESSAGE, NO_TOKEN, Sessions

# What comes while a frame is played waits in the socket; the system gives as much of this as it allows.
RECEIVE_BUFFER = 1 << 22
# Datagrams that are read in a row before anything else is looked at.
BATCH = 256


class Udp:
    """The socket. It is read by batches, since a loop turn for each datagram costs more than the datagram."""

    def __init__(self, sessions: Sessions, metrics: Metrics, bind: str, port: int):
        self._sessions, self._metrics = sessions, metrics
        family = socket.AF_INET6 if ":" in bind else socket.AF_INET
        self._socket = socket.socket(family, socket.SOCK_DGRAM)
        try:
            self._socket.setblocking(False)
            self._socket.setsockopt(socket.SOL_SOCKET, socket.SO_RCVBUF, RECEIVE_BUFFER)
            self._socket.bind((bind, port))
        except OSError:
            self._socket.close()
            raise
        asyncio.get_running_loop().add_reader(self._socket, self._read)

    @property
    def port(self) -> int:
        return self._socket.getsockname()[1]

    def close(self) -> None:
        asyncio.get_running_loop().remove_reader(self._socket)
        self._socket.close()

    def _read(self) -> None:
        now = monotonic()
        for _ in range(BATCH):
            try:
                data, address = self._socket.recvfrom(MOST_MESSAGE + 1)
            except BlockingIOError:
                return
            except OSError:
                continue  # A client's socket is gone: it falls silent, and leaves then.
            if data == NO_TOKEN:
                self._sessions.open(address, "udp", lambda message, to=address: self._send(message, to), now)
            else:
                self._sessions.receive(address, data, now)

    def _send(self, message: bytes, address) -> None:
        try:
            self._socket.sendto(message, address)
        except OSError:
            self._metrics.counts["arena_dropped_messages_total"] += 1
