"""Clients: their tokens, ports and budgets, and the packets of the frame that is open.

A message of a client is its token, 16 bytes, and then

    nothing             it is still there
    a byte 0            something for the front: `00 01 SLOT` watches this slot
    any other byte      a packet, which becomes a line of the recording as it is

A message to a client is a byte for its kind and then what it says (`WELCOME`, `SNAPSHOT`, `EVENTS`, `GOODBYE`).
"""
import json
import secrets
import struct
from dataclasses import dataclass, field
from typing import Callable, Dict, Hashable, Iterable, List, Optional, Tuple

import arena
from arena_live.metrics import Metrics

TOKEN_BYTES = 16
NO_TOKEN = bytes(TOKEN_BYTES)
MOST_MESSAGE = 256
MOST_PLAYERS, MOST_WATCHERS = 64, 256
PACKETS_A_FRAME, MOVES_A_FRAME = 7, 8
# Packets of all, which is as many as the program takes in a frame: a leave of each player among them always fits.
MOST_PACKETS = 512
# Names of refusals that a client is told at once.
MOST_TOLD = 64
# A second of moves at once at the most, and no more than the time that has passed.
CREDIT_MS = 1000.0
SILENCE = 5.0
WELCOME, SNAPSHOT, EVENTS, GOODBYE = b"\x01", b"\x02", b"\x03", b"\x04"
WATCH = b"\x00\x01"


@dataclass
class Session:
    """A client. It watches until a join of it is accepted (`slot`), and holds a player's place from when it asks."""

    address: Hashable
    kind: str  # "udp", "page" or "bot"
    send: Callable[[bytes], None]
    heard: float
    is_known: bool  # whether the address is its own: a datagram may name another's, which is sent a welcome alone
    token: bytes = NO_TOKEN
    port: int = 0
    plays: bool = False
    leaves: bool = False
    slot: Optional[int] = None
    watched: int = 0
    newest: int = 0  # number of the last command that was sent on
    packets: int = 0  # in the open frame, those that weren't recorded and those of the port of before too
    moves: int = 0
    credit: float = CREDIT_MS
    credited: float = 0.0
    refusals: List[str] = field(default_factory=list)  # that the client is still to be told

    def spend(self, ms: int, now: float) -> bool:
        """Whether the client may make moves of so many milliseconds now; they are spent then."""
        self.credit = min(CREDIT_MS, self.credit + (now - self.credited) * 1000)
        self.credited = now
        if ms > self.credit:
            return False
        self.credit -= ms
        return True


class Sessions:
    """All clients, and the open frame: its packets in the order in which they came."""

    def __init__(self, metrics: Metrics, hz: int):
        self._metrics, self.hz = metrics, hz
        self._by_token: Dict[bytes, Session] = {}
        self._by_address: Dict[Hashable, Session] = {}
        self._ports: Dict[int, Session] = {}
        self._last_port = -1
        self.arrivals: List[Tuple[int, bytes]] = []
        # Ports of players of before a resume, whose clients are gone: they leave in the open frame.
        self.strangers: List[int] = []
        self.frame = 0

    def __iter__(self):
        return iter(list(self._by_address.values()))

    def of_token(self, token: bytes) -> Optional[Session]:
        return self._by_token.get(token)

    @property
    def players(self) -> int:
        return sum(session.plays for session in self._ports.values())

    @property
    def watchers(self) -> int:
        return sum(not session.plays for session in self._by_address.values())

    # What clients do.

    def open(self, address: Hashable, kind: str, send: Callable[[bytes], None], now: float) -> Optional[Session]:
        """A new client, or the one of this address, is welcomed. None where there are as many as may be."""
        session = self._by_address.get(address)
        if session is None:
            if self.watchers >= MOST_WATCHERS and kind != "bot" and not self._make_place():
                self._metrics.refusals["front-full"] += 1
                send(GOODBYE + b"full")
                return None
            session = Session(address, kind, send, now, kind != "udp", credited=now)
            self._by_address[address] = session
            self._renew(session)
        self.welcome(session)
        return session

    def _make_place(self) -> bool:
        """Takes out the client that has been there the longest without its token, which may have said hello for others."""
        unknown = next((one for one in self._by_address.values() if not one.is_known), None)
        if unknown is not None:
            self._metrics.refusals["front-full"] += 1
            self.close(unknown.address)
        return unknown is not None

    def receive(self, address: Hashable, data: bytes, now: float) -> None:
        """A message from this address; what isn't allowed is counted, and changes nothing else."""
        self._metrics.counts["arena_messages_in_total"] += 1
        self._metrics.counts["arena_bytes_in_total"] += len(data)
        session = self._by_token.get(data[:TOKEN_BYTES])
        if session is not None and session.address != address:
            session = None
        if len(data) > MOST_MESSAGE:
            self._refuse(session, "front-long")
        elif session is None:
            self._refuse(None, "front-token")
        else:
            session.heard, session.is_known = now, True
            body = data[TOKEN_BYTES:]
            if body[:1] == b"\x00":
                self._take_wish(session, body)
            elif body:
                why = self._why_not(session, body, now)
                if why is None:
                    self._add(session, body)
                else:
                    self._refuse(session, why)

    def close(self, address: Hashable) -> None:
        """The client is gone: it leaves, where it plays, and isn't heard or told anything again."""
        session = self._by_address.pop(address, None)
        if session is None:
            return
        del self._by_token[session.token]
        if session.plays:
            self._take_out(session)
        else:
            del self._ports[session.port]

    def drop_silent(self, now: float) -> None:
        """Closes the clients that were silent for too long."""
        for session in self:
            if now - session.heard > SILENCE and session.kind != "bot":
                self._refuse(None, "front-silent")
                self.say_goodbye(session, b"silent")
                self.close(session.address)

    def say_goodbye(self, session: Session, why: bytes) -> None:
        if session.is_known:
            session.send(GOODBYE + why)

    def _take_wish(self, session: Session, body: bytes) -> None:
        """One that watches chooses a slot. One that plays may not see what another one sees."""
        if not session.plays and len(body) == 3 and body[:2] == WATCH and body[2] < MOST_PLAYERS:
            session.watched = body[2]
        else:
            self._refuse(session, "front-message")

    def _why_not(self, session: Session, data: bytes, now: float) -> Optional[str]:
        """Why this packet isn't put into the open frame, or None, and then its moves are spent."""
        if session.leaves:
            return "front-leaving"
        if session.packets >= PACKETS_A_FRAME:
            return "front-packets"
        session.packets += 1
        if not session.plays:
            if data != arena.join():
                return "front-not-joined"
            if self.players >= MOST_PLAYERS:
                return "front-players"
            if not self._has_room(2):  # for its leave too
                return "front-packets"
            session.plays = True
            return None
        if data != arena.leave() and not self._has_room(1):
            return "front-packets"
        try:
            packet = arena.read_packet(data)
        except arena.PacketFault:
            return None  # The program refuses it by name.
        session.leaves = packet.kind == "leave"
        fresh = [command for command in packet.commands if command.number > session.newest]
        if fresh and session.moves + len(fresh) <= MOVES_A_FRAME:
            if not session.spend(sum(command.ms for command in fresh), now):
                return "front-time"
            session.moves += len(fresh)
            session.newest = fresh[-1].number
        return None

    def _has_room(self, packets: int) -> bool:
        """Whether the open frame has room for so many packets beside the leaves that are still to come."""
        room = MOST_PACKETS - len(self.arrivals) - len(self.strangers) - packets
        # There are no more leaves than places, so they are counted only where it is close.
        return room >= MOST_PLAYERS or room >= sum(one.plays and not one.leaves for one in self._ports.values())

    def _add(self, session: Session, data: bytes) -> None:
        self.arrivals.append((session.port, data))

    def _take_out(self, session: Session) -> None:
        """A player leaves in the open frame, if it doesn't already."""
        if not session.leaves:
            session.leaves = True
            self._add(session, arena.leave())

    def _refuse(self, session: Optional[Session], name: str) -> None:
        self._metrics.refusals[name] += 1
        if session is not None and len(session.refusals) < MOST_TOLD:
            session.refusals.append(name)

    # What a frame does.

    def take_arrivals(self) -> List[Tuple[int, bytes]]:
        """The packets of the open frame, which is closed now; each client may send as many again in the next."""
        arrivals = self.arrivals + [(port, arena.leave()) for port in self.strangers]
        self.arrivals, self.strangers = [], []
        self._metrics.counts["arena_packets_total"] += len(arrivals)
        self.frame += 1
        for session in self._ports.values():
            session.packets = session.moves = 0
        return arrivals

    def joined(self, port: int, slot: int) -> None:
        session = self._ports.get(port)
        if session is not None:
            session.slot = session.watched = slot

    def refused(self, port: int, name: str) -> None:
        """The program refused a packet of this port."""
        self._refuse(self._ports.get(port), name)

    def left(self, port: int) -> None:
        """The player of this port has left, or its join was refused: the client watches, with a new token and port."""
        session = self._ports.pop(port, None)
        # What came while the frame was played has no player any more.
        waiting = [arrival for arrival in self.arrivals if arrival[0] != port]
        self._metrics.refusals["front-token"] += len(self.arrivals) - len(waiting)
        self.arrivals = waiting
        if session is not None and self._by_address.get(session.address) is session:
            del self._by_token[session.token]
            self._renew(session)
            self.welcome(session)

    def without_slot(self, ports: Iterable[int]) -> List[int]:
        """Those of the ports with a packet in a frame that is over that asked to play in it and got no slot."""
        asking = (self._ports[port] for port in dict.fromkeys(ports) if port in self._ports)
        return [session.port for session in asking if session.plays and session.slot is None]

    def leave_all(self) -> None:
        """All that play leave, in the open frame."""
        for session in list(self._ports.values()):
            if session.plays:
                self._take_out(session)

    # What clients are told.

    def tell(self, session: Session, message: bytes) -> None:
        self._metrics.counts["arena_bytes_out_total"] += len(message)
        session.send(message)

    def tell_events(self, session: Session, told: Dict[str, object]) -> None:
        """What happened, and of the client itself its slot, or null, and its packets that were refused."""
        told = {**told, "you": session.slot}
        if session.refusals:
            told["refused"], session.refusals = session.refusals, []
        self.tell(session, EVENTS + json.dumps(told, separators=(",", ":")).encode("ascii"))

    def welcome(self, session: Session) -> None:
        """The client's token and port, frames a second, and the number of the open frame."""
        self.tell(session, WELCOME + session.token + struct.pack("<HBI", session.port, self.hz, self.frame))

    def _renew(self, session: Session) -> None:
        """A token and a port that nobody has; what was sent for the session of before isn't taken any more."""
        session.token = secrets.token_bytes(TOKEN_BYTES)
        self._last_port = next(
            port for port in ((self._last_port + step) % 65536 for step in range(1, 65537)) if port not in self._ports
        )
        session.port, session.slot, session.plays, session.leaves = self._last_port, None, False, False
        session.newest = session.moves = 0
        self._by_token[session.token] = session
        self._ports[session.port] = session
