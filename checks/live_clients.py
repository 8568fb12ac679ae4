"""Clients of the live front by UDP, for `checks/live`: honest ones over a bad line, and others that aren't."""
import asyncio
import json
import math
import random
import struct
import sys
from collections import Counter
from dataclasses import dataclass, field
from time import monotonic
from typing import Dict, List, Optional, Tuple

import common  # noqa: F401  (the folder of arena.py)
import arena

TOKEN_BYTES = 16
NO_TOKEN = bytes(TOKEN_BYTES)
WELCOME, SNAPSHOT, EVENTS = b"\x01", b"\x02", b"\x03"
STEP_SECONDS = 0.05
STEP_MS = 50


@dataclass
class Line:
    """A line that loses, doubles or swaps one of three datagrams, and else hands them on."""

    rng: random.Random
    is_bad: bool = True
    sent: int = 0
    held: Optional[bytes] = None
    fates: Counter = field(default_factory=Counter)

    def through(self, datagram: bytes) -> List[bytes]:
        """What arrives of a datagram, in this order."""
        self.sent += 1
        held, self.held = self.held, None
        rest = [] if held is None else [held]
        if not self.is_bad or self.sent % 3:
            return [datagram, *rest]
        fate = self.rng.choice(["lost", "doubled", "swapped"])
        self.fates[fate] += 1
        if fate == "swapped":
            self.held = datagram
        return rest + {"lost": [], "doubled": [datagram, datagram], "swapped": []}[fate]


class Client(asyncio.DatagramProtocol):
    """A client with a socket of its own. It says hello until it is welcomed, and joins until it has a slot."""

    def __init__(self, name: str, rng: random.Random, line: Line, keeps: bool = False):
        self.name, self.rng, self.line = name, rng, line
        self.heading = rng.randrange(360)
        self.transport: Optional[asyncio.DatagramTransport] = None
        self.token, self.port, self.slot = NO_TOKEN, None, None
        self.commands: List[arena.Command] = []
        self.sent_at: Dict[int, float] = {}
        self.latencies: List[float] = []
        self.shown = 0  # the number of the last command that a snapshot has shown
        self.frames = 0
        self.refused: Counter = Counter()
        # What was seen, as (frame, slot, snapshot), where it is wanted.
        self.seen: Optional[List[Tuple[int, int, bytes]]] = [] if keeps else None

    def connection_made(self, transport) -> None:
        self.transport = transport

    def datagram_received(self, data: bytes, _address) -> None:
        kind, body = data[:1], data[1:]
        if kind == WELCOME and self.slot is None:
            self.token = body[:TOKEN_BYTES]
            (self.port,) = struct.unpack_from("<H", body, TOKEN_BYTES)
        elif kind == SNAPSHOT:
            self._see(body)
        elif kind == EVENTS:
            told = json.loads(body)
            self.refused.update(told.get("refused", []))
            if told["you"] is not None:
                self.slot = told["you"]

    def error_received(self, why: OSError) -> None:
        """The front isn't there (any more)."""

    def _see(self, body: bytes) -> None:
        head = arena.read_head(body)
        self.frames += 1
        if self.seen is not None:
            self.seen.append((head.frame, head.slot, body))
        if head.slot == self.slot and head.number > self.shown:
            now = monotonic()
            numbers = range(self.shown + 1, head.number + 1)
            self.latencies += [now - self.sent_at[number] for number in numbers if number in self.sent_at]
            self.shown = head.number

    def send(self, packet: bytes) -> None:
        for datagram in self.line.through(self.token + packet):
            self.transport.sendto(datagram)

    async def enter(self, until: float) -> None:
        while self.token == NO_TOKEN and monotonic() < until:
            self.transport.sendto(NO_TOKEN)
            await asyncio.sleep(0.2)
        while self.slot is None and monotonic() < until:
            self.send(arena.join())
            await asyncio.sleep(0.25)

    def step(self) -> None:
        """The next command, with the two before it."""
        angle = self.heading + 40 * (len(self.commands) // 30)
        x, y = (round(320 * part) for part in direction(angle))
        number = len(self.commands) + 1
        self.commands.append(arena.Command(number, STEP_MS, x, y, arena.JUMP if self.rng.random() < 0.05 else 0))
        self.sent_at[number] = monotonic()
        self.send(arena.moves(self.commands[-3:]))

    async def play(self, until: float) -> None:
        """A command every 50 milliseconds, and at the end the last ones again until they are shown."""
        await self.enter(until)
        # Clients' clocks don't go together.
        due = monotonic() + self.rng.uniform(0, STEP_SECONDS)
        await asyncio.sleep(due - monotonic())
        while due < until:
            self.step()
            due += STEP_SECONDS
            await asyncio.sleep(max(0, due - monotonic()))
        for _ in range(40):
            if self.shown == len(self.commands):
                return
            self.send(arena.moves(self.commands[-3:]))
            await asyncio.sleep(STEP_SECONDS)

    async def flood(self, until: float) -> None:
        """Ten packets of one new command of 50 milliseconds each, every 20 milliseconds."""
        await self.enter(until)
        number = 0
        while monotonic() < until:
            for _ in range(10):
                number += 1
                self.transport.sendto(self.token + arena.moves([arena.Command(number, STEP_MS, 320, 0)]))
            await asyncio.sleep(0.02)


def direction(degrees: float) -> Tuple[float, float]:
    return math.cos(math.radians(degrees)), math.sin(math.radians(degrees))


async def connect(port: int, client: Client) -> Client:
    loop = asyncio.get_running_loop()
    await loop.create_datagram_endpoint(lambda: client, remote_addr=("127.0.0.1", port))
    return client


async def malform(port: int, victim: Client, until: float, rng: random.Random) -> int:
    """A thousand datagrams a second that no client should send; gives how many."""
    loop = asyncio.get_running_loop()
    transport, _ = await loop.create_datagram_endpoint(asyncio.DatagramProtocol, remote_addr=("127.0.0.1", port))
    sent, due = 0, monotonic()
    while due < until:
        for _ in range(10):
            transport.sendto(malformed(victim, rng))
        # One of ten comes from a client with its token: the program refuses it by name.
        victim.transport.sendto(victim.token + rng.randbytes(rng.randrange(1, 40)))
        sent += 11
        due += 0.01
        await asyncio.sleep(max(0, due - monotonic()))
    transport.close()
    return sent


def malformed(victim: Client, rng: random.Random) -> bytes:
    kind = rng.randrange(4)
    if kind == 0:
        return rng.randbytes(rng.randrange(0, 400))
    if kind == 1:  # another's token, from this address
        return victim.token + arena.moves([arena.Command(1 << 20, STEP_MS, 320, 0)])
    if kind == 2:  # a token that nobody has
        return rng.randbytes(TOKEN_BYTES) + arena.join()
    return victim.token[: rng.randrange(TOKEN_BYTES)]


@dataclass
class Report:
    """What the clients of a run did and got, for the check that compares it with what was saved."""

    commands: Dict[int, List[Tuple[int, int, int, int, int]]]  # of honest clients, by port
    shown: Dict[int, int]
    latencies: List[float]
    vanished: List[int]  # ports
    flooding: List[int]
    malformed: int
    fates: Dict[str, int]
    refused: Dict[str, int]  # packets of honest clients
    frames: int  # snapshots that they got

    def write(self) -> None:
        json.dump(self.__dict__, sys.stdout)


async def crowd(port: int, seconds: float, seed: int) -> Report:
    """64 players: 48 honest ones, 8 that vanish, 8 that flood; 8 more honest ones get the places of the vanished."""
    rng = random.Random(seed)
    begin = monotonic()
    until = begin + seconds
    vanishing = begin + seconds / 4

    async def client(name: str, is_bad: bool = True) -> Client:
        own = random.Random(rng.random())
        return await connect(port, Client(name, own, Line(own, is_bad)))

    honest = [await client(f"honest {number}") for number in range(48)]
    vanishers = [await client(f"vanisher {number}") for number in range(8)]
    flooders = [await client(f"flooder {number}", False) for number in range(8)]
    sloppy = flooders[0]
    tasks = [asyncio.create_task(one.play(until)) for one in honest]
    tasks += [asyncio.create_task(one.play(vanishing)) for one in vanishers]
    tasks += [asyncio.create_task(one.flood(until)) for one in flooders]
    malforming = asyncio.create_task(malform(port, sloppy, until, rng))
    await asyncio.sleep(max(0, vanishing + 7 - monotonic()))
    for one in vanishers:
        one.transport.close()
    late = [await client(f"late {number}") for number in range(8)]
    tasks += [asyncio.create_task(one.play(until)) for one in late]
    await asyncio.gather(*tasks)
    count = await malforming
    honest += late
    fates, refused = Counter(), Counter()
    for one in honest:
        fates += one.line.fates
        refused += one.refused
    return Report(
        commands={one.port: [tuple(command.__dict__.values()) for command in one.commands] for one in honest},
        shown={one.port: one.shown for one in honest},
        latencies=[latency for one in honest for latency in one.latencies],
        vanished=[one.port for one in vanishers],
        flooding=[one.port for one in flooders],
        malformed=count,
        fates=fates,
        refused=refused,
        frames=sum(one.frames for one in honest),
    )


if __name__ == "__main__":
    asyncio.run(crowd(int(sys.argv[1]), float(sys.argv[2]), int(sys.argv[3]))).write()
