"""Reads and writes what Mustardawl reads and writes: recordings, outputs, packets and snapshots.

A module for scripts of one's own, and what those beside it stand on. It needs Python 3 alone, and not the program:

    import arena

    with arena.opened("match.demo") as file:            # `match.demo.gz` too, and `-` for standard input
        recording = arena.Recording(file)
        print(recording.map.bounds, len(recording.map.spawns))
        for frame in recording:
            for arrival in frame.arrivals:
                print(frame.number, arrival.port, arrival.data.hex())

    with arena.opened("match.out") as file:
        for frame in arena.Output(file):
            for move in frame.moves:
                print(frame.number, move.slot, move.number, move.origin, move.got)
            for slot, data in frame.snapshots.items():
                print(arena.read_snapshot(data).ammo)

    arena.packet_line(7, arena.join())                  # "from 7 0101"

Files are read line by line, as they come, so their length doesn't matter. What isn't of the format raises
`FormatError`, whose text is a sentence with the number of the line. It isn't the program's reader: which recordings
are refused, and by which fault, `arena_cli` says (`tools/why`). Lengths are in sub-units, 256 of a unit.
docs/FORMATS.md has the formats.
"""
import binascii
import contextlib
import gzip
import re
import struct
import sys
import zlib
from dataclasses import dataclass, field
from typing import BinaryIO, Dict, Iterator, List, Optional, Sequence, Tuple

UNIT = 256
PLAYERS = 64
FIRST_THING = 64
DEFAULT_BLOCKS = 1024
KINDS = ("player", "ammo", "gem", "teleporter", "goal", "lift")
# A player's body and an item's, from the origin.
PLAYER_BODY = (-4096, -4096, -6144, 4096, 4096, 8192)
ITEM_BODY = (0, 0, 0, 8192, 8192, 14336)
ON_GROUND, LEAPT = 1, 2
JUMP, SHOOT = 1, 2
MOST_MS = 50
MOST_COMMANDS = 3
HEAD_BYTES, ENTITY_BYTES = 43, 16
MOST_ENTITIES = 511
# Bytes that a line of each may have, its end beside them.
RECORDING_LINE, OUTPUT_LINE = 512, 16_500

Point = Tuple[int, int, int]
Box = Tuple[int, int, int, int, int, int]


class FormatError(ValueError):
    """Why a file isn't what it should be, as a sentence."""


class PacketFault(ValueError):
    """Why bytes are no packet: `name` is the refusal that docs/FORMATS.md names."""

    def __init__(self, name: str):
        super().__init__(name)
        self.name = name


class SnapshotFault(ValueError):
    """Why bytes are no snapshot: `name` is the fault that docs/FORMATS.md names."""

    def __init__(self, name: str):
        super().__init__(name)
        self.name = name


# Files.

GZIP = b"\x1f\x8b"
BLOCK = 1 << 20
MARKS = {
    b"\xef\xbb\xbf": "begins with a UTF-8 byte order mark; write it without one, as ASCII",
    b"\xff\xfe": "is UTF-16, and should be ASCII (`iconv -f UTF-16 -t ASCII`)",
    b"\xfe\xff": "is UTF-16, and should be ASCII (`iconv -f UTF-16 -t ASCII`)",
}


def why_not_ascii(front: bytes) -> Optional[str]:
    """What a file with these first bytes is, where that is another encoding than ASCII."""
    for mark, why in MARKS.items():
        if front.startswith(mark):
            return why
    if len(front) >= 4 and not any(front):
        return "begins with zero bytes, so it is no text"
    if len(front) >= 4 and (front[1::2].count(0) == len(front) // 2 or front[::2].count(0) == (len(front) + 1) // 2):
        return MARKS[b"\xff\xfe"]
    return None


def printable(data: bytes) -> str:
    """Bytes as text of printable ASCII alone, so that none of them reaches a terminal as a control byte."""
    text = data.decode("latin-1")
    if text.isascii() and text.isprintable() and "\\" not in text:
        return text
    return "".join("\\\\" if c == "\\" else c if " " <= c <= "~" else f"\\x{ord(c):02x}" for c in text)


# What reading a file, or unpacking it, may raise.
_READING = (OSError, EOFError, zlib.error)


def _cause(why: Exception) -> str:
    if isinstance(why, IsADirectoryError):
        return "is a folder"
    if isinstance(why, (gzip.BadGzipFile, EOFError, zlib.error)):
        return f"can't be unpacked: {why}"
    return f"can't be read: {getattr(why, 'strerror', None) or why}"


@contextlib.contextmanager
def opened(path: str, any_encoding: bool = False) -> Iterator[BinaryIO]:
    """The bytes of a file, or of standard input for `-`, unpacked where they are packed by gzip.

    A file that can't be opened raises `FormatError`, and so does one in UTF-16 or with a byte order mark, unless any
    encoding is wanted.
    """
    name = "standard input" if path == "-" else path
    with contextlib.ExitStack() as stack:
        try:
            if path == "-" and sys.stdin is None:
                raise FormatError("standard input is closed")
            file = sys.stdin.buffer if path == "-" else stack.enter_context(open(path, "rb"))
            if file.peek(2)[:2] == GZIP:
                file = stack.enter_context(gzip.open(file, "rb"))
            why = why_not_ascii(file.peek(8)[:8])
        except _READING as error:
            raise FormatError(f"{name} {_cause(error)}") from None
        if why and not any_encoding:
            raise FormatError(f"{name} {why}")
        yield file


def read_bytes(path: str, any_encoding: bool = False, most: int = -1) -> bytes:
    """All bytes of a file, as `opened` gives them, or so many of them at most.

    They are read by blocks, so that a signal is heard between two of a file without an end.
    """
    blocks, left = [], most
    with opened(path, any_encoding) as file:
        try:
            while left != 0 and (block := file.read(BLOCK if left < 0 else min(BLOCK, left))):
                blocks.append(block)
                left -= len(block) if left > 0 else 0
        except _READING as error:
            raise FormatError(f"{path} {_cause(error)}") from None
    return b"".join(blocks)


def _name(file: BinaryIO) -> str:
    name = getattr(file, "name", None)
    return name if isinstance(name, str) and name != "<stdin>" else "the file"


def parts(file: BinaryIO, most: int) -> Iterator[bytes]:
    """The lines of a file with their line feeds, where one of more bytes comes in parts."""
    while True:
        try:
            part = file.readline(most)
        except _READING as error:
            raise FormatError(f"{_name(file)} {_cause(error)}") from None
        if not part:
            return
        yield part


class _Lines:
    """The lines of a file, each without its line feed, with the number of the last one that was read."""

    def __init__(self, file: BinaryIO, most: int, drops_return: bool):
        self.file, self.most, self.drops_return = file, most, drops_return
        self.number = 0
        # Whether the last line that was read had no line feed.
        self.is_cut = False

    def next(self) -> Optional[bytes]:
        try:
            line = self.file.readline(self.most + 1)
        except _READING as error:
            raise FormatError(f"after line {self.number} the file {_cause(error)}") from None
        if not line:
            return None
        self.number += 1
        if line.endswith(b"\n"):
            line = line[:-1]
        elif len(line) > self.most:
            raise self.fault(f"it has more than {self.most} bytes")
        else:
            self.is_cut = True
        return line[:-1] if self.drops_return and line.endswith(b"\r") else line

    def fault(self, why: str) -> FormatError:
        return FormatError(f"line {self.number}: {why}")


# No number of a file has more digits than these.
NUMBER = re.compile(rb"0|-?[1-9][0-9]{0,19}")


def _integer(word: bytes) -> int:
    if not NUMBER.fullmatch(word):
        raise ValueError(f"{printable(word[:40])!r} is no number")
    return int(word)


def _integers(words: Sequence[bytes], count: int) -> List[int]:
    if len(words) != count:
        raise ValueError(f"{count} numbers are wanted, and there are {len(words)} fields")
    return [_integer(word) for word in words]


# Maps.


@dataclass(frozen=True)
class Thing:
    """An item, a teleporter, a goal or a lift: `box` is its body, that of a lift at its lowest place."""

    id: int
    kind: str  # one of KINDS but the first
    box: Box
    delay: int = 0  # of an item: frames until it returns
    destination: Optional[Point] = None  # of a teleporter
    rise: int = 0  # of a lift
    speed: int = 0

    @property
    def name(self) -> str:
        return f"{self.kind} {self.id}"

    @property
    def origin(self) -> Point:
        return self.box[:3]


@dataclass
class Map:
    """The lines of a recording before its first frame."""

    bounds: Optional[Box] = None
    depth: int = 4
    shots: bool = False
    most_blocks: int = DEFAULT_BLOCKS
    blocks: List[Box] = field(default_factory=list)
    spawns: List[Point] = field(default_factory=list)
    things: List[Thing] = field(default_factory=list)

    def take(self, line: bytes) -> None:
        """Takes one line, without its end. It raises ValueError where the line isn't one of a map."""
        word, *fields = line.split(b" ")
        if (self.bounds is None) != (word == b"arena"):
            raise ValueError("the line `arena` comes first, and only there")
        if word == b"arena":
            self.bounds = tuple(_integers(fields, 6))
        elif word == b"block":
            self.blocks.append(tuple(_integers(fields, 6)))
        elif word == b"spawn":
            self.spawns.append(tuple(_integers(fields, 3)))
        elif word == b"depth":
            (self.depth,) = _integers(fields, 1)
        elif word == b"shots" and not fields:
            self.shots = True
        elif word == b"blocks":
            (self.most_blocks,) = _integers(fields, 1)
        else:
            self.things.append(self._thing(word, fields))

    def _thing(self, word: bytes, fields: Sequence[bytes]) -> Thing:
        number = FIRST_THING + len(self.things)
        if word == b"item" and len(fields) == 5 and fields[3] in (b"ammo", b"gem"):
            *origin, delay = _integers([*fields[:3], fields[4]], 4)
            box = tuple(origin[axis % 3] + ITEM_BODY[axis] for axis in range(6))
            return Thing(number, fields[3].decode(), box, delay=delay)
        if word == b"teleport":
            numbers = _integers(fields, 9)
            return Thing(number, "teleporter", tuple(numbers[:6]), destination=tuple(numbers[6:]))
        if word == b"goal":
            return Thing(number, "goal", tuple(_integers(fields, 6)))
        if word == b"lift":
            numbers = _integers(fields, 8)
            return Thing(number, "lift", tuple(numbers[:6]), rise=numbers[6], speed=numbers[7])
        raise ValueError(f"{printable(line_front(word))!r} begins no line of a map")

    def thing(self, number: int) -> Thing:
        """The thing with this id."""
        return self.things[number - FIRST_THING]


def line_front(line: bytes) -> bytes:
    return line[:60] + (b".." if len(line) > 60 else b"")


# Packets.


@dataclass(frozen=True)
class Command:
    """One command of a player: it becomes a move. The wish is in units a second."""

    number: int
    ms: int
    wish_x: int
    wish_y: int
    buttons: int = 0

    @property
    def jumps(self) -> bool:
        return bool(self.buttons & JUMP)

    @property
    def shoots(self) -> bool:
        return bool(self.buttons & SHOOT)


@dataclass(frozen=True)
class Packet:
    """What a packet says. `kind` is 'join', 'leave' or 'move'; a move has commands, the oldest first."""

    kind: str
    version: int = 1
    commands: Tuple[Command, ...] = ()


PACKET_KINDS = {1: "join", 2: "move", 3: "leave"}
_COMMAND = struct.Struct("<BhhB")


def read_packet(data: bytes) -> Packet:
    """What a packet's bytes say. Bytes that are no packet raise `PacketFault`, for the first fault that holds."""
    if not data:
        raise PacketFault("Empty")
    version = data[0]
    if version not in (1, 2):
        raise PacketFault("Version")
    if len(data) >= 2 and (data[1] not in PACKET_KINDS or version == 2 and data[1] != 2):
        raise PacketFault("Kind")
    if len(data) < 2 or version == 2 and len(data) < 7:
        raise PacketFault("Short")
    kind = PACKET_KINDS[data[1]]
    count = min(data[6], MOST_COMMANDS) if version == 2 else 1
    first = 6 if version == 1 else 7
    size = 2 if kind != "move" else first + _COMMAND.size * count
    if len(data) != size:
        raise PacketFault("Short" if len(data) < size else "Long")
    if kind != "move":
        return Packet(kind)
    (newest,) = struct.unpack_from("<I", data, 2)
    fields = [_COMMAND.unpack_from(data, first + _COMMAND.size * place) for place in range(count)]
    if not all(1 <= ms <= MOST_MS for ms, _, _, _ in fields):
        raise PacketFault("Time")
    if any(buttons >= 1 << version for _, _, _, buttons in fields):
        raise PacketFault("Buttons")
    if version == 2 and (not 1 <= data[6] <= MOST_COMMANDS or data[6] - 1 > newest):
        raise PacketFault("Count")
    oldest = newest - (count - 1)
    return Packet(kind, version, tuple(Command(oldest + place, *values) for place, values in enumerate(fields)))


def join() -> bytes:
    return b"\x01\x01"


def leave() -> bytes:
    return b"\x01\x03"


def move(command: Command) -> bytes:
    """A packet of version 1 with one command, which can't shoot."""
    values = _COMMAND.pack(command.ms, command.wish_x, command.wish_y, command.buttons)
    return b"\x01\x02" + struct.pack("<I", command.number) + values


def moves(commands: Sequence[Command]) -> bytes:
    """A packet of version 2 with one to three commands, whose numbers follow each other, the oldest first."""
    numbers = [command.number for command in commands]
    if not 1 <= len(numbers) <= MOST_COMMANDS or numbers != list(range(numbers[0], numbers[0] + len(numbers))):
        raise ValueError("a packet has one to three commands with numbers that follow each other")
    blocks = [_COMMAND.pack(command.ms, command.wish_x, command.wish_y, command.buttons) for command in commands]
    return b"\x02\x02" + struct.pack("<IB", numbers[-1], len(numbers)) + b"".join(blocks)


def write_packet(packet: Packet) -> bytes:
    """The bytes of a packet: `read_packet` gives it again."""
    if packet.kind == "join":
        return join()
    if packet.kind == "leave":
        return leave()
    return moves(packet.commands) if packet.version == 2 else move(*packet.commands)


def packet_line(port: int, data: bytes) -> str:
    """The line of a recording with this packet, without its line feed."""
    return f"from {port} {data.hex() or '-'}"


# Snapshots.


@dataclass(frozen=True)
class Entity:
    """One that a snapshot shows. The status is 0 for an item that is taken."""

    id: int
    kind: str
    status: int
    origin: Point


@dataclass(frozen=True)
class Snapshot:
    """What a player is shown after a frame: its own state, and what it sees."""

    frame: int
    slot: int
    origin: Point
    velocity: Point
    flags: int
    ammo: int
    carry: int
    score: int
    number: int  # the sequence number of its last move, 0 if it made none
    count: int  # of entities
    entities: Tuple[Entity, ...] = ()

    @property
    def was_on_ground(self) -> bool:
        return bool(self.flags & ON_GROUND)

    @property
    def has_leapt(self) -> bool:
        return bool(self.flags & LEAPT)


_HEAD = struct.Struct("<BIB6iBBBIIH")
_ENTITY = struct.Struct("<HBB3i")


def read_head(data: bytes) -> Snapshot:
    """The first 43 bytes of a snapshot, without its entities and nearly untested: quick, for long outputs."""
    if len(data) < HEAD_BYTES:
        raise SnapshotFault("Short")
    version, frame, slot, x, y, z, vx, vy, vz, flags, ammo, carry, score, number, count = _HEAD.unpack_from(data)
    if version != 1:
        raise SnapshotFault("Version")
    return Snapshot(frame, slot, (x, y, z), (vx, vy, vz), flags, ammo, carry, score, number, count)


def has_limits(head: Snapshot) -> bool:
    """Whether what a snapshot says of its own player is within the limits."""
    return head.slot < PLAYERS and head.flags <= 3 and head.ammo <= 100 and head.carry <= 8


def read_snapshot(data: bytes) -> Snapshot:
    """What a snapshot's bytes say. Bytes that are none raise `SnapshotFault`, for the first fault that holds."""
    if len(data) < HEAD_BYTES or len(data) < HEAD_BYTES + ENTITY_BYTES * _HEAD.unpack_from(data)[-1]:
        raise SnapshotFault("Short")
    head = read_head(data)
    rows = [_ENTITY.unpack_from(data, HEAD_BYTES + ENTITY_BYTES * place) for place in range(head.count)]
    ids = [row[0] for row in rows]
    if any(one >= other for one, other in zip(ids, ids[1:])) or head.slot in ids:
        raise SnapshotFault("Order")
    is_in_limits = head.count <= MOST_ENTITIES and has_limits(head)
    for number, kind, status, *_ in rows:
        is_status = status == 1 or status == 0 and kind in (1, 2)
        is_in_limits = is_in_limits and number <= 511 and kind < len(KINDS) and is_status
    if not is_in_limits:
        raise SnapshotFault("Count")
    if len(data) > HEAD_BYTES + ENTITY_BYTES * head.count:
        raise SnapshotFault("Long")
    entities = tuple(Entity(number, KINDS[kind], status, (x, y, z)) for number, kind, status, x, y, z in rows)
    return Snapshot(**{**head.__dict__, "entities": entities})


# Recordings.


@dataclass(frozen=True)
class Arrival:
    """A packet as it came from a port, and the number of its line."""

    port: int
    data: bytes
    line: int


@dataclass
class RecordedFrame:
    number: int
    line: int
    arrivals: List[Arrival] = field(default_factory=list)


def _arrival(fields: Sequence[bytes], line: int) -> Arrival:
    if len(fields) != 2:
        raise ValueError("a port and a packet are wanted")
    port = _integer(fields[0])
    if not 0 <= port <= 65535:
        raise ValueError("a port is 0 to 65,535")
    try:
        return Arrival(port, b"" if fields[1] == b"-" else binascii.unhexlify(fields[1]), line)
    except binascii.Error:
        raise ValueError("the packet isn't hexadecimal") from None


class Recording:
    """A recording: its map is read at once, and its frames as they are asked for, once.

    `has_ended` says whether the line `end` was come to; a recording that ends before it has given all of its frames,
    the last one with the packets that were there.
    """

    def __init__(self, file: BinaryIO):
        self._lines = _Lines(file, RECORDING_LINE + 2, drops_return=True)
        self.map = Map()
        self._frames = 0
        self._next = self._read_map()
        self.has_ended = self._next == b"end"
        if self.map.bounds is None:
            raise FormatError("there is no line of an arena, so it is no recording")

    def _read_map(self) -> Optional[bytes]:
        while (line := self._lines.next()) not in (None, b"frame", b"end"):
            try:
                self.map.take(line)
            except ValueError as why:
                raise self._lines.fault(f"{why}") from None
        return line

    @property
    def line(self) -> int:
        """The number of the last line that was read."""
        return self._lines.number

    def __iter__(self) -> Iterator[RecordedFrame]:
        while self._next == b"frame":
            frame = RecordedFrame(self._frames, self.line)
            self._next = self._read_frame(frame)
            self._frames += 1
            self.has_ended = self._next == b"end"
            yield frame

    def _read_frame(self, frame: RecordedFrame) -> Optional[bytes]:
        """Reads the frame's packets, and gives the line after them."""
        while (line := self._lines.next()) not in (None, b"frame", b"end"):
            word, *fields = line.split(b" ")
            try:
                if word != b"from":
                    raise ValueError(f"{printable(line_front(line))!r} is no line of a frame")
                frame.arrivals.append(_arrival(fields, self.line))
            except ValueError as why:
                raise self._lines.fault(f"{why}") from None
        return line

    def rest(self) -> Iterator[bytes]:
        """The lines after `end`, once all frames were asked for."""
        lines = _Lines(self._lines.file, OUTPUT_LINE, drops_return=False)
        while (line := lines.next()) is not None:
            yield line


# Outputs.


@dataclass(frozen=True)
class Move:
    """A `did` line: a move of the journal. `got` has the ids of items, and first the slot of a player that was hit."""

    slot: int
    number: int
    origin: Point
    got: Tuple[int, ...] = ()

    @property
    def hit(self) -> Optional[int]:
        return self.got[0] if self.got and self.got[0] < PLAYERS else None

    @property
    def taken(self) -> Tuple[int, ...]:
        return self.got if self.hit is None else self.got[1:]


@dataclass
class PlayedFrame:
    """The lines of one frame. `arrivals` are the `from` lines that `feed` writes, and `snapshots` the bytes by slot."""

    number: int
    line: int
    arrivals: List[Arrival] = field(default_factory=list)
    refusals: Dict[int, str] = field(default_factory=dict)  # the names by the places of the packets
    joins: Dict[int, int] = field(default_factory=dict)  # the slots by the ports
    moves: List[Move] = field(default_factory=list)
    snapshots: Dict[int, bytes] = field(default_factory=dict)

    def take(self, line: bytes, number: int) -> None:
        """Takes a line without its end. It raises ValueError where it isn't one of a frame."""
        word, *fields = line.split(b" ")
        if word == b"to" and len(fields) == 2:
            self.snapshots[_slot(fields[0])] = binascii.unhexlify(fields[1])
        elif word == b"did" and len(fields) == 6:
            got = () if fields[5] == b"-" else tuple(_integer(thing) for thing in fields[5].split(b","))
            self.moves.append(Move(_slot(fields[0]), _integer(fields[1]), tuple(_integers(fields[2:5], 3)), got))
        elif word == b"no" and len(fields) == 2:
            self.refusals[_integer(fields[0])] = printable(fields[1])
        elif word == b"joined" and len(fields) == 2:
            self.joins[_integer(fields[0])] = _slot(fields[1])
        elif word == b"from":
            self.arrivals.append(_arrival(fields, number))
        else:
            raise ValueError(f"{printable(line_front(line))!r} is no line of a frame")


def _slot(word: bytes) -> int:
    slot = _integer(word)
    if not 0 <= slot < PLAYERS:
        raise ValueError(f"a slot is 0 to {PLAYERS - 1}")
    return slot


class Output:
    """The output of `play` or `feed`: its frames as they are asked for, once.

    `frames` is the number that the line `end` says, or None where that line wasn't come to. A line that is cut, as a
    write fault leaves it, isn't read, and `is_cut` says so.
    """

    def __init__(self, file: BinaryIO):
        self._lines = _Lines(file, OUTPUT_LINE, drops_return=False)
        self.frames: Optional[int] = None

    @property
    def line(self) -> int:
        return self._lines.number

    @property
    def is_cut(self) -> bool:
        return self._lines.is_cut

    def __iter__(self) -> Iterator[PlayedFrame]:
        frame, count = None, 0
        while (line := self._lines.next()) is not None and not self.is_cut:
            try:
                if line.startswith((b"frame ", b"end ")):
                    if frame is not None:
                        yield frame
                    (number,) = _integers(line.split(b" ")[1:], 1)
                    if number != count:
                        raise ValueError(f"it has the number {number}, after {count} frames")
                    if line.startswith(b"end "):
                        self.frames = number
                        return
                    frame, count = PlayedFrame(number, self.line), count + 1
                elif frame is None:
                    front = printable(line_front(line))
                    raise ValueError(f"{front!r} is no line `frame K` or `end K`, so it is no output")
                else:
                    frame.take(line, self.line)
            except ValueError as why:
                raise self._lines.fault(f"{why}") from None
        if frame is not None:
            yield frame


def ports_by_slot(frame: PlayedFrame, before: Dict[int, int]) -> Dict[int, int]:
    """The ports of a frame's players by their slots, from those of the frame before it."""
    joined = {slot: port for port, slot in frame.joins.items()}
    return {slot: joined.get(slot, before.get(slot, -1)) for slot in frame.snapshots}
