"""A match as it ran, frame by frame: what `replay` and `stats` know of a recording and its output beyond their lines.

`frames` goes through both at once. A player's damage and who is down follow from the journals (docs/FORMATS.md,
"Shots"), and so does which items are away. A lift goes by itself where no player is near; where one is, its snapshot
shows the lift.
"""
import struct
from dataclasses import dataclass, field
from typing import Dict, Iterable, Iterator, List, Optional, Tuple

import arena

DAMAGE, FALL, DOWN_FRAMES = 25, 100, 40
UP, DOWN = 1, -1


@dataclass(frozen=True)
class Shot:
    """A shot that hit: where it went from and to, and whether who was hit fell."""

    slot: int
    hit: int
    origin: arena.Point
    end: arena.Point
    is_fall: bool


@dataclass(frozen=True)
class Event:
    """What a list of events tells. `kind` is one of the names below; `what` says more, or is None."""

    frame: int
    kind: str  # joined, left, item, hit, fell, scored, leapt
    slot: int
    what: Optional[int] = None  # the port, the thing's id, who was hit, by whom it fell, how much


@dataclass
class Player:
    port: int
    origin: arena.Point = (0, 0, 0)
    state: int = 0  # the damage, or 100 and the frame from which it may move
    score: int = 0
    falls: int = 0  # that it made, each of which is one of its score


@dataclass
class Frame:
    """One frame: its packets, its lines, the heads of its snapshots by slot, and what follows from them."""

    number: int
    arrivals: List[arena.Arrival]
    played: arena.PlayedFrame
    heads: Dict[int, arena.Snapshot]
    ports: Dict[int, int]
    down: List[int] = field(default_factory=list)
    shots: List[Shot] = field(default_factory=list)
    events: List[Event] = field(default_factory=list)
    away: Dict[int, int] = field(default_factory=dict)  # items that are away, and the frame in which each returns
    heights: Dict[int, int] = field(default_factory=dict)  # of the lifts, above their lowest place


class Lift:
    """A lift's height, as it goes by itself and as snapshots show it."""

    def __init__(self, thing: arena.Thing):
        self.thing, self.height, self.way = thing, 0, UP
        self.mark = struct.pack("<HB", thing.id, arena.KINDS.index("lift"))

    def step(self, snapshots) -> None:
        if self.way == UP:
            height = min(self.height + self.thing.speed, self.thing.rise)
        else:
            height = max(self.height - self.thing.speed, 0)
        seen = self.seen(snapshots)
        if seen is not None and seen != height:
            self.height = seen  # it had no room for its step
            return
        self.height = height
        if height in (0, self.thing.rise):
            self.way = DOWN if height else UP

    def seen(self, snapshots) -> Optional[int]:
        for data in snapshots:
            at = data.find(self.mark, arena.HEAD_BYTES)
            while at >= 0 and (at - arena.HEAD_BYTES) % arena.ENTITY_BYTES:
                at = data.find(self.mark, at + 1)
            if at >= 0:
                return struct.unpack_from("<i", data, at + 12)[0] - self.thing.box[2]
        return None


def head_of(data: bytes) -> arena.Snapshot:
    """A snapshot's head, where it has the bytes of its entities."""
    head = arena.read_head(data)
    size = arena.HEAD_BYTES + arena.ENTITY_BYTES * head.count
    if len(data) != size:
        raise arena.SnapshotFault("Short" if len(data) < size else "Long")
    return head


def with_last(frames: Iterable[arena.PlayedFrame]) -> Iterator[Tuple[arena.PlayedFrame, bool]]:
    """Each frame, and whether it is the last one."""
    before = None
    for frame in frames:
        if before is not None:
            yield before, False
        before = frame
    if before is not None:
        yield before, True


class Match:
    """The map and the frames of a recording with its output."""

    def __init__(self, recording: arena.Recording, output: arena.Output):
        self.recording, self.output = recording, output
        self.map = recording.map
        self.players: Dict[int, Player] = {}
        self.away: Dict[int, int] = {}
        self.lifts = [Lift(thing) for thing in self.map.things if thing.kind == "lift"]

    def frames(self) -> Iterator[Frame]:
        """All frames that the output has, but for a last one that a cut leaves unfinished.

        Those of a log have their own packets, and its recording may be a map alone.
        """
        ports: Dict[int, int] = {}
        recorded = iter(self.recording)
        sent = None
        for played, is_last in with_last(self.output):
            before, sent = sent, next(recorded, None)
            if before is not None and sent is None:
                raise arena.FormatError(f"the output has a frame {played.number}, and the recording ends before it")
            ports = arena.ports_by_slot(played, ports)
            try:
                heads = {slot: head_of(data) for slot, data in played.snapshots.items()}
            except arena.SnapshotFault as why:
                raise arena.FormatError(f"frame {played.number}: bytes are no snapshot ({why.name})") from None
            arrivals = played.arrivals or (sent.arrivals if sent else [])
            frame = Frame(played.number, arrivals, played, heads, ports)
            if is_last and self.output.frames is None and self.is_unfinished(frame):
                return
            self.tick(frame)
            self.join(frame)
            for move in played.moves:
                self.run(frame, move)
            self.close(frame)
            self.leave(frame)
            yield frame
        if self.output.frames is not None and next(recorded, None) is not None:
            raise arena.FormatError(f"the output ends after {self.output.frames} frames, and the recording has more")

    def is_unfinished(self, frame: Frame) -> bool:
        """Whether a line is lacking: the last ones are `to` of each player, and without any each packet is refused."""
        awaited = {*self.players, *frame.played.joins.values()}
        if awaited or frame.heads:
            return not awaited <= set(frame.heads)
        return len(frame.played.refusals) < len(frame.arrivals)

    def tick(self, frame: Frame) -> None:
        self.away = {thing: back for thing, back in self.away.items() if back > frame.number}
        for lift in self.lifts:
            lift.step(frame.played.snapshots.values())

    def join(self, frame: Frame) -> None:
        joined = set(frame.played.joins.values())
        # An output that isn't the recording's may lack a player that didn't leave.
        self.players = {slot: player for slot, player in self.players.items() if slot in frame.heads}
        for port, slot in frame.played.joins.items():
            if slot not in frame.heads:
                raise arena.FormatError(f"frame {frame.number}: slot {slot} joins, and has no snapshot")
            self.players[slot] = Player(port)
            frame.events.append(Event(frame.number, "joined", slot, port))
        for slot, head in frame.heads.items():
            player = self.players.setdefault(slot, Player(frame.ports[slot]))
            if slot in joined:
                player.origin = head.origin  # until its first move; a newcomer is where it joined

    def leave(self, frame: Frame) -> None:
        """The leaves that were accepted: the frame's snapshots still have these players, and the next ones don't."""
        slots = {port: slot for slot, port in frame.ports.items()}
        for place, arrival in enumerate(frame.arrivals):
            slot = slots.get(arrival.port)
            if arrival.data == arena.leave() and place not in frame.played.refusals and slot in self.players:
                frame.events.append(Event(frame.number, "left", slot, self.players.pop(slot).port))

    def run(self, frame: Frame, move: arena.Move) -> None:
        """One entry of the journal."""
        player = self.players.get(move.slot)
        if player is None:
            raise arena.FormatError(f"frame {frame.number}: slot {move.slot} moves, and has no snapshot")
        if player.state >= FALL and frame.number >= player.state - FALL:
            player.state = 0
        player.origin = move.origin
        for thing in move.taken:
            if thing < arena.FIRST_THING:
                raise arena.FormatError(f"frame {frame.number}: slot {move.slot} got {thing}, which is the id of no thing")
            frame.events.append(Event(frame.number, "item", move.slot, thing))
            if thing - arena.FIRST_THING < len(self.map.things):
                self.away[thing] = frame.number + self.map.thing(thing).delay
        if move.hit is not None and move.hit in self.players:
            self.hit(frame, move)

    def hit(self, frame: Frame, move: arena.Move) -> None:
        target = self.players[move.hit]
        target.state += DAMAGE
        is_fall = target.state >= FALL
        frame.shots.append(Shot(move.slot, move.hit, move.origin, target.origin, is_fall))
        frame.events.append(Event(frame.number, "hit", move.slot, move.hit))
        if is_fall:
            target.state = FALL + frame.number + DOWN_FRAMES
            self.players[move.slot].falls += 1
            frame.events.append(Event(frame.number, "fell", move.hit, move.slot))

    def close(self, frame: Frame) -> None:
        for slot, head in frame.heads.items():
            player = self.players[slot]
            gain = head.score - player.score - player.falls
            player.score, player.falls = head.score, 0
            player.origin = head.origin
            if gain > 0:
                frame.events.append(Event(frame.number, "scored", slot, gain))
            if head.has_leapt and any(move.slot == slot for move in frame.played.moves):
                frame.events.append(Event(frame.number, "leapt", slot))
            if player.state >= FALL:
                frame.down.append(slot)
        frame.away = dict(self.away)
        frame.heights = {lift.thing.id: lift.height for lift in self.lifts}


def answer(place: int, arrival: arena.Arrival, frame: Frame) -> Tuple[str, List[arena.Move]]:
    """What came of a packet: `refused` and its name, `joined`, `leaves` or `moves`, and the moves."""
    if place in frame.played.refusals:
        return f"refused: {frame.played.refusals[place]}", []
    try:
        packet = arena.read_packet(arrival.data)
    except arena.PacketFault as why:
        return f"not a packet: {why.name}", []
    if packet.kind == "join":
        return f"joined as slot {frame.played.joins.get(arrival.port, '?')}", []
    if packet.kind == "leave":
        return "leaves at the end of the frame", []
    slots = {port: slot for slot, port in frame.ports.items()}
    numbers = {command.number for command in packet.commands}
    moves = [move for move in frame.played.moves if move.slot == slots.get(arrival.port) and move.number in numbers]
    return "moves", moves
