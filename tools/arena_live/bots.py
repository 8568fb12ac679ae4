"""Players that the front brings itself: they walk shortest ways between spawns and shoot at whom they see.

A bot is a client as any other, without a socket: it gets its snapshots and sends packets. Its ways are planned by
`arena_cli bots TARGET`, which plans from the first spawn of a map; so it is handed the map with the bot's spawn first.
"""
import asyncio
import math
import random
from time import monotonic
from typing import Dict, List, Optional, Tuple

import arena
from arena_live.match import Arena
from arena_live.sessions import SNAPSHOT, TOKEN_BYTES, WELCOME, Sessions

Way = List[Tuple[int, int]]

WISH = 320
NEAR = 6_000  # of a waypoint: the next one comes
STUCK_FRAMES, STUCK_STEP = 20, 1_500
RANGE = 60_000
SHOTS_A_SECOND = 1.5
AIM_ERROR = 0.06  # radians


class Ways:
    """The shortest ways between the spawns of a map, each planned once."""

    def __init__(self, ground: Arena):
        self._program, self._spawns = ground.program, ground.map.spawns
        self._fixed = [line for line in ground.lines if not line.startswith(b"spawn ")]
        self._ways: Dict[Tuple[int, int], Optional[Way]] = {}

    async def between(self, start: int, target: int) -> Optional[Way]:
        """The points of the way from one spawn to another, or None where no walk leads there."""
        if (start, target) not in self._ways:
            self._ways[start, target] = await self._planned(start, target)
        return self._ways[start, target]

    async def _planned(self, start: int, target: int) -> Optional[Way]:
        order = [start] + [spawn for spawn in range(len(self._spawns)) if spawn != start]
        lines = self._fixed + [b"spawn %d %d %d" % tuple(self._spawns[spawn]) for spawn in order] + [b"end\n"]
        pipes = dict.fromkeys(("stdin", "stdout", "stderr"), asyncio.subprocess.PIPE)
        words = ("bots", str(order.index(target)))
        try:
            process = await asyncio.create_subprocess_exec(self._program, *words, start_new_session=True, **pipes)
        except OSError:
            return None  # The program is being built anew, say.
        text, _ = await process.communicate(b"\n".join(lines))
        if process.returncode != 0:
            return None
        way = next(line for line in text.splitlines() if line.startswith(b"way "))
        return [self._spawns[order[int(number)]][:2] for number in way.split()[1:]]

    def nearest(self, origin: arena.Point) -> int:
        """The spawn nearest to a point, those of its height before others."""
        def distance(spawn: int) -> Tuple[bool, float]:
            x, y, z = self._spawns[spawn]
            return abs(z - origin[2]) > 2 * arena.UNIT, math.dist((x, y), origin[:2])

        return min(range(len(self._spawns)), key=distance)

    def random_spawn(self) -> int:
        return random.randrange(len(self._spawns))


class Bot:
    """One player. `take` is called with each message of the front; a fault of the bot isn't one of the frame."""

    def __init__(self, number: int, sessions: Sessions, ground: Arena, ways: Ways):
        hz = sessions.hz
        self.address = ("bot", number)
        self._sessions, self._map, self._ways = sessions, ground.map, ways
        self._steps = max(1, math.ceil(1000 / hz / arena.MOST_MS))
        self._ms = max(2, min(arena.MOST_MS, 1000 // hz // self._steps))
        self._shot_chance = SHOTS_A_SECOND / hz
        self._number = 0
        self._token = b""
        self._way: Way = []
        self._planning: Optional[asyncio.Task] = None
        self._seen_at: Tuple[int, arena.Point] = (0, (0, 0, 0))
        self._heading: Optional[float] = None  # where it walks while it has no way

    def enter(self) -> None:
        self._sessions.open(self.address, "bot", self.take, monotonic())

    def take(self, message: bytes) -> None:
        try:
            self._take(message)
        except Exception as why:
            asyncio.get_running_loop().call_exception_handler({"message": "a bot", "exception": why})

    def _take(self, message: bytes) -> None:
        kind, body = message[:1], message[1:]
        if kind == WELCOME:
            self._token, self._number, self._way = body[:TOKEN_BYTES], 0, []
            self._send(arena.join())
        elif kind == SNAPSHOT:
            session = self._sessions.of_token(self._token)
            if session is not None and session.slot is not None:
                self._act(arena.read_snapshot(body))

    def _send(self, packet: bytes) -> None:
        # Not now: the front is in the middle of what it tells its clients.
        asyncio.get_running_loop().call_soon(self._sessions.receive, self.address, self._token + packet, monotonic())

    def _act(self, seen: arena.Snapshot) -> None:
        walk = self._walk(seen)
        commands = [walk] * self._steps
        aim = self._aim(seen)
        if aim is not None and random.random() < self._shot_chance:
            # The last millisecond goes toward whom it shoots at, since a shot goes where the wish points.
            commands[-1] = (self._ms - 1, *walk[1:])
            commands.append((1, *_wish(aim), arena.SHOOT))
        for ms, x, y, buttons in commands:
            self._number += 1
            self._send(arena.moves([arena.Command(self._number, ms, x, y, buttons)]))

    def _walk(self, seen: arena.Snapshot) -> Tuple[int, int, int, int]:
        x, y, _ = seen.origin
        while self._way and max(abs(self._way[0][0] - x), abs(self._way[0][1] - y)) < NEAR:
            self._way.pop(0)
        frame, origin = self._seen_at
        is_stuck = False
        if seen.frame - frame >= STUCK_FRAMES or seen.frame < frame:
            is_stuck = math.dist(origin, seen.origin) < STUCK_STEP
            self._seen_at = (seen.frame, seen.origin)
        if is_stuck:
            self._way, self._heading = [], random.uniform(-math.pi, math.pi)
        if not self._way:
            if self._planning is None or self._planning.done():
                self._planning = asyncio.get_running_loop().create_task(self._plan(seen))
            angle = self._heading
        else:
            angle = math.atan2(self._way[0][1] - y, self._way[0][0] - x)
        buttons = arena.JUMP if self._heading is not None and random.random() < 0.1 else 0
        return (self._ms, *((0, 0) if angle is None else _wish(angle)), buttons)

    async def _plan(self, seen: arena.Snapshot) -> None:
        """Finds the next way; where there is none, or after it was stuck, it walks anywhere for a while.

        With gems it goes straight to a goal, if one is near, unless it just was stuck.
        """
        if self._heading is not None:
            await asyncio.sleep(random.uniform(0.3, 1.0))
        elif seen.carry and (goal := self._near_goal(seen.origin)) is not None:
            self._way = [goal]
            return
        way = await self._ways.between(self._ways.nearest(seen.origin), self._ways.random_spawn())
        self._heading = random.uniform(-math.pi, math.pi) if way is None else None
        self._way = list(way or [])

    def _near_goal(self, origin: arena.Point) -> Optional[Tuple[int, int]]:
        boxes = [thing.box for thing in self._map.things if thing.kind == "goal"]
        middles = [((box[0] + box[3]) // 2, (box[1] + box[4]) // 2) for box in boxes]
        near = [middle for middle in middles if math.dist(middle, origin[:2]) < RANGE]
        return min(near, key=lambda middle: math.dist(middle, origin[:2]), default=None)

    def _aim(self, seen: arena.Snapshot) -> Optional[float]:
        """The direction of the nearest player that a shot could reach."""
        if not self._map.shots or not seen.ammo:
            return None
        x, y, z = seen.origin
        targets = [
            (math.dist((x, y), entity.origin[:2]), entity.origin)
            for entity in seen.entities
            if entity.kind == "player" and -7_000 < entity.origin[2] - z < 5_000
        ]
        for distance, target in sorted(targets):
            if 0 < distance < RANGE and not any(_crosses(block, seen.origin, target) for block in self._map.blocks):
                return math.atan2(target[1] - y, target[0] - x) + random.gauss(0, AIM_ERROR)
        return None


def _wish(angle: float) -> Tuple[int, int]:
    return round(WISH * math.cos(angle)), round(WISH * math.sin(angle))


def _crosses(block: arena.Box, start: arena.Point, end: arena.Point) -> bool:
    """Whether the level line from the start toward the end goes through the block."""
    if not block[2] < start[2] < block[5]:
        return False
    first, last = 0.0, 1.0
    for axis in (0, 1):
        way = end[axis] - start[axis]
        low, high = block[axis] - start[axis], block[axis + 3] - start[axis]
        if way == 0:
            if low > 0 or high < 0:
                return False
        else:
            first, last = max(first, min(low / way, high / way)), min(last, max(low / way, high / way))
    return first < last


class Bots:
    def __init__(self, count: int, sessions: Sessions, ground: Arena):
        ways = Ways(ground)
        self._bots = [Bot(number, sessions, ground, ways) for number in range(count)]

    def enter(self) -> None:
        for bot in self._bots:
            bot.enter()
