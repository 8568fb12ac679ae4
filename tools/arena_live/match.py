"""A match: its frames by the clock, and what the clients get of each."""
import asyncio
from dataclasses import dataclass
from time import monotonic
from typing import Dict, List, Optional, Sequence

import arena
from arena_live.events import Events
from arena_live.metrics import Metrics
from arena_live.pipe import Pipe
from arena_live.resume import Start
from arena_live.roll import Roll, leaves_of
from arena_live.saved import Saved, frame_text
from arena_live.sessions import SNAPSHOT, Sessions


@dataclass(frozen=True)
class Arena:
    """What is played on: the map, its lines, and the program that plays."""

    map: arena.Map
    lines: Sequence[bytes]
    program: str


class Match:
    """One run of the program, from the first frame to the line `end`."""

    def __init__(self, ground: Arena, sessions: Sessions, metrics: Metrics, start: Start):
        self._sessions, self._metrics = sessions, metrics
        self.saved, self.pipe, self._roll = start.saved, start.pipe, start.roll
        self._events = Events(ground.map)
        sessions.strangers = list(start.roll.slots)
        self.frame = sessions.frame = start.frame

    @staticmethod
    async def begin(ground: Arena, sessions: Sessions, metrics: Metrics, saved: Saved) -> "Match":
        """A new match, whose folder has the map alone."""
        pipe = await Pipe.start(ground.program, saved.settings.workers)
        await pipe.send(saved.opening(ground.lines))
        return Match(ground, sessions, metrics, Start(saved, pipe, Roll(), 0))

    async def run(self, stop: asyncio.Event, most: int) -> None:
        """Plays frames by the clock until `stop` is set or one of so many is left, and then the last at its time."""
        period = 1 / self.saved.settings.hz
        due = monotonic() + period
        while not await _is_set_before(stop, due) and self.frame + 1 < most:
            await self._play_frame(b"frame")
            done = monotonic()
            self._metrics.frame_took(done - due)
            self._sessions.drop_silent(done)
            due += period
            if done > due:
                # This frame and the ticks that were missed are counted, and not made up for: time never runs faster.
                self._metrics.counts["arena_late_frames_total"] += int((done - due) / period) + 1
                due = done
        await self._finish()

    async def _finish(self) -> None:
        self._sessions.leave_all()
        await self._play_frame(b"end")
        self.saved.add_answer(await self.pipe.finish())

    async def _play_frame(self, closing: bytes) -> None:
        """Closes the open frame with the packets that came, plays it and tells the clients what came of it."""
        arrivals = self._sessions.take_arrivals()
        text = frame_text(arrivals, closing)
        self.saved.add_packets(text)
        self._roll.begin(len(arrivals), leaves_of(arrivals))
        await self.pipe.send(text)
        lines = await self.pipe.read_frame(self._roll)
        self.saved.add_answer(b"".join(line + b"\n" for line in lines))
        frame = arena.PlayedFrame(self.frame, 0)
        for line in lines[1:]:
            frame.take(line, 0)
        self._tell(frame, [port for port, _ in arrivals])
        self.frame += 1

    def _tell(self, frame: arena.PlayedFrame, ports: List[int]) -> None:
        """Each client gets its snapshot, or that of the slot that it watches, and the frame's events."""
        for port, slot in frame.joins.items():
            self._sessions.joined(port, slot)
        for place, name in frame.refusals.items():
            self._sessions.refused(ports[place], name)
        left = self._roll.finish()
        events = self._events.of(frame, left.values())
        told = self._told(frame, events)
        least = min(frame.snapshots, default=None)
        for session in self._sessions:
            if not session.is_known:
                continue
            slot = session.watched if session.watched in frame.snapshots else least
            if slot is not None:
                self._sessions.tell(session, SNAPSHOT + frame.snapshots[slot])
            if told or session.refusals:
                self._sessions.tell_events(session, told or {"frame": frame.number})
        for port in [*left, *self._sessions.without_slot(ports)]:
            self._sessions.left(port)
        counts = self._metrics.counts
        counts["arena_frames_total"] += 1
        counts["arena_joins_total"] += len(frame.joins)
        counts["arena_moves_total"] += len(frame.moves)
        self._metrics.gauges.update(arena_players=len(self._roll.slots), arena_watchers=self._sessions.watchers)

    def _told(self, frame: arena.PlayedFrame, events: List[list]) -> Optional[Dict[str, object]]:
        """The frame's events, and once a second all scores, for those who missed some."""
        if not events and frame.number % self.saved.settings.hz:
            return None
        return {"frame": frame.number, "events": events, "scores": sorted(self._events.scores.items())}


async def _is_set_before(event: asyncio.Event, due: float) -> bool:
    """Waits until the event is set or the time has come, and says whether it is set."""
    try:
        await asyncio.wait_for(event.wait(), max(0.0, due - monotonic()))
    except asyncio.TimeoutError:
        pass
    return event.is_set()
