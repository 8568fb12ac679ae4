"""What happened in a frame, from its lines: who joined and left, who took what, who hit whom, and the scores.

An event is a list that begins with its name, as a client gets it in JSON:

    ["joined", SLOT], ["left", SLOT], ["took", SLOT, KIND, ID], ["hit", SLOT, SHOOTER], ["down", SLOT, SHOOTER],
    ["score", SLOT, SCORE]
"""
from typing import Dict, Iterable, List

import arena

Event = List[object]
# A hit adds 25 of damage, and at 100 a player is down and has none.
HITS_TO_FALL = 4


class Events:
    """Keeps the scores and hits between frames."""

    def __init__(self, map_: arena.Map):
        self._map = map_
        self.scores: Dict[int, int] = {}
        self._hits: Dict[int, int] = {}

    def of(self, frame: arena.PlayedFrame, left: Iterable[int]) -> List[Event]:
        """The events of a frame; `left` are the slots that left in it."""
        events: List[Event] = []
        for slot in frame.joins.values():
            self.scores[slot] = self._hits[slot] = 0
            events.append(["joined", slot])
        for move in frame.moves:
            events += [["took", move.slot, self._map.thing(thing).kind, thing] for thing in move.taken]
            if move.hit is not None:
                events.append(self._hit(move.hit, move.slot))
        for slot, data in frame.snapshots.items():
            score = arena.read_head(data).score
            if self.scores.get(slot, 0) != score:
                events.append(["score", slot, score])
            self.scores[slot] = score
        for slot in left:
            self.scores.pop(slot, None)
            events.append(["left", slot])
        return events

    def _hit(self, slot: int, shooter: int) -> Event:
        self._hits[slot] = (self._hits.get(slot, 0) + 1) % HITS_TO_FALL
        return ["hit" if self._hits[slot] else "down", slot, shooter]
