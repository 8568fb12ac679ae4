"""Who has joined, read off the packets of each frame and the program's answers, and where the text of a frame ends."""
from typing import Dict, List, Sequence, Tuple

LEAVE = b"\x01\x03"


class Roll:
    """The slots of the ports that have joined.

    `begin` is given the packets of a frame, and then `take` each line of its text. The text is complete with as many
    `to` lines as there were players before the frame and `joined` lines in it; where that is none, with one `no` line a
    packet.
    """

    def __init__(self):
        self.slots: Dict[int, int] = {}
        self._leaves: Dict[int, int] = {}
        self._packets = self._expected = self._snapshots = self._refusals = 0

    def begin(self, packets: int, leaves: Dict[int, int]) -> None:
        """A frame of so many packets begins. `leaves` has the ports of those that ask to leave, by their places."""
        self._leaves = leaves
        self._packets, self._expected = packets, len(self.slots)
        self._snapshots = self._refusals = 0

    def take(self, line: bytes) -> bool:
        """Takes a line of the frame's text, and says whether the text is complete with it."""
        word = line[:3]
        if word == b"to ":
            self._snapshots += 1
        elif word == b"no ":
            self._refusals += 1
            self._leaves.pop(int(line.split(b" ")[1]), None)
        elif word == b"joi":
            _, port, slot = line.split(b" ")
            self.slots[int(port)] = int(slot)
            self._expected += 1
        if self._expected:
            return self._snapshots == self._expected
        return self._refusals == self._packets

    def leaving(self) -> List[int]:
        """The ports that leave in this frame, once its text is complete."""
        return [port for port in dict.fromkeys(self._leaves.values()) if port in self.slots]

    def finish(self) -> Dict[int, int]:
        """Ends the frame: the slots of the ports that left in it, which have left from now on."""
        return {port: self.slots.pop(port) for port in self.leaving()}


def leaves_of(arrivals: Sequence[Tuple[int, bytes]]) -> Dict[int, int]:
    """The ports of the packets that ask to leave, by their places in the frame."""
    return {place: port for place, (port, data) in enumerate(arrivals) if data == LEAVE}
