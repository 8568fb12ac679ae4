"""Counts of a run, as /metrics shows them in Prometheus' text form, and the frame times for the last report."""
from collections import Counter
from typing import Dict, Iterator, List

# Upper bounds of the histogram of frame times, in seconds.
BOUNDS = (0.001, 0.002, 0.005, 0.01, 0.02, 0.05, 0.1, 0.2, 0.5, 1.0)


class Metrics:
    """What a run counts. Names of counters are in `counts`, refusals by their names in `refusals`."""

    def __init__(self):
        # How many frames took so many tenths of a millisecond: a run has no end, and what it keeps has one.
        self._tenths: Counter = Counter()
        self._seconds = 0.0
        self.counts: Counter = Counter()
        self.refusals: Counter = Counter()
        self.gauges: Dict[str, int] = {}
        self._buckets = [0] * (len(BOUNDS) + 1)

    def frame_took(self, seconds: float) -> None:
        """A frame was answered so long after it was due."""
        self._tenths[round(seconds * 10_000)] += 1
        self._seconds += seconds
        self._buckets[sum(seconds > bound for bound in BOUNDS)] += 1

    def quantile(self, part: float) -> float:
        """The frame time below which this part of all frames are, in seconds."""
        place = int(part * self._tenths.total())
        for tenths, count in sorted(self._tenths.items()):
            place -= count
            if place < 0:
                return tenths / 10_000
        return max(self._tenths, default=0) / 10_000

    def text(self) -> str:
        return "\n".join(self._lines()) + "\n"

    def _lines(self) -> Iterator[str]:
        helps = {
            "arena_frames_total": "Frames that were played.",
            "arena_late_frames_total": "Frames that were answered after the next was due, and ticks that were missed.",
            "arena_joins_total": "Joins that the program accepted.",
            "arena_moves_total": "Moves that the program ran.",
            "arena_messages_in_total": "Messages from clients, those of bots among them.",
            "arena_packets_total": "Packets that were written to the recording.",
            "arena_bytes_in_total": "Bytes of messages from clients.",
            "arena_bytes_out_total": "Bytes of messages to clients.",
            "arena_dropped_messages_total": "Messages that a slow page, or a full socket, didn't take.",
            "arena_unshown_total": "Faults in connections, as requests of another form, which nobody is shown.",
            "arena_faults_total": "Faults of the front itself, each kind of which is told once.",
        }
        for name, text in helps.items():
            yield from (f"# HELP {name} {text}", f"# TYPE {name} counter", f"{name} {self.counts[name]}")
        yield "# HELP arena_refusals_total Packets that the program refused, and messages that the front did, by name."
        yield "# TYPE arena_refusals_total counter"
        for name, count in sorted(self.refusals.items()):
            yield f'arena_refusals_total{{name="{name}"}} {count}'
        for name, value in self.gauges.items():
            yield from (f"# TYPE {name} gauge", f"{name} {value}")
        yield from self._histogram()

    def _histogram(self) -> List[str]:
        name = "arena_frame_seconds"
        lines = [f"# HELP {name} Seconds from when a frame was due until its answers were sent."]
        lines.append(f"# TYPE {name} histogram")
        below = 0
        for bound, count in zip((*BOUNDS, "+Inf"), self._buckets):
            below += count
            lines.append(f'{name}_bucket{{le="{bound}"}} {below}')
        return lines + [f"{name}_sum {self._seconds:.6f}", f"{name}_count {below}"]
