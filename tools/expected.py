"""What a frame of an output should be, by playing its moves in the order of the frame's own `did` lines.

`play 1` runs the moves of a frame in the order of arrival. So a recording in which the packets of each frame stand
in the order of its `did` lines, each new command of a move packet as a packet of its own where its turn asks for
that, gives the same moves with one worker. Refused packets, joins and leaves don't depend on the order of the moves
of their own frame.
"""
import io
import re
from collections import Counter
from dataclasses import dataclass, field

import arena
from program import run

LINES_A_FRAME = 512
FED_LINE = re.compile(rb"from (0|[1-9][0-9]{0,4}) (-|(?:[0-9a-f]{2})+)")


@dataclass
class Player:
    """What is known of a player that has joined: its slot, and the number of its last accepted command."""

    slot: int
    last: int = 0


def in_turns(turns):
    """Packets that bring these commands, each with its port, in this order."""
    packets = []
    for port, command in turns:
        last = packets[-1] if packets else None
        if last and last[0] == port and len(last[1]) < arena.MOST_COMMANDS and last[1][-1].number + 1 == command.number:
            last[1].append(command)
        else:
            packets.append((port, [command]))
    return [(port, arena.moves(commands)) for port, commands in packets]


@dataclass
class Journalled:
    """A recording whose frames are put together one by one, with their moves in the order of a journal."""

    map_lines: list
    lines: list = field(default_factory=list)
    players: dict = field(default_factory=dict)

    def played(self, lines):
        """The last frame that `play 1` writes of this recording with these lines of a frame more."""
        text = "\n".join([*self.map_lines, *self.lines, "frame", *lines, "end", ""])
        written, error, status = run(["play", "1"], text.encode("ascii"))
        if status != 0:
            raise arena.FormatError(f"the recording up to this frame isn't played: {arena.printable(error).strip()}")
        last = None
        for last in arena.Output(io.BytesIO(written)):
            pass
        return last

    def answered(self, arrivals):
        """The frame as it is with its moves in the order of arrival: its refusals and joins are right in any order."""
        return self.played([arena.packet_line(arrival.port, arrival.data) for arrival in arrivals])

    def add(self, arrivals, refused, joins, journal):
        """The lines of a frame whose accepted moves arrive in the order of a journal of slots and numbers.

        What the journal has and wasn't sent is passed over, and what it lacks comes last.
        """
        first, last, commands = [], [], {}
        for place, arrival in enumerate(arrivals):
            if place in refused:
                continue
            packet = arena.read_packet(arrival.data)
            if packet.kind == "join":
                first.append((arrival.port, arrival.data))
                self.players[arrival.port] = Player(joins[arrival.port])
            elif packet.kind == "leave":
                last.append((arrival.port, arrival.data))
            else:
                self.accept(arrival.port, packet, commands)
        turns = self.ordered(commands, journal)
        packets = first + in_turns(turns) + last
        if len(packets) > LINES_A_FRAME:
            raise arena.FormatError("the frame has more turns than lines are allowed, so it can't be played in this order")
        for port, _ in last:
            del self.players[port]
        return [arena.packet_line(port, data) for port, data in packets]

    def accept(self, port, packet, commands):
        """Notes the new commands of a packet, by slot and number, in the order sent."""
        player = self.players[port]
        for command in packet.commands:
            if command.number > player.last:
                player.last = command.number
                commands[player.slot, command.number] = port, command

    @staticmethod
    def ordered(commands, journal):
        """The commands in the order of the journal, so far as each player's are in the order sent."""
        left = dict(commands)
        turns = []
        for slot, number in journal:
            own = [key for key in left if key[0] == slot]
            if own and own[0] == (slot, number):
                turns.append(left.pop((slot, number)))
        return turns + list(left.values())

    def append(self, arrivals, frame):
        """Goes on with a frame that is right."""
        journal = [(move.slot, move.number) for move in frame.moves]
        self.lines += ["frame", *self.add(arrivals, frame.refusals, frame.joins, journal)]

    def expected(self, arrivals, journal):
        """The lines that a frame should have, as played in the order of these slots and numbers."""
        answered = self.answered(arrivals)
        played = self.played(self.add(arrivals, answered.refusals, answered.joins, journal))
        played.refusals, played.joins = answered.refusals, answered.joins
        return frame_lines(played)


def fed_packet(line):
    """The packet of a `from` line as `feed` writes it, which has room in a recording, or None for any other line."""
    said = FED_LINE.fullmatch(line)
    if said is None or int(said[1]) > 65535 or len(line) > arena.RECORDING_LINE:
        return None
    return arena.Arrival(int(said[1]), b"" if said[2] == b"-" else bytes.fromhex(said[2].decode()), 0)


def frame_lines(frame):
    """A frame as its lines in an output."""
    lines = [f"frame {frame.number}"]
    lines += [f"no {place} {name}" for place, name in frame.refusals.items()]
    lines += [f"joined {port} {slot}" for port, slot in frame.joins.items()]
    for move in frame.moves:
        got = ",".join(map(str, move.got)) or "-"
        lines.append(" ".join(map(str, ["did", move.slot, move.number, *move.origin, got])))
    return lines + [f"to {slot} {data.hex()}" for slot, data in frame.snapshots.items()]


def journal_of(lines):
    """The slots and numbers of the `did` lines among these, so far as they are numbers."""
    found = []
    for line in lines:
        fields = line.split(b" ")
        if fields[0] == b"did" and len(fields) > 2 and fields[1].isdigit() and fields[2].isdigit():
            found.append((int(fields[1]), int(fields[2])))
    return found


def moves_told_wrong(wanted, journal):
    """Moves of the journal that weren't sent or come again, or that are missing, in words."""
    sent = Counter((int(line.split()[1]), int(line.split()[2])) for line in wanted if line.startswith("did "))
    told = Counter(journal)
    extra, missing = list((told - sent).elements()), list((sent - told).elements())
    words = [f"move {number} of slot {slot} has a `did` line more than was sent" for slot, number in extra[:3]]
    return words + [f"move {number} of slot {slot} was received and has no `did` line" for slot, number in missing[:3]]
