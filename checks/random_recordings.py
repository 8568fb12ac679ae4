"""Random recordings of all kinds, with the status and the line on standard error that each must end with."""
import random

JOIN, LEAVE = b"0101", b"0103"
HEIGHT = 65536
ITEM = 8192, 8192, 14336
LINES_A_FRAME = 512
# What a line that is put in may be, the fault that it has, and whether a frame must come before it.
FAULTY = [
    (b"frob", 3, False),
    (b"", 3, False),
    (b"spawn 0 0\t6144", 2, False),
    (b"from 7 \xff", 2, False),
    (b"a" * 513, 1, False),
    (b"arena -32768 -32768 0 32768 32768 65536", 5, False),
    (b"block 0 0 0 1 1", 4, False),
    (b"spawn 0 0 06144", 4, False),
    (b"from 7", 4, False),
    (b"from -0 -", 4, False),
    (b"depth 03", 4, False),
    (b"depth 3 4", 4, False),
    (b"shots 1", 4, False),
    (b"blocks 01024", 4, False),
    (b"spawn 0 0 6144", 5, True),
    (b"depth 3", 5, True),
    (b"depth 6", 5, True),
    (b"shots", 5, True),
    (b"blocks 4097", 5, True),
    (b"from 65536 -", 6, True),
    (b"from 7 010", 8, True),
    (b"from 7 01g1", 8, True),
    (b"from 7 ", 8, True),
    (b"depth", 4, False),
]
# Lines among those of the map, and the fault that each has there, whatever comes before it.
FAULTY_IN_MAP = [
    (b"block 0 0 0 0 10 10", 7),
    (b"spawn 0 0 6143", 7),
    (b"item 0 0 -1 gem 5", 7),
    (b"teleport 0 0 0 9 9 9 0 0 0", 7),
    (b"lift 0 0 0 9 9 9 1048576 1", 7),
    (b"depth 2", 6),
    (b"depth 6", 6),
    (b"blocks 1023", 6),
    (b"blocks 4097", 6),
]


def line(word, *fields):
    return b" ".join([word.encode()] + [str(field).encode() for field in fields])


class Maker:
    """Makes one recording from a source of random numbers."""

    def __init__(self, rng):
        self.rng = rng
        self.half = rng.choice([40000, 60000, 131072, 262144])
        self.cells = 4 if self.half < 60000 else rng.choice([4, 6])
        self.side = 2 * self.half // self.cells
        self.ports = rng.sample(range(65536), rng.choice([1, 2, 5, 16, 70]))
        self.numbers = {}
        self.wishes = {}

    def corner(self, cell):
        return -self.half + self.side * (cell % self.cells), -self.half + self.side * (cell // self.cells)

    def box(self, cell, height):
        """A box on the floor of a cell, a sub-unit or more away from the other cells."""
        x, y = self.corner(cell)
        x0, y0 = x + self.rng.randrange(1, self.side // 2), y + self.rng.randrange(1, self.side // 2)
        x1, y1 = self.rng.randrange(x0 + 1, x + self.side), self.rng.randrange(y0 + 1, y + self.side)
        return [x0, y0, 0, x1, y1, height]

    def wide_box(self, cell, height):
        x, y = self.corner(cell)
        return [x + 1, y + 1, 0, x + self.side - 1, y + self.side - 1, height]

    def place(self, cell, z=6144):
        """Where a player in the middle of a cell is."""
        x, y = self.corner(cell)
        return [x + self.side // 2, y + self.side // 2, z]

    def thing(self, cell):
        """A map line in this cell, which holds no other block or lift."""
        rng = self.rng
        kind = rng.choice(["spawn", "spawn", "spawn", "block", "item", "item", "goal", "teleport", "lift", "nothing"])
        if kind == "spawn":
            return line("spawn", *self.place(cell, rng.choice([6144, 6144, 6145, 11264, 40000])))
        if kind == "block":
            return line("block", *self.box(cell, rng.choice([4608, 4609, 20000, 1])))
        if kind == "item":
            x, y = self.corner(cell)
            at = [x + rng.randrange(self.side - ITEM[0]), y + rng.randrange(self.side - ITEM[1]), 0]
            return line("item", *at, rng.choice(["ammo", "gem"]), rng.choice([1, 2, 10, 65535]))
        if kind == "goal":
            return line("goal", *self.box(cell, 25600))
        if kind == "teleport":
            return line("teleport", *self.wide_box(cell, 25600), *self.place(rng.randrange(self.cells**2)))
        if kind == "lift":
            return line("lift", *self.wide_box(cell, 2560), rng.choice([1, 2560, 30000]), rng.choice([1, 512, 2560]))
        return None

    def items(self, lines):
        """Items anywhere on the floor, as many as a map may still have, or fewer."""
        rng = self.rng
        count = 400 - sum(line.startswith(b"item ") for line in lines)
        for _ in range(rng.choice([count, count, rng.randrange(count)])):
            at = [rng.randrange(-self.half, self.half - size) for size in ITEM[:2]]
            yield line("item", *at, 0, rng.choice(["ammo", "ammo", "gem"]), rng.choice([1, 2, 10, 65535]))

    def map_lines(self):
        cells = list(range(self.cells**2))
        self.rng.shuffle(cells)
        lines = [line("arena", -self.half, -self.half, 0, self.half, self.half, HEIGHT)]
        lines += [line("spawn", *self.place(cells.pop())) for _ in range(self.rng.choice([1, 2, 6]))]
        lines += [thing for thing in map(self.thing, cells) if thing is not None]
        if self.rng.randrange(6) == 0:
            lines += self.items(lines)
        if self.rng.randrange(2) == 0:
            lines.append(line("depth", self.rng.choice([3, 3, 4, 5, 5])))
        if self.rng.randrange(2) == 0:
            lines.append(b"shots")
        lines[1:] = self.rng.sample(lines[1:], len(lines) - 1)
        if self.rng.randrange(2) == 0:
            first = next((place for place, text in enumerate(lines) if text.startswith(b"block ")), len(lines))
            lines.insert(self.rng.randrange(1, first + 1), line("blocks", self.rng.choice([1024, 1025, 4096])))
        return lines

    def step(self, port):
        """A move, mostly with the port's next number."""
        rng = self.rng
        number = self.numbers.get(port, 0) + rng.choice([1, 1, 1, 1, 1, 1, 1, 2, 0, -1])
        number = max(0, min(number, 2**32 - 1))
        self.numbers[port] = max(number, self.numbers.get(port, 0))
        if port not in self.wishes or rng.randrange(20) == 0:
            self.wishes[port] = [rng.choice([0, 320, -320, rng.randrange(-32768, 32768)]) for _ in range(2)]
        packet = b"\x01\x02" + number.to_bytes(4, "little") + bytes([rng.choice([50] * 40 + [1, 17, 0, 51])])
        packet += b"".join(wish.to_bytes(2, "little", signed=True) for wish in self.wishes[port])
        return (packet + bytes([rng.choice([0] * 20 + [1] * 8 + [2])])).hex().encode()

    def steps(self, port):
        """A packet of version 2, mostly with the port's next number and the commands before it."""
        rng = self.rng
        number = self.numbers.get(port, 0) + rng.choice([1, 1, 1, 1, 2, 3, 3, 4, 0, -1])
        number = max(0, min(number, 2**32 - 1))
        self.numbers[port] = max(number, self.numbers.get(port, 0))
        count = rng.choice([3] * 20 + [1, 2] * 4 + [0, 4, 255])
        packet = b"\x02\x02" + number.to_bytes(4, "little") + bytes([count])
        for _ in range(min(count, 3)):
            packet += bytes([rng.choice([50] * 40 + [1, 17, 0, 51])])
            packet += b"".join(rng.choice([0, 320, -320, rng.randrange(-32768, 32768)]).to_bytes(2, "little", signed=True) for _ in range(2))
            packet += bytes([rng.choice([0] * 20 + [1] * 8 + [2] * 8 + [3, 3, 4])])
        return packet.hex().encode()

    def garbage(self):
        rng = self.rng
        length = rng.choice([0, 1, 2, 12, 13, rng.randrange(40), 240])
        packet = bytes([rng.choice([1, 1, 2, rng.randrange(256)]) for _ in range(length)])
        return packet.hex().encode() or b"-"

    def mutated(self, packet):
        """A packet with one byte changed, taken out or put in."""
        rng = self.rng
        data = bytearray(bytes.fromhex(packet.decode()))
        place = rng.randrange(len(data))
        data[place : place + rng.choice([0, 1])] = bytes(rng.randrange(256) for _ in range(rng.choice([0, 1])))
        return bytes(data).hex().encode() or b"-"

    def arrival(self):
        rng = self.rng
        port = rng.choice(self.ports)
        packet = rng.choice([JOIN] * 4 + [LEAVE] + [self.step(port)] * 100 + [self.steps(port)] * 50)
        way = rng.randrange(80)
        if way == 0:
            packet = self.garbage()
        elif way == 1:
            packet = self.mutated(packet)
        elif way == 2:
            packet = packet.upper()
        return b"from %d %s" % (port, packet)

    def frame_lines(self, is_first):
        joins = [b"from %d %s" % (port, JOIN) for port in self.ports] if is_first else []
        count = min(self.rng.choice([0, 3, 20, 120, 500]), LINES_A_FRAME - len(joins))
        return [b"frame"] + joins + [self.arrival() for _ in range(count)]

    def recording(self):
        """The lines of a recording without a fault."""
        lines = self.map_lines()
        for frame in range(self.rng.choice([1, 5, 30])):
            lines += self.frame_lines(frame == 0)
        return lines + [b"end"]


def joined(rng, lines):
    """The lines with their line feeds, and here and there a carriage return."""
    returns = rng.choice([0, 0, 0.3])
    return b"".join(text + (b"\r\n" if rng.random() < returns and len(text) < 500 else b"\n") for text in lines)


def cut(rng, text):
    """The recording without its end, and the line in which it ends then."""
    part = text[: rng.randrange(text.rindex(b"end"))]
    return part, part.count(b"\n") + 1, 10


def with_fault(rng, lines):
    """The recording with one more line, which has a fault: the line's number, and the fault."""
    first = lines.index(b"frame")
    faulty, fault, needs_frame = rng.choice(FAULTY)
    place = rng.randrange(first + 1 if needs_frame else 1, len(lines))
    if rng.randrange(4) == 0:
        faulty, fault = rng.choice(FAULTY_IN_MAP)
        place = rng.randrange(1, first + 1)
    return joined(rng, lines[:place] + [faulty] + lines[place:]), place + 1, fault


def with_too_many(rng, lines):
    """The recording with a last frame of one packet too many."""
    lines = lines[:-1] + [b"frame"] + [b"from 7 -"] * (LINES_A_FRAME + 1)
    return joined(rng, lines + [b"end"]), len(lines), 9


def random_recording(rng):
    """A recording, the line on standard error and the status that it must be played with."""
    lines = Maker(rng).recording()
    way = rng.randrange(10)
    if way == 0:
        text, number, fault = cut(rng, joined(rng, lines))
    elif way in (1, 2):
        text, number, fault = with_fault(rng, lines)
    elif way == 3:
        text, number, fault = with_too_many(rng, lines)
    else:
        return joined(rng, lines), b"", 0
    return text, b"recording refused: line %d, fault %d\n" % (number, fault), 1


def seeded(*words):
    return random.Random(" ".join(map(str, words)))
