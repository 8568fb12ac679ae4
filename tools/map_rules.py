"""Which rule of a map a line breaks, and by which two things. docs/FORMATS.md has the rules."""
import arena

LEAST_SIDE = 32768
MOST = {"spawn": 64, "item": 400, "teleport": 16, "goal": 16, "lift": 16}
AXES = "xyz"


def side(bounds):
    """Rule 1."""
    for axis in range(3):
        length = bounds[axis + 3] - bounds[axis]
        if length < LEAST_SIDE:
            reach = f"on {AXES[axis]} the arena reaches from {bounds[axis]} to {bounds[axis + 3]}"
            return f"{reach}, which is {length} long, and {LEAST_SIDE} is the least"
    return None


def flat(box):
    """The first half of rule 2."""
    for axis in range(3):
        if box[axis] >= box[axis + 3]:
            return f"{AXES[axis]}0 is {box[axis]} and {AXES[axis]}1 is {box[axis + 3]}, and {AXES[axis]}0 is to be below"
    return None


def outside(box, bounds, what):
    """How a box reaches out of the arena."""
    for axis in range(3):
        if box[axis] < bounds[axis] or box[axis + 3] > bounds[axis + 3]:
            reach = f"on {AXES[axis]} {what} reaches from {box[axis]} to {box[axis + 3]}"
            return f"{reach}, and the arena from {bounds[axis]} to {bounds[axis + 3]}"
    return None


def body_at(origin, bounds, what):
    """Rule 4."""
    body = [origin[axis % 3] + arena.PLAYER_BODY[axis] for axis in range(6)]
    return outside(body, bounds, f"the body of a player at the {what}")


def overlap(one, other):
    return all(one[axis] < other[axis + 3] and other[axis] < one[axis + 3] for axis in range(3))


def shaft(lift):
    return (*lift.box[:5], lift.box[5] + lift.rise)


def span(box):
    return f"from {tuple(box[:3])} to {tuple(box[3:])}"


def line_of(lines, word, place):
    """The number of a line, of those that begin with this word the one at this place, from 0."""
    return [number for number, line in enumerate(lines, 1) if line.split(b" ")[0] == word][place]


def shafts(found, lines):
    """The shafts of the lifts, each with what gives its name."""
    lifts = [thing for thing in found.things if thing.kind == "lift"]
    for place, thing in enumerate(lifts):
        number = thing.id
        yield shaft(thing), lambda number=number, place=place: (
            f"the shaft of lift {number}, of line {line_of(lines, b'lift', place)},"
        )


def blocks(found, lines):
    """The blocks, each with what gives its name."""
    for place, block in enumerate(found.blocks):
        yield block, lambda place=place: f"the block of line {line_of(lines, b'block', place)}"


def count_of(found, word):
    """How many lines with this word the map has."""
    if word == "block":
        return len(found.blocks)
    if word == "spawn":
        return len(found.spawns)
    kinds = {"item": ("ammo", "gem"), "teleport": ("teleporter",)}.get(word, (word,))
    return sum(thing.kind in kinds for thing in found.things)


def overlapped(box, name, others):
    """Those of these that a box overlaps, in words."""
    for other, other_name in others:
        if overlap(box, other):
            yield 8, f"{name} reaches {span(box)}, and overlaps {other_name()} {span(other)}"


def late_limit(before, lines):
    """Why a line on how many blocks there may be comes too late."""
    if any(line.split(b" ")[0] == b"blocks" for line in lines):
        return f"line {line_of(lines, b'blocks', 0)} says already how many blocks there may be"
    return f"it comes after the block of line {line_of(lines, b'block', 0)}" if before.blocks else None


def broken_by(before, lines, line):
    """The tests of a line that follows these lines of a map, by rising rule: the rule, and why it is broken or None."""
    own = arena.Map(before.bounds)
    own.take(line)
    word, bounds = line.split(b" ")[0].decode(), own.bounds
    if word == "arena":
        yield 1, side(bounds)
        return
    if word == "blocks":
        yield 3, late_limit(before, lines)
    if word not in MOST and word != "block":
        return
    box = own.blocks[0] if word == "block" else None if word == "spawn" else own.things[0].box
    number = arena.FIRST_THING + len(before.things)
    if word not in ("spawn", "item"):
        yield 2, flat(box) or outside(box, bounds, f"the {word}")
    count = count_of(before, word) + 1
    most = before.most_blocks if word == "block" else MOST[word]
    if count > most:
        yield 3, f"it is the {count:,}th of these lines, and {'this map' if most > arena.DEFAULT_BLOCKS else 'a map'} has at most {most:,}"
    if word == "spawn":
        yield 4, body_at(own.spawns[0], bounds, "spawn")
    if word == "teleport":
        yield 4, body_at(own.things[0].destination, bounds, "destination")
    if word == "item":
        yield 5, outside(box, bounds, f"the body of the item, {number},")
    if word == "lift":
        own_shaft, name = shaft(own.things[0]), f"the shaft of this lift, {number},"
        yield 6, outside(own_shaft, bounds, f"the lift, {number}, with its rise")
        yield from overlapped(own_shaft, name, blocks(before, lines))
        yield from overlapped(own_shaft, name, shafts(before, lines))
    if word == "block":
        yield from overlapped(box, "this block", shafts(before, lines))


def broken_rule(before, lines, line):
    """The first rule that a line breaks after these lines, of this map, and why; None where none is known to be broken."""
    if line == b"frame" and before.bounds:
        return (7, "this is the first frame, and no line before it is a spawn") if not before.spawns else None
    return next(((rule, why) for rule, why in broken_by(before, lines, line) if why), None)


class Watch:
    """The lines of a map as they come, until one breaks a rule or is none of a map."""

    MOST_LINES = 8_000

    def __init__(self):
        self.map, self.lines, self.is_over = arena.Map(), [], False

    def broken(self, line):
        """The rule that this line breaks, and why; None where it is right, or nothing is known any more."""
        if self.is_over:
            return None
        try:
            found = broken_rule(self.map, self.lines, line)
            self.is_over = found is not None or line in (b"frame", b"end") or len(self.lines) > self.MOST_LINES
            if not self.is_over:
                self.map.take(line)
                self.lines.append(line)
            return found
        except ValueError:
            self.is_over = True
            return None
