"""The recordings that `checks/speed` plays."""
import os

from common import FormatError, run
from walkers import walked

import arena

SIDE = 262144
HEIGHT = 131072
JOINS = (b"0101", b"0103")


class Case:
    """A recording with a name, and how many frames and moves it has."""

    def __init__(self, name, text):
        self.name, self.text = name, text
        output = played(text)
        self.frames = output.count(b"\nframe ") + output.startswith(b"frame ")
        self.moves = output.count(b"\ndid ")

    def without_moves(self):
        """The recording without the packets that are moves."""
        lines = self.text.splitlines(keepends=True)
        return b"".join(line for line in lines if not line.startswith(b"from ") or line.split()[-1] in JOINS)


def played(text):
    """What `play 1` writes of a recording."""
    output, error, status = run(["play", "1"], text)
    if status != 0:
        raise FormatError(f"play 1 ended with status {status}: {arena.printable(error.strip())}")
    return output


# Frames.


def grid(step, count=64):
    """So many places, so far from each other, round the middle."""
    first = -step * 7 // 2
    return [(first + step * (i % 8), first + step * (i // 8)) for i in range(count)]


def map_lines(places, *more):
    """The largest arena with these lines, and a spawn at each place."""
    return [f"arena -{SIDE} -{SIDE} 0 {SIDE} {SIDE} {HEIGHT}", *more, *(f"spawn {x} {y} 6144" for x, y in places)]


def joins(players):
    return [arena.packet_line(port, arena.join()) for port in range(players)]


def commands(frame, turns, buttons):
    """A player's commands of a frame, which goes to and fro."""
    wish = 320 if frame // 4 % 2 == 0 else -320
    return [arena.Command(turns * frame + turn + 1, arena.MOST_MS, wish, -wish, buttons) for turn in range(turns)]


def moves(frame, players, turns=1, buttons=0):
    """The packets of a frame in which each moves so often. Those of one who shoots have three commands."""
    found = commands(frame, turns, buttons)
    if buttons & arena.SHOOT:
        packets = [arena.moves(found[at : at + arena.MOST_COMMANDS]) for at in range(0, turns, arena.MOST_COMMANDS)]
    else:
        packets = [arena.move(command) for command in found]
    return [arena.packet_line(port, packet) for packet in packets for port in range(players)]


def recording(head, frames, packets, players=64):
    """Players join in frame 0, and `packets` gives the lines of each later frame by its number, from 0."""
    lines = [*head, "frame", *joins(players)]
    for frame in range(frames):
        lines += ["frame", *packets(frame)]
    return "\n".join([*lines, "end", ""]).encode("ascii")


# Kinds of recordings.


def far_apart():
    """Places of which those of one slot modulo 4 share a quarter of the arena: with two or four workers no two of them
    want one leaf."""
    places = [(x + 4000, y + 4000) for x, y in grid(64000)]
    quarters = [[(x, y) for x, y in places if (x > 0, y > 0) == (q % 2 > 0, q // 2 > 0)] for q in range(4)]
    return [quarters[slot % 4][slot // 4] for slot in range(64)]


def heavy(frames, *more):
    blocks = []
    for i in range(1024):
        x, y = -260000 + 16000 * (i % 32), -260000 + 16000 * (i // 32)
        blocks.append(f"block {x} {y} 0 {x + 1000} {y + 1000} 20000")
    return recording(map_lines(far_apart(), *more, *blocks), frames, lambda frame: moves(frame, 64, 8))


def crowded(frames, *more):
    return recording(map_lines(grid(9000), *more), frames, lambda frame: moves(frame, 64, 8))


def with_items(frames, count):
    """The crowded recording, with 10 items among the players and the others in a corner that no move reaches."""
    near = [(9000 * (i - 5) + 4000, 4000) for i in range(10)]
    far = [(150000 + 5000 * (i % 20), 150000 + 5000 * (i // 20)) for i in range(count - 10)]
    return crowded(frames, *(f"item {x} {y} 0 ammo 40" for x, y in near + far))


def worst_map():
    """400 items among 64 players side by side, on a map with shots. Each is in a cell of its own, so that nobody is hit
    and falls out; what it takes returns in the next frame, and a goal everywhere lets it take more."""
    cuts = [-36000 + 9000 * i for i in range(9)]
    plates = [f"block {x - 150} -40000 0 {x + 150} 40000 60000" for x in cuts]
    plates += [f"block -40000 {y - 150} 0 40000 {y + 150} 60000" for y in cuts]
    corners = [(4000 * (i % 20 - 10), 4000 * (i // 20 - 10)) for i in range(400)]
    items = [f"item {x} {y} 0 {'ammo' if x % 8000 == 0 else 'gem'} 1" for x, y in corners]
    return map_lines(grid(9000), "shots", *plates, *items, "goal -45000 -45000 0 45000 45000 20000")


def worst_moves(frame):
    return moves(frame, 64, 8, arena.SHOOT)


def worst(frames):
    return recording(worst_map(), frames, worst_moves)


def of_size(frames, size):
    """64 players far apart, of whom so many moves come in each frame."""
    players, turns = min(size, 64), max(1, size // 64)
    return recording(map_lines(far_apart()), frames, lambda frame: moves(frame, players, turns))


# Real maps.


def maps_at(path):
    """The files at a path, or in a folder, that are maps or recordings."""
    places = sorted(os.path.join(path, name) for name in os.listdir(path)) if os.path.isdir(path) else [path]
    read = ((place, arena.read_bytes(place, any_encoding=True)) for place in filter(os.path.isfile, places))
    found = [(place, data) for place, data in read if data.startswith(b"arena ")]
    if not found:
        raise FormatError(f"{path}: there is no map")
    return found


def on_maps(path, frames):
    """Each recording at a path as it is, and each map there with 64 walkers."""
    for place, data in maps_at(path):
        name = os.path.basename(place).removesuffix(".gz").removesuffix(".demo")
        case = Case(f"map {name}", data if b"\nframe\n" in data else walked(data, 64, frames))
        if not case.frames:
            raise FormatError(f"{place}: nobody can walk on this map, so there is no frame to time")
        yield case
