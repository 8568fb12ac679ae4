"""A grid of cells, each solid or free, with a row of bits for each y and z; flooding it, and covering it by boxes."""
from collections import deque
from dataclasses import dataclass
from functools import reduce
from math import ceil, floor
from operator import and_

from .source import Brush, MapFault, Point

MOST_ROWS, MOST_CELLS = 1 << 22, 1 << 33

# The box of whole cells from (x0, y0, z0) up to and without (x1, y1, z1).
Cells = tuple[int, int, int, int, int, int]


def bits(first: int, past: int) -> int:
    """A row with the bits from `first` up to and without `past`."""
    return ((1 << past) - 1) & ~((1 << first) - 1) if past > first else 0


@dataclass
class Grid:
    """Cells of this size from the corner `lo` on, in units of Quake."""

    lo: Point
    size: Point
    count: tuple[int, int, int]

    @staticmethod
    def around(lo: Point, hi: Point, size: Point) -> "Grid":
        """The grid of cells at whole multiples of their size that covers a box, with a cell more on each side."""
        first = [floor(lo[axis] / size[axis]) - 1 for axis in range(3)]
        past = [ceil(hi[axis] / size[axis]) + 1 for axis in range(3)]
        start = tuple(first[axis] * size[axis] for axis in range(3))
        count = tuple(past[axis] - first[axis] for axis in range(3))
        if count[1] * count[2] > MOST_ROWS or count[0] * count[1] * count[2] > MOST_CELLS:
            raise MapFault("it is too large: from {} {} {} to {} {} {}".format(*map(round, (*lo, *hi))))
        return Grid(start, size, count)

    def rows(self) -> list[int]:
        """A row of no bits for each y and z."""
        return [0] * (self.count[1] * self.count[2])

    def range_of(self, axis: int, lo: float, hi: float) -> tuple[int, int]:
        """The cells along an axis that have something strictly between two places."""
        first = max(0, floor((lo - self.lo[axis]) / self.size[axis] + 1e-6))
        past = min(self.count[axis], ceil((hi - self.lo[axis]) / self.size[axis] - 1e-6))
        return first, past

    def place(self, axis: int, cell: int) -> float:
        """Where a cell begins."""
        return self.lo[axis] + cell * self.size[axis]

    def cell(self, at: Point) -> tuple[int, int, int]:
        return tuple(
            min(self.count[axis] - 1, max(0, floor((at[axis] - self.lo[axis]) / self.size[axis]))) for axis in range(3)
        )

    def box(self, cells: Cells) -> tuple[Point, Point]:
        lo = tuple(self.place(axis, cells[axis]) for axis in range(3))
        hi = tuple(self.place(axis, cells[3 + axis]) for axis in range(3))
        return lo, hi


def put_box(grid: Grid, rows: list[int], lo: Point, hi: Point) -> None:
    """Sets the cells whose middle is in a box, or all that it meets where it is thinner than a cell."""
    spans = []
    for axis in range(3):
        half = grid.size[axis] / 2
        first, past = grid.range_of(axis, lo[axis] + half, hi[axis] - half)
        spans.append((first, past) if past > first else grid.range_of(axis, lo[axis], hi[axis]))
    row = bits(*spans[0])
    first, past = spans[1]
    if past <= first:
        return
    for z in range(*spans[2]):
        at = z * grid.count[1]
        rows[at + first : at + past] = [own | row for own in rows[at + first : at + past]]


def put_slanted(grid: Grid, rows: list[int], brush: Brush) -> None:
    """Sets the cells that a slanted brush fills for the most part, row by row."""
    x_first, x_past = grid.range_of(0, brush.lo[0], brush.hi[0])
    half = tuple(side / 2 for side in grid.size)
    y_first, y_past = grid.range_of(1, brush.lo[1], brush.hi[1])
    mids = [grid.place(1, y) + half[1] for y in range(y_first, y_past)]
    left, right = grid.place(0, x_first), grid.place(0, x_past)
    # Of each plane what is left of its distance for each y, and its parts along x and z.
    highs, lows, flats = [], [], []
    for n, d in brush.planes:
        slack = 0.5 * sum(abs(n[axis]) * half[axis] for axis in range(3))
        whole = d + slack
        kind = highs if n[0] > 1e-6 else lows if n[0] < -1e-6 else flats
        kind.append(([whole - n[1] * mid for mid in mids], n[2], n[0]))
    start, width, count = grid.lo[0], grid.size[0], grid.count[0]
    for z in range(*grid.range_of(2, brush.lo[2], brush.hi[2])):
        mid_z = grid.place(2, z) + half[2]
        own_highs = [(rests, nz * mid_z, nx) for rests, nz, nx in highs]
        own_lows = [(rests, nz * mid_z, nx) for rests, nz, nx in lows]
        own_flats = [(rests, nz * mid_z) for rests, nz, _ in flats]
        at = z * grid.count[1] + y_first
        for place in range(y_past - y_first):
            if any(rests[place] - part < 0 for rests, part in own_flats):
                continue
            low, high = left, right
            for rests, part, nx in own_highs:
                most = (rests[place] - part) / nx
                if most < high:
                    high = most
            for rests, part, nx in own_lows:
                least = (rests[place] - part) / nx
                if least > low:
                    low = least
            first = max(0, ceil((low - half[0] - start) / width - 1e-6))
            past = min(count, floor((high - half[0] - start) / width + 1e-6) + 1)
            if past > first:
                rows[at + place] |= (1 << past) - (1 << first)


def put_points(grid: Grid, rows: list[int], points: list[Point]) -> None:
    (x0, y0, z0), (wide, long, tall), (most_x, most_y, most_z) = grid.lo, grid.size, (count - 1 for count in grid.count)
    across = grid.count[1]
    for x, y, z in points:
        # Below 0 the number is cut, which is 0 where it would be rounded down to -1.
        column, row, level = int((x - x0) / wide), int((y - y0) / long), int((z - z0) / tall)
        column = 0 if column < 0 else most_x if column > most_x else column
        row = 0 if row < 0 else most_y if row > most_y else row
        level = 0 if level < 0 else most_z if level > most_z else level
        rows[level * across + row] |= 1 << column


def spread(seeds: int, free: int) -> int:
    """All bits of `free` in a row with one of the seeds, of its own, without a gap between."""
    found = 0
    while seeds:
        seed = seeds & -seeds
        # The sum carries from the seed to the first bit after its run.
        past = (free + seed) & ~free
        run = past - (1 << (~free & (seed - 1)).bit_length())
        found |= run
        seeds &= ~run
    return found


def flooded(grid: Grid, solid: list[int], seeds: list[tuple[int, int, int]]) -> list[int]:
    """The free cells that are reached from these without going through a solid one."""
    all_bits, across = bits(0, grid.count[0]), grid.count[1]
    # What is not reached yet, and what of it is beside what is: rows with a margin, in which nothing is free.
    wide = across + 2
    left = [0] * wide
    for start in range(0, len(solid), across):
        left += [0, *[all_bits & ~row for row in solid[start : start + across]], 0]
    left += [0] * wide
    waiting, todo = [0] * len(left), deque()
    for x, y, z in seeds:
        at = (z + 1) * wide + y + 1
        waiting[at] |= 1 << x
        todo.append(at)
    while todo:
        at = todo.popleft()
        own = spread(waiting[at] & left[at], left[at])
        waiting[at] = 0
        left[at] ^= own
        if not own:
            continue
        for beside in (at - 1, at + 1, at - wide, at + wide):
            more = own & left[beside]
            if more:
                if not waiting[beside]:
                    todo.append(beside)
                waiting[beside] |= more
    reached = []
    for start in range(0, len(solid), across):
        first = (start // across + 1) * wide + 1
        rows = zip(solid[start : start + across], left[first : first + across])
        reached += [all_bits & ~row & ~rest for row, rest in rows]
    return reached


def grown(grid: Grid, rows: list[int]) -> list[int]:
    """These cells and all beside them, corners too."""
    all_bits, across = bits(0, grid.count[0]), grid.count[1]
    tall = []
    for start in range(0, len(rows), across):
        wide = [row and (row | row << 1 | row >> 1) & all_bits for row in rows[start : start + across]]
        tall += [a | b | c for a, b, c in zip([0, *wide[:-1]], wide, [*wide[1:], 0])]
    none = [0] * across
    return [a | b | c for a, b, c in zip(none + tall[:-across], tall, tall[across:] + none)]


def is_met(grid: Grid, rows: list[int], lo: Point, hi: Point) -> bool:
    """Whether some of these cells have something in a box."""
    spans = [grid.range_of(axis, lo[axis], hi[axis]) for axis in range(3)]
    row = bits(*spans[0])
    for z in range(*spans[2]):
        at = z * grid.count[1]
        for own in rows[at + spans[1][0] : max(at, at + spans[1][1])]:
            if own & row:
                return True
    return False


def repeated(row: int, width: int, times: int) -> int:
    """A row of so many bits, so often after itself."""
    found, has = row, 1
    while has < times:
        more = min(has, times - has)
        found |= (found & ((1 << more * width) - 1)) << has * width
        has += more
    return found


def packed(rows: list[int], width: int) -> int:
    """Rows of so many bits one after another as one number."""
    size = (width + 7) // 8
    return int.from_bytes(b"".join(row.to_bytes(size, "little") for row in rows), "little")


class Cover:
    """Boxes that cover all cells that are wanted, and no cell that isn't allowed.

    A layer is all rows of one z, or of one y, as one number, so that a box grows by one comparison for each step.
    """

    def __init__(self, grid: Grid, wanted: list[int], allowed: list[int]):
        self.grid, self.allowed = grid, allowed
        _, across, high = self.grid.count
        self.width = (grid.count[0] + 7) // 8 * 8
        self.left = [packed(wanted[z * across : (z + 1) * across], self.width) for z in range(high)]
        self.of_z = [packed(allowed[z * across : (z + 1) * across], self.width) for z in range(high)]
        self.of_y = [packed(allowed[y::across], self.width) for y in range(across)]

    def mask(self, box: list[int], axis: int) -> int:
        """The box's rows in a layer across this axis, 1 or 2."""
        other = 3 - axis
        return repeated(bits(box[0], box[3]), self.width, box[other + 3] - box[other]) << box[other] * self.width

    def grown_along(self, axis: int, box: list[int]) -> None:
        """Grows a box along an axis, to both sides, as far as it is allowed."""
        if axis == 0:
            across = self.grid.count[1]
            common = -1
            for z in range(box[2], box[5]):
                common = reduce(and_, self.allowed[z * across + box[1] : z * across + box[4]], common)
            below = ~common & ((1 << box[0]) - 1)
            box[0] = below.bit_length()
            above = ~(common >> box[3])
            box[3] += (above & -above).bit_length() - 1
            return
        layers, mask = (self.of_y if axis == 1 else self.of_z), self.mask(box, axis)
        low, past, count = box[axis], box[axis + 3], self.grid.count[axis]
        while low > 0 and layers[low - 1] & mask == mask:
            low -= 1
        while past < count and layers[past] & mask == mask:
            past += 1
        box[axis], box[axis + 3] = low, past

    def gain(self, box: list[int]) -> int:
        mask = self.mask(box, 2)
        return sum((layer & mask).bit_count() for layer in self.left[box[2] : box[5]])

    def best_at(self, x: int, y: int, z: int) -> list[int]:
        """The box around a cell that covers most of what is left, of those that grow along the axes in some order."""
        found, most = None, -1
        for order in ((0, 1, 2), (1, 2, 0), (2, 0, 1)):
            box = [x, y, z, x + 1, y + 1, z + 1]
            for axis in order:
                self.grown_along(axis, box)
            if box == found:
                continue
            gain = self.gain(box)
            if gain > most:
                found, most = box, gain
        return found

    def boxes(self, limit: int) -> list[Cells] | None:
        """The boxes, or None where more than so many are needed."""
        found = []
        for z, _ in enumerate(self.left):
            while layer := self.left[z]:
                if len(found) == limit:
                    return None
                y, x = divmod((layer & -layer).bit_length() - 1, self.width)
                box = self.best_at(x, y, z)
                mask = self.mask(box, 2)
                for own in range(box[2], box[5]):
                    self.left[own] &= ~mask
                found.append(tuple(box))
        return found
