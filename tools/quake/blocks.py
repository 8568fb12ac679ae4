"""The blocks of a map: boxes of this server for the brushes and curves of Quake's, near where a player can come."""
from dataclasses import dataclass

from .cells import Cover, Grid, bits, flooded, grown, is_met, put_box, put_points, put_slanted
from .source import PLAYER_CLIP, SOLID, Brush, Point, Source, fills

UNIT = 256
MOST_COORDINATE = 1_048_576
LEAST_SIDE = 32_768
BOX_SHARE = 0.9
FINE = (16.0, 16.0, 8.0)
COARSE = 64.0
SIZES = ((16.0, 16.0, 8.0), (32.0, 32.0, 8.0), (32.0, 32.0, 16.0), (64.0, 64.0, 16.0), (64.0, 64.0, 32.0))

Box = tuple[int, int, int, int, int, int]


@dataclass
class Solids:
    """What stands in a player's way: boxes as they are, brushes that are slanted, and points of curves."""

    boxes: list[tuple[Point, Point]]
    slanted: list[Brush]
    curves: list[list[Point]]


@dataclass
class Blocks:
    """The blocks of a map, the bounds of its arena, and how they were made."""

    arena: Box
    blocks: list[Box]
    how: str
    reached: "Reach"


@dataclass
class Reach:
    """The cells that a point can come to from the spawns."""

    grid: Grid
    rows: list[int]
    # What is slanted or curved, and what is a box, of what stands in the way.
    slanted: list[int]
    boxed: list[int]

    def box(self) -> tuple[Point, Point]:
        across = self.grid.count[1]
        used = [at for at, row in enumerate(self.rows) if row]
        joined = 0
        for at in used:
            joined |= self.rows[at]
        ys, zs = [at % across for at in used], [at // across for at in used]
        low, high = (joined & -joined).bit_length() - 1, joined.bit_length()
        return self.grid.box((low, min(ys), min(zs), high, max(ys) + 1, max(zs) + 1))


def solids_of(source: Source, others: list[Brush]) -> Solids:
    """The world's solid brushes and these of others, those that fill their box for the most part as boxes."""
    boxes, slanted = [], []
    for brush in source.models[0].brushes + others:
        if not brush.contents & (SOLID | PLAYER_CLIP):
            continue
        if fills(brush, BOX_SHARE):
            boxes.append((brush.lo, brush.hi))
        else:
            slanted.append(brush)
    return Solids(boxes, slanted, source.curves)


def bounds(solids: Solids, seeds: list[Point]) -> tuple[Point, Point]:
    """The box around all that is solid, and the spawns."""
    los = [lo for lo, _ in solids.boxes] + [brush.lo for brush in solids.slanted] + seeds
    his = [hi for _, hi in solids.boxes] + [brush.hi for brush in solids.slanted] + seeds
    lo = tuple(min(at[axis] for at in los) for axis in range(3))
    hi = tuple(max(at[axis] for at in his) for axis in range(3))
    return lo, hi


def reach_of(solids: Solids, seeds: list[Point], size: Point = FINE) -> Reach:
    grid = Grid.around(*bounds(solids, seeds), size)
    slanted, boxed = grid.rows(), grid.rows()
    for brush in solids.slanted:
        put_slanted(grid, slanted, brush)
    for points in solids.curves:
        put_points(grid, slanted, points)
    for lo, hi in solids.boxes:
        put_box(grid, boxed, lo, hi)
    solid = [one | other for one, other in zip(slanted, boxed)]
    return Reach(grid, flooded(grid, solid, [grid.cell(at) for at in seeds]), slanted, boxed)


def shift_to_the_middle(arena: Box) -> Point | None:
    """How far a map must go for its arena to be in range, in whole cells; None where it is too large for that."""
    shift = []
    for axis in range(3):
        low, high = arena[axis] / UNIT, arena[axis + 3] / UNIT
        if high - low > 2 * MOST_COORDINATE / UNIT - 2 * COARSE:
            return None
        is_out = max(abs(low), abs(high)) > MOST_COORDINATE / UNIT
        shift.append(-round((low + high) / 2 / COARSE) * COARSE if is_out else 0.0)
    return tuple(shift)


def sub_units(lo: Point, hi: Point) -> Box:
    return tuple(round(part * UNIT) for part in (*lo, *hi))


def arena_of(reach: Reach) -> Box:
    """The bounds of the arena: what is reached, and a cell more on each side."""
    lo, hi = reach.box()
    size = reach.grid.size
    box = list(sub_units(
        tuple(lo[axis] - size[axis] for axis in range(3)), tuple(hi[axis] + size[axis] for axis in range(3))
    ))
    for axis in range(3):
        while box[axis + 3] - box[axis] < LEAST_SIDE:
            box[axis] -= UNIT * 8
            box[axis + 3] += UNIT * 8
    return tuple(box)


def is_within(box: Box, other: Box) -> bool:
    x0, y0, z0, x1, y1, z1 = box
    return other[0] <= x0 and x1 <= other[3] and other[1] <= y0 and y1 <= other[4] and other[2] <= z0 and z1 <= other[5]


def clipped(box: Box, arena: Box) -> Box | None:
    """The part of a box that is in the arena, or None."""
    lo = [max(box[i], arena[i]) for i in range(3)]
    hi = [min(box[i + 3], arena[i + 3]) for i in range(3)]
    return (*lo, *hi) if all(a < b for a, b in zip(lo, hi)) else None


def joined(boxes: list[Box]) -> list[Box]:
    """The boxes, where two that have the same sides on two axes and meet on the third are one."""
    boxes, before = sorted(set(boxes)), None
    while before != len(boxes):
        before = len(boxes)
        for axis in range(3):
            boxes = joined_along(axis, boxes)
    return boxes


def joined_along(axis: int, boxes: list[Box]) -> list[Box]:
    rows: dict[tuple, list[Box]] = {}
    for box in boxes:
        sides = tuple(box[i] for i in range(6) if i % 3 != axis)
        rows.setdefault(sides, []).append(box)
    found = []
    for row in rows.values():
        row.sort(key=lambda box: box[axis])
        last = list(row[0])
        for box in row[1:]:
            if box[axis] <= last[axis + 3]:
                last[axis + 3] = max(last[axis + 3], box[axis + 3])
            else:
                found.append(tuple(last))
                last = list(box)
        found.append(tuple(last))
    return found


def without_contained(boxes: list[Box]) -> list[Box]:
    """The boxes that lie in no other one."""
    by_size = sorted(set(boxes), key=lambda b: -(b[3] - b[0]) * (b[4] - b[1]) * (b[5] - b[2]))
    found: list[Box] = []
    for box in by_size:
        x0, y0, z0, x1, y1, z1 = box
        for a0, b0, c0, a1, b1, c1 in found:
            if a0 <= x0 and x1 <= a1 and b0 <= y0 and y1 <= b1 and c0 <= z0 and z1 <= c1:
                break
        else:
            found.append(box)
    return found


def exact_blocks(solids: Solids, reach: Reach, arena: Box, limit: int) -> list[Box] | None:
    """The boxes as they are, and cells for what is slanted; None where they are more than the limit."""
    near = grown(reach.grid, reach.rows)
    boxes = [sub_units(lo, hi) for lo, hi in solids.boxes if is_met(reach.grid, near, lo, hi)]
    boxes = [part for box in boxes if (part := clipped(box, arena))]
    boxes = joined(without_contained(boxes))
    if len(boxes) > limit:
        return None
    wanted = [row & close & ~has for row, close, has in zip(reach.slanted, near, reach.boxed)]
    around = grown(reach.grid, grown(reach.grid, wanted))
    allowed = [close & ~row for close, row in zip(around, reach.rows)]
    cells = Cover(reach.grid, wanted, allowed).boxes(limit - len(boxes))
    if cells is None:
        return None
    slanted = [part for box in cells if (part := clipped(sub_units(*reach.grid.box(box)), arena))]
    found = joined(without_contained(boxes + slanted))
    return found if len(found) <= limit else None


def cell_blocks(reach: Reach, arena: Box, limit: int) -> list[Box] | None:
    """Boxes of cells around all that is reached, over as much as no player sees; None where they are too many."""
    near = grown(reach.grid, reach.rows)
    wanted = [close & ~row for close, row in zip(near, reach.rows)]
    allowed = [bits(0, reach.grid.count[0]) & ~row for row in reach.rows]
    cells = Cover(reach.grid, wanted, allowed).boxes(limit)
    if cells is None:
        return None
    boxes = [part for box in cells if (part := clipped(sub_units(*reach.grid.box(box)), arena))]
    return without_contained(boxes)


def blocks_of(solids: Solids, seeds: list[Point], reach: Reach, limit: int) -> Blocks | None:
    """The blocks of a map from where its players join, at most so many: exact where that suffices, else of cells."""
    arena = arena_of(reach)
    found = exact_blocks(solids, reach, arena, limit)
    if found is not None:
        return Blocks(arena, found, "boxes as they are, and slopes and curves by cells of 16 x 16 x 8", reach)
    for size in SIZES:
        reach = reach if size == FINE else reach_of(solids, seeds, size)
        if not any(reach.rows):
            continue
        arena = arena_of(reach)
        found = cell_blocks(reach, arena, limit)
        if found is not None:
            return Blocks(arena, found, "all by cells of {:.0f} x {:.0f} x {:.0f}".format(*size), reach)
    return None
