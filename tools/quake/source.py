"""What a map of Quake says, whichever file it came from: brushes, curves and entities, in units of Quake."""
from dataclasses import dataclass, field

# No number of a map is beyond this one.
MOST = 1e9
# Corners are looked for in a body of no more sides: the time grows with their fourth power, to a second or two for these.
MOST_SIDES = 72
SOLID = 1
LAVA = 8
SLIME = 16
PLAYER_CLIP = 0x10000

Point = tuple[float, float, float]


class MapFault(Exception):
    """Why a file is no map that can be read."""


@dataclass
class Brush:
    """A convex body: the points p with n * p <= d for each of its planes."""

    planes: list[tuple[Point, float]]
    contents: int
    lo: Point = (0.0, 0.0, 0.0)
    hi: Point = (0.0, 0.0, 0.0)
    is_box: bool = False

    def is_empty(self) -> bool:
        return any(hi - lo < 0.5 for lo, hi in zip(self.lo, self.hi))

    def moved(self, by: Point) -> "Brush":
        """The brush somewhere else."""
        planes = [(n, d + sum(a * b for a, b in zip(n, by))) for n, d in self.planes]
        lo, hi = (tuple(a + b for a, b in zip(corner, by)) for corner in (self.lo, self.hi))
        return Brush(planes, self.contents, lo, hi, self.is_box)


@dataclass
class Model:
    """The brushes of an entity; model 0 is the world."""

    brushes: list[Brush] = field(default_factory=list)

    def box(self) -> tuple[Point, Point] | None:
        """The box around the brushes, or None where there are none."""
        if not self.brushes:
            return None
        lo = tuple(min(brush.lo[axis] for brush in self.brushes) for axis in range(3))
        hi = tuple(max(brush.hi[axis] for brush in self.brushes) for axis in range(3))
        return lo, hi


@dataclass
class Source:
    """A map: its entities by key, their models, and the points of its curves."""

    name: str
    entities: list[dict[str, str]]
    models: list[Model]
    curves: list[list[Point]]


def moved_source(source: Source, by: Point) -> Source:
    """The whole map somewhere else."""
    entities = []
    for entity in source.entities:
        at = point(entity)
        whole = {**entity, "origin": " ".join(str(a + b) for a, b in zip(at, by))} if at and not entity.get("model") else entity
        entities.append(whole)
    models = [Model([brush.moved(by) for brush in model.brushes]) for model in source.models]
    curves = [[tuple(a + b for a, b in zip(at, by)) for at in points] for points in source.curves]
    return Source(source.name, entities, models, curves)


def planes_meet(a, b, c) -> Point | None:
    """The point in which three planes meet, or None."""
    (n1, d1), (n2, d2), (n3, d3) = a, b, c
    cross = (n2[1] * n3[2] - n2[2] * n3[1], n2[2] * n3[0] - n2[0] * n3[2], n2[0] * n3[1] - n2[1] * n3[0])
    det = n1[0] * cross[0] + n1[1] * cross[1] + n1[2] * cross[2]
    if abs(det) < 1e-6:
        return None
    c31 = (n3[1] * n1[2] - n3[2] * n1[1], n3[2] * n1[0] - n3[0] * n1[2], n3[0] * n1[1] - n3[1] * n1[0])
    c12 = (n1[1] * n2[2] - n1[2] * n2[1], n1[2] * n2[0] - n1[0] * n2[2], n1[0] * n2[1] - n1[1] * n2[0])
    return tuple((d1 * cross[i] + d2 * c31[i] + d3 * c12[i]) / det for i in range(3))


def corners(planes) -> list[Point]:
    """The corners of the body that these planes bound."""
    found = []
    for i in range(len(planes)):
        for j in range(i):
            for k in range(j):
                at = planes_meet(planes[i], planes[j], planes[k])
                if at and all(n[0] * at[0] + n[1] * at[1] + n[2] * at[2] <= d + 0.1 for n, d in planes):
                    found.append(at)
    return found


def axial_box(planes) -> tuple[Point, Point] | None:
    """The box of the planes that are along the axes, or None where they are fewer than six."""
    lo: list[float | None] = [None] * 3
    hi: list[float | None] = [None] * 3
    for n, d in planes:
        for axis in range(3):
            if n[axis] > 0.9999:
                hi[axis] = d if hi[axis] is None else min(hi[axis], d)
            elif n[axis] < -0.9999:
                lo[axis] = -d if lo[axis] is None else max(lo[axis], -d)
    if None in lo or None in hi:
        return None
    return tuple(lo), tuple(hi)


def is_axial(n: Point) -> bool:
    return max(abs(part) for part in n) > 0.9999


def brush_of(planes, contents: int) -> Brush | None:
    """A brush of these planes, or None where it has no inside."""
    if not all(abs(part) <= MOST for n, d in planes for part in (*n, d)):
        raise MapFault("it is broken: a brush has a number that no map has")
    box = axial_box(planes)
    is_box = all(is_axial(n) for n, _ in planes)
    if box is None:
        if len(planes) > MOST_SIDES:
            raise MapFault(f"a brush has {len(planes)} sides, and {MOST_SIDES} are the most where they are no box")
        points = corners(planes)
        if len(points) < 4:
            return None
        box = tuple(tuple(pick(point[axis] for point in points) for axis in range(3)) for pick in (min, max))
    brush = Brush(planes, contents, box[0], box[1], is_box)
    return None if brush.is_empty() else brush


def fills(brush: Brush, share: float, across: int = 6) -> bool:
    """Whether a brush fills this share of its box, by the middles of across^3 cells."""
    if brush.is_box:
        return True
    sides = [hi - lo for lo, hi in zip(brush.lo, brush.hi)]
    slanted = [(n, d) for n, d in brush.planes if not is_axial(n)]
    places = [[lo + side * (i + 0.5) / across for i in range(across)] for lo, side in zip(brush.lo, sides)]
    whole, outside = across**3, 0
    for x in places[0]:
        for y in places[1]:
            across_z = [(n[0] * x + n[1] * y, n[2], d) for n, d in slanted]
            for z in places[2]:
                for part, nz, d in across_z:
                    if part + nz * z > d:
                        outside += 1
                        if (whole - outside) / whole < share:
                            return False
                        break
    return True


def number(entity: dict[str, str], key: str, default: float) -> float:
    """A number of an entity, or what it is without one."""
    try:
        value = float(entity.get(key, "").split()[0])
    except (IndexError, ValueError):
        return default
    return value if abs(value) <= MOST else default


def point(entity: dict[str, str], key: str = "origin") -> Point | None:
    """A point of an entity, or None."""
    parts = entity.get(key, "").split()
    try:
        at = tuple(float(part) for part in parts)
    except ValueError:
        return None
    return at if len(at) == 3 and all(abs(part) <= MOST for part in at) else None
