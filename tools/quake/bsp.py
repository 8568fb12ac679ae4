"""Reads a BSP of Quake 3 (version 46), as OpenArena and Nexuiz have them: brushes, planes, entities, models, curves."""
import re
import struct

from .source import MOST, Brush, MapFault, Model, Point, Source, brush_of

VERSION = 46
ENTITIES, SHADERS, PLANES, MODELS, BRUSHES, SIDES, VERTICES, FACES = 0, 1, 2, 7, 8, 9, 10, 13
LUMPS = 17
PATCH = 2
NON_SOLID = 0x4000
# Two points of a curve are at most so far from each other where it is cut into points.
CURVE_STEP = 6.0
MOST_STEPS = 48


class Lumps:
    """The parts of a BSP file."""

    def __init__(self, data: bytes):
        if len(data) < 8 + 8 * LUMPS or data[:4] != b"IBSP":
            raise MapFault("it is no BSP of Quake 3: it doesn't begin with IBSP")
        version = struct.unpack_from("<i", data, 4)[0]
        if version != VERSION:
            raise MapFault(f"it is a BSP of version {version}; {VERSION} is read, that of Quake 3")
        self.data = data
        self.places = [struct.unpack_from("<ii", data, 8 + 8 * i) for i in range(LUMPS)]

    def lump(self, which: int) -> bytes:
        at, length = self.places[which]
        if at < 0 or length < 0 or at + length > len(self.data):
            raise MapFault(f"it is cut: its part {which} goes beyond its end")
        return self.data[at : at + length]

    def rows(self, which: int, form: str) -> list[tuple]:
        lump = self.lump(which)
        size = struct.calcsize(form)
        return list(struct.iter_unpack(form, lump[: len(lump) // size * size]))


def entities_of(text: str) -> list[dict[str, str]]:
    """The entities of a text of `{ "key" "value" .. }`."""
    return [
        {key.lower(): value for key, value in re.findall(r'"([^"]*)"\s*"([^"]*)"', body)}
        for body in re.findall(r"\{([^{}]*)\}", text)
    ]


def brushes_of(lumps: Lumps) -> list[Brush | None]:
    planes = lumps.rows(PLANES, "<4f")
    sides = lumps.rows(SIDES, "<ii")
    shaders = lumps.rows(SHADERS, "<64sii")
    found = []
    for first, count, shader in lumps.rows(BRUSHES, "<iii"):
        if min(first, count, shader, *(plane for plane, _ in sides[first : first + count])) < 0:
            raise MapFault("it is broken: a brush names a part below 0")
        try:
            own = [planes[sides[i][0]] for i in range(first, first + count)]
            contents = shaders[shader][2]
        except IndexError:
            raise MapFault("it is broken: a brush names a plane or a shader that isn't there") from None
        found.append(brush_of([((x, y, z), d) for x, y, z, d in own], contents & 0xFFFFFFFF))
    return found


def curve_points(controls: list[Point], width: int, height: int) -> list[Point]:
    """Points on a curve, a grid of control points of biquadratic patches, near enough to each other to miss no cell."""
    points = []
    for row in range(0, height - 2, 2):
        for column in range(0, width - 2, 2):
            nine = [controls[(row + i) * width + column + j] for i in range(3) for j in range(3)]
            spans = [max(nine[k][axis] for k in range(9)) - min(nine[k][axis] for k in range(9)) for axis in range(3)]
            steps = max(2, min(MOST_STEPS, int(max(spans) / CURVE_STEP) + 1))
            weights = [((1 - t) ** 2, 2 * t * (1 - t), t * t) for t in (i / steps for i in range(steps + 1))]
            for a, b, c in weights:
                (x0, y0, z0), (x1, y1, z1), (x2, y2, z2) = (
                    [a * one + b * two + c * three for one, two, three in zip(*nine[j::3])] for j in range(3)
                )
                points += [
                    (a * x0 + b * x1 + c * x2, a * y0 + b * y1 + c * y2, a * z0 + b * z1 + c * z2) for a, b, c in weights
                ]
    return points


def curves_of(lumps: Lumps) -> list[list[Point]]:
    vertices = lumps.rows(VERTICES, "<3f32x")
    shaders = lumps.rows(SHADERS, "<64sii")
    found = []
    for face in lumps.rows(FACES, "<12i12fii"):
        shader, kind, first, count = face[0], face[2], face[3], face[4]
        width, height = face[-2], face[-1]
        if kind != PATCH or not 0 <= shader < len(shaders):
            continue
        _, flags, contents = shaders[shader]
        if not contents & 1 or flags & NON_SOLID or width * height != count:
            continue
        if not 0 <= first <= len(vertices) - count:
            raise MapFault("it is broken: a curve names points that aren't there")
        controls = vertices[first : first + count]
        if not all(abs(part) <= MOST for at in controls for part in at):
            raise MapFault("it is broken: a curve has a number that no map has")
        found.append(curve_points(controls, width, height))
    return found


def read_bsp(data: bytes, name: str) -> Source:
    """A map of the bytes of a BSP file. Raises MapFault where they are none."""
    lumps = Lumps(data)
    brushes = brushes_of(lumps)
    models = []
    for row in lumps.rows(MODELS, "<6f4i"):
        first, count = row[8], row[9]
        models.append(Model([brush for brush in brushes[first : first + count] if brush]))
    if not models:
        raise MapFault("it has no model, so no world")
    text = lumps.lump(ENTITIES).rstrip(b"\0").decode("utf-8", "replace")
    return Source(name, entities_of(text), models, curves_of(lumps))
