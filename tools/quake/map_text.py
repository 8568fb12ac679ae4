"""Reads the text of a map (`.map`), as editors of Quake write it: entities with brushes of planes by three points."""
import re

from .source import LAVA, MOST, PLAYER_CLIP, SLIME, SOLID, MapFault, Model, Source, brush_of

# Each text has one way to be a number: a search of several ways takes time without bound in a line that is no plane.
NUMBER = r"(-?(?:[0-9]+(?:\.[0-9]*)?|\.[0-9]+)(?:[eE][-+]?[0-9]+)?)"
POINTS = re.compile(r"\(\s*" + r"\s*\)\s*\(\s*".join([r"\s+".join([NUMBER] * 3)] * 3) + r"\s*\)\s*(\S+)")
PAIR = re.compile(r'"([^"]*)"\s+"([^"]*)"')
# What a player goes through, by the end of its texture's name.
THROUGH = ("hint", "skip", "areaportal", "antiportal", "trigger", "nodrawnonsolid", "donotenter", "origin", "water", "fog")


def contents_of(texture: str) -> int:
    """What a brush with this texture is to a player."""
    name = texture.lower().rstrip("0123456789")
    if "lava" in name:
        return LAVA
    if "slime" in name:
        return SLIME
    if name.endswith(THROUGH) or name.startswith("*"):
        return 0
    if name.endswith(("playerclip", "clip")) and not name.endswith(("botclip", "weapclip")):
        return PLAYER_CLIP
    return SOLID


def coordinate(word: str, line: int) -> float:
    value = float(word)
    if abs(value) > MOST:
        raise MapFault(f"line {line} has a number that no map has")
    return value


def plane_of(numbers: list[float]):
    """The plane through three points, as (normal, distance); its outside is where the points go clockwise."""
    a, b, c = numbers[0:3], numbers[3:6], numbers[6:9]
    u = [c[i] - a[i] for i in range(3)]
    v = [b[i] - a[i] for i in range(3)]
    n = (u[1] * v[2] - u[2] * v[1], u[2] * v[0] - u[0] * v[2], u[0] * v[1] - u[1] * v[0])
    length = (n[0] ** 2 + n[1] ** 2 + n[2] ** 2) ** 0.5
    if length < 1e-9:
        return None
    n = tuple(0.0 if abs(part / length) < 1e-9 else part / length for part in n)
    return n, sum(n[i] * a[i] for i in range(3))


def finished_brush(planes, textures):
    """The brush of what was read between its braces, or None where it is none."""
    planes = [plane for plane in planes if plane]
    if len(planes) < 4:
        return None
    contents = contents_of(textures[0]) if textures else 0
    return brush_of(planes, contents)


def read_map_text(text: str, name: str) -> Source:
    """A map of the text of a `.map` file. Curves (`patchDef2`) are left out. Raises MapFault where it is no such text."""
    entities, models = [], [Model()]
    entity, model, planes, textures = None, None, None, []
    depth = 0
    for number, line in enumerate(text.splitlines(), 1):
        line = line.split("//")[0].strip() if not line.strip().startswith('"') else line.strip()
        if not line:
            continue
        if line == "{":
            depth += 1
            if depth == 1:
                entity, model = {}, Model()
            elif depth == 2:
                planes, textures = [], []
        elif line == "}":
            depth -= 1
            if depth == 1 and planes is not None:
                brush = finished_brush(planes, textures)
                model.brushes += [brush] if brush else []
                planes = None
            elif depth == 0:
                add_entity(entities, models, entity, model)
        elif depth == 1 and (pair := PAIR.match(line)):
            entity[pair[1].lower()] = pair[2]
        elif depth >= 2 and (found := POINTS.match(line)):
            planes.append(plane_of([coordinate(part, number) for part in found.groups()[:9]]))
            textures.append(found[10])
        if depth < 0:
            raise MapFault(f"line {number} closes a brace that isn't open")
    if depth or not entities:
        raise MapFault("it is no text of a map: it has no entity, or a brace stays open")
    return Source(name, entities, models, [])


def add_entity(entities, models, entity, model):
    """Puts an entity with its brushes to those before it: the world's are model 0."""
    if entity.get("classname") == "worldspawn" or entity.get("classname") in ("func_group", "func_detail"):
        models[0].brushes += model.brushes
    elif model.brushes:
        entity = {**entity, "model": f"*{len(models)}"}
        models.append(model)
    entities.append(entity)
