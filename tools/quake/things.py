"""Spawns, items, goals, teleporters and lifts of a map, and what of it can't be carried."""
from dataclasses import dataclass, field

from .blocks import UNIT, Blocks, Box, is_within
from .source import LAVA, SLIME, Brush, Point, Source, number, point

FRAMES_A_SECOND = 20
MOST = {"spawn": 64, "item": 400, "teleport": 16, "goal": 16, "lift": 16}
# A player's body around its origin, and an item's.
PLAYER = (-16 * UNIT, -16 * UNIT, -24 * UNIT, 16 * UNIT, 16 * UNIT, 32 * UNIT)
ITEM = (0, 0, 0, 32 * UNIT, 32 * UNIT, 56 * UNIT)
MOST_RISE, MOST_SPEED, MOST_DELAY = 1_048_576, 2_560, 65_535
HIGHEST_LIFT_OF_SETTLING = 96 * UNIT
SPAWNS = ("info_player_deathmatch", "info_player_start", "info_player_team1", "info_player_team2")
TEAM_SPAWNS = ("team_ctf_redplayer", "team_ctf_blueplayer", "team_ctf_redspawn", "team_ctf_bluespawn")
FLAGS = ("team_ctf_redflag", "team_ctf_blueflag", "team_ctf_neutralflag", "item_flag_team1", "item_flag_team2")
BASES = ("team_redobelisk", "team_blueobelisk", "team_neutralobelisk")
# The first word that a class begins with says what it gives, and how many seconds it stays away.
ITEMS = (
    ("ammo_", "ammo", 40), ("weapon_", "ammo", 5), ("item_ammo", "ammo", 40), ("item_shells", "ammo", 40),
    ("item_bullets", "ammo", 40), ("item_rockets", "ammo", 40), ("item_cells", "ammo", 40),
    ("item_armor", "gem", 25), ("item_health", "gem", 35), ("holdable_", "gem", 60), ("item_", "gem", 120),
)
# What a map has for display, sound, light, bots and the like: nothing that a player meets.
UNSEEN = (
    "worldspawn", "light", "target_", "info_null", "info_notnull", "info_camp", "info_player_intermission",
    "misc_model", "misc_portal", "path_", "shooter_", "func_timer", "func_group", "func_detail", "speaker", "trigger_always",
    "info_spectator", "dom_", "env_", "misc_gamemodel", "misc_clientmodel", "misc_external", "advertisement", "func_rain",
    "func_snow", "func_pointparticles", "target", "race_", "onslaught_", "info_location", "func_clientwall",
)


@dataclass
class Things:
    """The lines of things, and what was left out: by why, how often, and where first."""

    spawns: list[str] = field(default_factory=list)
    items: list[str] = field(default_factory=list)
    goals: list[str] = field(default_factory=list)
    teleports: list[str] = field(default_factory=list)
    lifts: list[str] = field(default_factory=list)
    left_out: dict[str, list[str]] = field(default_factory=dict)

    def leave_out(self, why: str, where: Point | Box | None) -> None:
        told = "somewhere" if where is None else "at " + " ".join(f"{part:.0f}" for part in where[:3])
        self.left_out.setdefault(why, []).append(told)

    def lines(self) -> list[str]:
        return self.spawns + self.items + self.teleports + self.goals + self.lifts

    def add(self, kind: str, line: str, where: Point | None) -> bool:
        """Puts a line of this kind, if there may be one more."""
        lines = {"spawn": self.spawns, "item": self.items, "goal": self.goals, "teleport": self.teleports,
                 "lift": self.lifts}[kind]
        if len(lines) >= MOST[kind]:
            self.leave_out(f"{kind}: there are {MOST[kind]} already", where)
            return False
        if line in lines:
            self.leave_out(f"{kind}: the same twice", where)
            return False
        lines.append(line)
        return True


def overlaps(a: Box, b: Box) -> bool:
    return a[0] < b[3] and b[0] < a[3] and a[1] < b[4] and b[1] < a[4] and a[2] < b[5] and b[2] < a[5]


def at_origin(body: Box, origin) -> Box:
    return tuple(body[i] + origin[i % 3] for i in range(6))


class Room:
    """Where bodies fit in an arena with blocks."""

    def __init__(self, blocks: Blocks):
        self.arena, self.blocks = blocks.arena, list(blocks.blocks)

    def is_free(self, box: Box) -> bool:
        return is_within(box, self.arena) and not any(overlaps(box, block) for block in self.blocks)

    def floor_below(self, box: Box) -> int:
        """The height of what is right below a box."""
        tops = [
            block[5] for block in self.blocks
            if block[5] <= box[2] and all(block[i] < box[i + 3] and box[i] < block[i + 3] for i in (0, 1))
        ]
        return max(tops + [self.arena[2]])

    def settled(self, body: Box, at: Point) -> tuple[int, int, int] | None:
        """The origin on the floor at which a body is free: first up, out of what it is in, and then down; or None."""
        x, y, z = (round(part * UNIT) for part in at)
        for up in range(0, HIGHEST_LIFT_OF_SETTLING + 1, 4 * UNIT):
            box = at_origin(body, (x, y, z + up))
            if self.is_free(box):
                return x, y, self.floor_below(box) - body[2]
        return None


def model_brushes(source: Source, entity: dict[str, str]) -> list[Brush]:
    """The brushes of an entity's model, where they are in the map."""
    name = entity.get("model", "")
    try:
        model = source.models[int(name[1:])] if name.startswith("*") else None
    except (ValueError, IndexError):
        return []
    if not model:
        return []
    by = point(entity) or (0.0, 0.0, 0.0)
    return [brush.moved(by) for brush in model.brushes] if any(by) else model.brushes


def model_box(source: Source, entity: dict[str, str]):
    brushes = model_brushes(source, entity)
    if not brushes:
        return None
    lo = tuple(min(brush.lo[axis] for brush in brushes) for axis in range(3))
    hi = tuple(max(brush.hi[axis] for brush in brushes) for axis in range(3))
    return lo, hi


def class_of(entity: dict[str, str]) -> str:
    return entity.get("classname", "").lower()


def is_spawn(entity: dict[str, str]) -> bool:
    return class_of(entity) in SPAWNS + TEAM_SPAWNS


def standing_brushes(source: Source) -> list[Brush]:
    """The brushes of entities that stand still, as `func_static`."""
    still = ("func_static", "func_wall", "func_illusionary_clip", "func_breakable", "func_bobbing_static")
    return [brush for entity in source.entities if class_of(entity) in still for brush in model_brushes(source, entity)]


def text_of(*numbers: int) -> str:
    return " ".join(str(part) for part in numbers)


def is_seen(blocks: Blocks, box: Box) -> bool:
    """Whether a box is in the arena."""
    return is_within(box, blocks.arena)


def cut_to(box, arena: Box) -> Box | None:
    found = [max(round(box[0][i] * UNIT), arena[i]) for i in range(3)]
    found += [min(round(box[1][i] * UNIT), arena[i + 3]) for i in range(3)]
    return tuple(found) if all(found[i] < found[i + 3] for i in range(3)) else None


class Carrier:
    """Carries the entities of a map over, one after another."""

    def __init__(self, source: Source, blocks: Blocks):
        self.source, self.blocks = source, blocks
        self.room = Room(blocks)
        self.things = Things()
        self.targets = {e["targetname"]: e for e in source.entities if "targetname" in e}
        self.shafts: list[Box] = []

    def carry_all(self) -> Things:
        for entity in self.source.entities:
            if class_of(entity) in ("func_plat", "func_door"):
                self.lift(entity)
        for entity in sorted(self.source.entities, key=lambda e: class_of(e) in TEAM_SPAWNS):
            if is_spawn(entity):
                self.spawn(entity)
        for wanted in ("trigger_teleport", "trigger_push"):
            for entity in self.source.entities:
                if class_of(entity) == wanted:
                    self.teleporter(entity)
        self.hurts()
        for entity in self.source.entities:
            self.other(entity)
        return self.things

    def spawn(self, entity) -> None:
        at = point(entity)
        origin = at and self.room.settled(PLAYER, at)
        if origin is None:
            self.things.leave_out("spawn: a player has no room there", at)
        else:
            self.things.add("spawn", f"spawn {text_of(*origin)}", at)

    def item(self, entity, kind: str, seconds: float) -> None:
        at = point(entity)
        if at is None:
            self.things.leave_out("item: it has no place", None)
            return
        corner = (at[0] - 16, at[1] - 16, at[2] - 15)
        x, y, z = (round(part * UNIT) for part in corner)
        if not int(number(entity, "spawnflags", 0)) & 1:
            z = self.room.floor_below(at_origin((*ITEM[:3], ITEM[3], ITEM[4], 1), (x, y, z + 16 * UNIT)))
        if not is_seen(self.blocks, at_origin(ITEM, (x, y, z))):
            self.things.leave_out("item: it isn't in the arena that is reached", at)
            return
        delay = round(number(entity, "wait", seconds) * FRAMES_A_SECOND)
        delay = min(max(delay if delay > 0 else round(seconds * FRAMES_A_SECOND), 1), MOST_DELAY)
        self.things.add("item", f"item {text_of(x, y, z)} {kind} {delay}", at)

    def goal(self, entity) -> None:
        at = point(entity)
        if at is None:
            return
        box = cut_to(([at[0] - 32, at[1] - 32, at[2] - 32], [at[0] + 32, at[1] + 32, at[2] + 32]), self.blocks.arena)
        if box is None:
            self.things.leave_out("goal: it isn't in the arena that is reached", at)
        else:
            self.things.add("goal", f"goal {text_of(*box)}", at)

    def teleporter(self, entity) -> None:
        box = model_box(self.source, entity)
        target = self.targets.get(entity.get("target", ""))
        to = target and point(target)
        kind = class_of(entity)
        if box is None or to is None:
            self.things.leave_out(f"{kind}: it has no box or no destination", box and box[0])
            return
        self.leap(box, to, kind)

    def leap(self, box, to: Point, kind: str) -> None:
        own = cut_to(box, self.blocks.arena)
        origin = self.room.settled(PLAYER, to)
        if own is None or origin is None:
            why = "it isn't in the arena that is reached" if own is None else "a player has no room at its destination"
            self.things.leave_out(f"{kind}: {why}", box[0])
            return
        self.things.add("teleport", f"teleport {text_of(*own)} {text_of(*origin)}", box[0])

    def hurts(self) -> None:
        """Lava, slime and what hurts take a player to the first spawn."""
        boxes = [
            ((brush.lo, brush.hi), "lava") for brush in self.source.models[0].brushes if brush.contents & (LAVA | SLIME)
        ]
        boxes += [
            (box, "trigger_hurt") for entity in self.source.entities
            if class_of(entity) == "trigger_hurt" and (box := model_box(self.source, entity))
        ]
        if not boxes or not self.things.spawns:
            return
        first = [int(part) / UNIT for part in self.things.spawns[0].split()[1:]]
        for box, kind in sorted(boxes, key=lambda it: -(it[0][1][0] - it[0][0][0]) * (it[0][1][1] - it[0][0][1])):
            self.leap(box, tuple(first), kind)

    def lift(self, entity) -> None:
        """A plat, or a door that goes up and is flat enough to stand on."""
        box = model_box(self.source, entity)
        kind = class_of(entity)
        if box is None:
            self.things.leave_out(f"{kind}: it has no box", point(entity))
            return
        lo, hi = list(box[0]), list(box[1])
        tall = hi[2] - lo[2]
        angle = number(entity, "angle", 0)
        if kind == "func_door" and (angle not in (-1.0, -2.0) or tall > min(hi[0] - lo[0], hi[1] - lo[1])):
            self.things.leave_out("func_door: no platform that goes up or down, so it stays open", box[0])
            return
        rise = number(entity, "height", 0) or tall - number(entity, "lip", 8)
        if kind == "func_plat" or angle == -2.0:
            lo[2], hi[2] = lo[2] - rise, hi[2] - rise
        self.shaft(kind, lo, hi, rise, number(entity, "speed", 200 if kind == "func_plat" else 400))

    def shaft(self, kind: str, lo, hi, rise: float, speed: float) -> None:
        own = [round(part * UNIT) for part in (*lo, *hi)]
        way = round(rise * UNIT)
        whole = (*own[:5], own[5] + way)
        if way < 1 or way > MOST_RISE or not is_within(whole, self.blocks.arena):
            self.things.leave_out(f"{kind}: its shaft isn't in the arena that is reached", lo)
        elif any(overlaps(whole, other) for other in self.room.blocks + self.shafts):
            self.things.leave_out(f"{kind}: its shaft overlaps a block or another shaft", lo)
        else:
            a_frame = min(max(round(speed * UNIT / FRAMES_A_SECOND), 1), MOST_SPEED)
            if self.things.add("lift", f"lift {text_of(*own)} {way} {a_frame}", lo):
                self.shafts.append(whole)
                self.room.blocks.append(tuple(own))

    def other(self, entity) -> None:
        """Flags, goals, items; and what of the rest isn't carried over is told."""
        kind = class_of(entity)
        if kind in FLAGS:
            self.item(entity, "gem", 30)
            self.goal(entity)
        elif kind in BASES:
            self.goal(entity)
        elif found := next((it for it in ITEMS if kind.startswith(it[0])), None):
            self.item(entity, found[1], found[2])
        elif not kind.startswith(UNSEEN) and not is_spawn(entity) and kind not in CARRIED:
            box = model_box(self.source, entity)
            self.things.leave_out(f"{kind or 'an entity without a class'}: not carried", box[0] if box else point(entity))


CARRIED = (
    "func_plat", "func_door", "func_static", "func_wall", "func_breakable", "trigger_teleport", "trigger_push",
    "trigger_hurt", "misc_teleporter_dest", "info_teleport_destination",
)


def seeds_of(source: Source) -> list[Point]:
    """Where players join, and where they are taken: from there what is reached is counted."""
    found = [at for entity in source.entities if is_spawn(entity) and (at := point(entity))]
    arrivals = ("misc_teleporter_dest", "info_teleport_destination")
    return found + [at for entity in source.entities if class_of(entity) in arrivals and (at := point(entity))]
