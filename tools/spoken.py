"""Packets and snapshots in words, as `explain` prints them."""
import arena


def units(lengths):
    """Lengths in sub-units as units, exact: a sub-unit is 0.00390625."""
    return "(" + ", ".join(f"{length / arena.UNIT:.8f}".rstrip("0").rstrip(".") for length in lengths) + ")"


def command_words(command):
    jump = ", jump" if command.jumps else ""
    shot = ", shot" if command.shoots else ""
    wish = f"wish ({command.wish_x}, {command.wish_y}) units a second"
    return f"move {command.number}: {command.ms} ms, {wish}{jump}{shot}"


def packet_words(data):
    try:
        packet = arena.read_packet(data)
    except arena.PacketFault:
        return "not a packet"
    return packet.kind if packet.kind != "move" else "; ".join(map(command_words, packet.commands))


def entity_words(entity):
    taken = "" if entity.status else ", taken"
    return f"sees {entity.kind} {entity.id} at {units(entity.origin)}{taken}"


def head_words(snapshot):
    ground = "on the ground" if snapshot.was_on_ground else "in the air"
    leap = ", ended in a teleporter" if snapshot.has_leapt else ""
    last = f"last move {snapshot.number}, begun {ground}{leap}" if snapshot.number else "no move yet"
    place = f"at {units(snapshot.origin)}, velocity {units(snapshot.velocity)}"
    return [
        f"frame {snapshot.frame}, slot {snapshot.slot}: {place}",
        f"{last}; ammo {snapshot.ammo}, carry {snapshot.carry}, score {snapshot.score}",
    ]


def snapshot_words(data):
    """The lines that say what a snapshot shows."""
    try:
        snapshot = arena.read_snapshot(data)
    except arena.SnapshotFault as why:
        return [f"not a snapshot ({why.name})"]
    return head_words(snapshot) + list(map(entity_words, snapshot.entities))
