"""The module arena.py, over every recording and output of examples/."""
import gzip
import io
import os
import tempfile
import unittest

from common import EXAMPLES, run

import arena

REFUSED = {"map-rule", "refused", "unfinished"}


def names(ending):
    return sorted(name[: -len(ending)] for name in os.listdir(EXAMPLES) if name.endswith(ending))


def path_of(name):
    return os.path.join(EXAMPLES, name)


def recording(name):
    with arena.opened(path_of(name + ".demo")) as file:
        read = arena.Recording(file)
        return read, list(read)


def output(path):
    with arena.opened(path) as file:
        read = arena.Output(file)
        return read, list(read)


def lines_of(map_read):
    """The map's lines by what was read of them, each kind in its order."""
    found = [("arena", *map_read.bounds)] + [("block", *box) for box in map_read.blocks]
    found += [("spawn", *origin) for origin in map_read.spawns]
    for thing in map_read.things:
        if thing.kind in ("ammo", "gem"):
            found.append(("item", *thing.origin, thing.kind, thing.delay))
        elif thing.kind == "teleporter":
            found.append(("teleport", *thing.box, *thing.destination))
        else:
            found.append((thing.kind, *thing.box, *((thing.rise, thing.speed) if thing.kind == "lift" else ())))
    if map_read.shots:
        found.append(("shots",))
    return sorted(" ".join(map(str, line)) for line in found)


class Recordings(unittest.TestCase):
    def test_maps_are_read_whole(self):
        for name in names(".demo"):
            if name in REFUSED:
                continue
            text = arena.read_bytes(path_of(name + ".demo")).decode().split("\nframe")[0].split("\nend")[0]
            lines = [line.rstrip("\r") for line in text.split("\n")]
            read, _ = recording(name)
            with self.subTest(name):
                self.assertEqual(lines_of(read.map), sorted(line for line in lines if not line.startswith(("depth", "blocks"))))
                self.assertEqual([f"depth {read.map.depth}"], [line for line in lines if line.startswith("depth")] or ["depth 4"])

    def test_packets_are_read_whole(self):
        for name in names(".demo"):
            if name in REFUSED:
                continue
            text = arena.read_bytes(path_of(name + ".demo")).decode()
            wanted = [line.strip().lower() for line in text.split("\nend")[0].split("\n") if line.startswith("from ")]
            read, frames = recording(name)
            with self.subTest(name):
                arrivals = [arrival for frame in frames for arrival in frame.arrivals]
                self.assertEqual([arena.packet_line(arrival.port, arrival.data) for arrival in arrivals], wanted)
                self.assertTrue(read.has_ended)
                for arrival in arrivals:
                    self.assertTrue(text.split("\n")[arrival.line - 1].startswith(f"from {arrival.port} "))

    def test_refused_recordings_are_named_by_line(self):
        for name, line in (("map-rule", None), ("refused", 5)):
            wanted = int(arena.read_bytes(path_of(name + ".err")).split()[3].rstrip(b","))
            if line is None:
                recording(name)  # it breaks a rule of the map, which the module doesn't know
                continue
            with self.assertRaisesRegex(arena.FormatError, f"^line {wanted}:"):
                recording(name)

    def test_the_rest_follows_the_end(self):
        with arena.opened(path_of("ways-to-10.out")) as file:
            read = arena.Recording(file)
            frames = list(read)
            rest = list(read.rest())
        self.assertEqual((len(frames), [line.split()[0] for line in rest]), (63, [b"way", b"length", b"least"]))


class Packets(unittest.TestCase):
    def test_refusals_are_those_of_the_examples(self):
        """A packet that is refused for its bytes in an output is refused so here, and no other."""
        faults = {"Empty", "Version", "Kind", "Short", "Long", "Time", "Buttons", "Count"}
        seen = set()
        for name in names(".demo"):
            if name in REFUSED:
                continue
            _, frames = recording(name)
            _, played = output(path_of(name + ".out"))
            for frame, answers in zip(frames, played):
                for place, arrival in enumerate(frame.arrivals):
                    fault = answers.refusals.get(place)
                    try:
                        packet = arena.read_packet(arrival.data)
                        found = None
                        self.assertEqual(arena.write_packet(packet), arrival.data)
                    except arena.PacketFault as why:
                        found = why.name
                    self.assertEqual(found, fault if fault in faults else None, f"{name}, frame {frame.number}, {place}")
                    seen.add(found)
        self.assertEqual(seen, faults | {None})

    def test_random_packets_are_refused_as_by_the_program(self):
        """The name of the refusal is the program's for packets of all lengths with bytes near the limits."""
        import random

        rng = random.Random(76)
        packets = []
        for _ in range(500):
            data = bytearray(rng.choice([0, 1, 2, 2, 3, 50, 51]) for _ in range(rng.choice([0, 1, 2, 3, 6, 7, 12, 13, 19, 25, 26])))
            if len(data) > 6 and rng.random() < 0.5:
                data[:7] = bytes([rng.choice([1, 2]), 2, rng.randrange(4), 0, 0, 0, rng.randrange(6)])
            packets.append(bytes(data))
        lines = ["arena -32768 -32768 0 32768 32768 65536", "spawn 0 0 6144", "frame"]
        lines += [arena.packet_line(7, data) for data in packets] + ["end", ""]
        written, _, status = run(["play", "1"], "\n".join(lines).encode())
        (frame,) = arena.Output(io.BytesIO(written))
        self.assertEqual(status, 0)
        for place, data in enumerate(packets):
            try:
                arena.read_packet(data)
                name = None
            except arena.PacketFault as why:
                name = why.name
            printed = frame.refusals.get(place)
            is_of_bytes = printed not in ("Already", "NotJoined", "Leaving", "Old", "Many", "Full", "Crowded", None)
            self.assertEqual(name, printed if is_of_bytes else None, data.hex())

    def test_commands_of_the_document(self):
        data = bytes.fromhex("02020300000003" "320000000000" "324001000000" "324001c0fe01")
        packet = arena.read_packet(data)
        wanted = (arena.Command(1, 50, 0, 0), arena.Command(2, 50, 320, 0), arena.Command(3, 50, 320, -320, arena.JUMP))
        self.assertEqual(packet.commands, wanted)
        self.assertEqual(arena.moves(wanted), data)
        with self.assertRaises(ValueError):
            arena.moves([wanted[0], wanted[2]])


class Outputs(unittest.TestCase):
    def test_outputs_are_read_whole(self):
        for name in names(".out"):
            path = path_of(name + ".out")
            if arena.read_bytes(path).startswith((b"arena", b"least")):
                continue
            read, frames = output(path)
            lines = []
            for frame in frames:
                lines.append(f"frame {frame.number}")
                lines += [f"no {place} {refusal}" for place, refusal in frame.refusals.items()]
                lines += [f"joined {port} {slot}" for port, slot in frame.joins.items()]
                for move in frame.moves:
                    got = ",".join(map(str, move.got)) or "-"
                    lines.append(" ".join(map(str, ["did", move.slot, move.number, *move.origin, got])))
                lines += [f"to {slot} {data.hex()}" for slot, data in frame.snapshots.items()]
            if read.frames is not None:
                lines.append(f"end {read.frames}")
            with self.subTest(name):
                self.assertEqual("".join(line + "\n" for line in lines).encode(), arena.read_bytes(path))

    def test_snapshots_show_last_moves(self):
        for name in names(".out"):
            path = path_of(name + ".out")
            if arena.read_bytes(path).startswith((b"arena", b"least")):
                continue
            for frame in output(path)[1]:
                for slot, data in frame.snapshots.items():
                    snapshot = arena.read_snapshot(data)
                    self.assertEqual((snapshot.frame, snapshot.slot), (frame.number, slot))
                    self.assertEqual(len(snapshot.entities), snapshot.count)
                    own = [move for move in frame.moves if move.slot == slot]
                    if own:
                        self.assertEqual((snapshot.number, snapshot.origin), (own[-1].number, own[-1].origin))

    def test_snapshot_of_the_document(self):
        frames = output(path_of("two-players.out"))[1]
        snapshot = arena.read_snapshot(frames[2].snapshots[0])
        wanted = arena.Snapshot(
            2, 0, (13926, 0, 6144), (81920, 0, 0), 1, 0, 0, 0, 4, 1, (arena.Entity(1, "player", 1, (5734, 0, 6144)),)
        )
        self.assertEqual(snapshot, wanted)

    def test_snapshots_with_faults(self):
        data = bytearray(output(path_of("two-players.out"))[1][2].snapshots[0])
        changes = {"Short": data[:-1], "Long": data + b"\0", "Version": b"\2" + data[1:], "Order": data[:43] + b"\0\0" + data[45:]}
        changes["Count"] = data[:46] + b"\0" + data[47:]
        for name, changed in changes.items():
            with self.assertRaises(arena.SnapshotFault) as raised:
                arena.read_snapshot(bytes(changed))
            self.assertEqual(raised.exception.name, name)

    def test_ports_follow_joins_and_leaves(self):
        ports = {}
        seen = []
        for frame in output(path_of("leaving.out"))[1]:
            ports = arena.ports_by_slot(frame, ports)
            seen.append(dict(ports))
        self.assertEqual(seen[0][0] != seen[-1][0], True)
        self.assertNotIn(-1, [port for ports in seen for port in ports.values()])

    def test_a_cut_line_is_not_read(self):
        data = arena.read_bytes(path_of("duel.out"))
        read = arena.Output(io.BytesIO(data[:-3]))
        frames = list(read)
        self.assertEqual((read.frames, read.is_cut, len(frames)), (None, True, data.count(b"frame ")))


class Files(unittest.TestCase):
    def setUp(self):
        self.folder = tempfile.TemporaryDirectory()
        self.addCleanup(self.folder.cleanup)

    def written(self, data):
        path = os.path.join(self.folder.name, "file")
        with open(path, "wb") as file:
            file.write(data)
        return path

    def test_gzip_is_unpacked(self):
        plain = arena.read_bytes(path_of("duel.demo"))
        self.assertEqual(arena.read_bytes(self.written(gzip.compress(plain))), plain)
        with self.assertRaisesRegex(arena.FormatError, "can't be unpacked"):
            arena.read_bytes(self.written(gzip.compress(plain)[:-20]))

    def test_other_encodings_are_named(self):
        text = "arena 0 0 0 40000 40000 40000\nend\n"
        for encoding, said in (("utf-16", "UTF-16"), ("utf-16-le", "UTF-16"), ("utf-16-be", "UTF-16"), ("utf-8-sig", "UTF-8")):
            with self.assertRaisesRegex(arena.FormatError, said):
                arena.read_bytes(self.written(text.encode(encoding)))
        with self.assertRaisesRegex(arena.FormatError, "begins with zero bytes"):
            arena.read_bytes(self.written(bytes(100)))

    def test_long_files_are_read_whole_or_as_far_as_is_asked(self):
        data = b"0123456789abcdef" * (3 * arena.BLOCK // 16) + b"end"
        for most in (-1, 0, 1, arena.BLOCK, arena.BLOCK + 1, len(data), len(data) + 1):
            self.assertEqual(arena.read_bytes(self.written(data), most=most), data if most < 0 else data[:most])

    def test_what_is_no_file(self):
        with self.assertRaisesRegex(arena.FormatError, "is a folder"):
            arena.read_bytes(self.folder.name)
        with self.assertRaisesRegex(arena.FormatError, "can't be read: No such file"):
            arena.read_bytes(os.path.join(self.folder.name, "none"))

    def test_what_is_no_recording_or_output(self):
        for data in (b"", b"\n", b"frame\n", b"a" * 5000, bytes(range(256))):
            with self.assertRaises(arena.FormatError):
                list(arena.Recording(io.BytesIO(data)))
        for data in (b"\n", b"end\n", b"frame\n", b"a" * 50000, bytes(range(256)), b"frame 0\nto 0 1\n", b"frame 0\nto 64 11\n"):
            with self.assertRaises(arena.FormatError):
                list(arena.Output(io.BytesIO(data)))


if __name__ == "__main__":
    unittest.main()
