"""`stats`: counts against the lines of outputs, and against `match`."""
import csv
import gzip
import io
import json
import re
import unittest

from calls import Calls, content, example, run

import arena
import match


class Stats(Calls):
    def counted(self, *words, status=0, given=b""):
        return json.loads(self.call("stats", *words, status=status, given=given)[0])

    def test_the_totals_are_those_of_match(self):
        recording = self.path("m.demo", run(["make", "7", "32", "60"])[0])
        said = run(["match", "7", "32", "60", "1"])[0].split()
        wanted = dict(zip(said[::2], map(int, said[1::2])))
        found = self.counted(recording)
        players = found["players"]
        self.assertEqual(len(found["frames"]), wanted[b"frames"])
        self.assertEqual(sum(player["moves"] for player in players), wanted[b"moves"])
        self.assertEqual(len(players), wanted[b"joins"])
        self.assertEqual(sum(player["ammo_taken"] + player["gems_taken"] for player in players), wanted[b"items"])
        self.assertEqual(sum(player["score"] for player in players), wanted[b"scores"])
        self.assertEqual(sum(frame["moves"] for frame in found["frames"]), wanted[b"moves"])

    def test_hits_and_falls(self):
        players = self.counted(example("duel.demo"), example("duel.out"))["players"]
        rows = [[player[name] for name in ("slot", "hits", "hits_got", "falls", "falls_made", "score")] for player in players]
        self.assertEqual(rows, [[0, 4, 2, 0, 1, 1], [1, 2, 4, 1, 0, 0], [2, 0, 0, 0, 0, 0]])

    def test_refusals_by_name(self):
        found = self.counted(example("packet-faults.demo"), example("packet-faults.out"))
        names = [line.split()[2].decode() for line in content("packet-faults.out").split(b"\n") if line.startswith(b"no ")]
        self.assertEqual(found["refused"], {name: names.count(name) for name in names})
        players = self.counted(example("ninth-move.demo"), example("ninth-move.out"))["players"]
        self.assertEqual(players[0]["refused"], {"Many": 1})

    def leaves(self, *words):
        """The slot, the frames of join and leave and the moves of each player, and the joins and leaves of each frame."""
        found = self.counted(*words)
        players = [tuple(player[name] for name in ("slot", "joined", "left", "moves")) for player in found["players"]]
        return players, [(frame["players"], frame["joins"], frame["leaves"]) for frame in found["frames"]]

    def test_leaves(self):
        """A leave is of the frame in which its packet was accepted, also of that of its join or of the last one."""
        rows = [(0, 0, 0, 1), (0, 1, None, 0)], [(1, 1, 1), (1, 1, 0)]
        self.assertEqual(self.leaves(example("leaving.demo"), example("leaving.out")), rows)
        rows = [(0, 0, 3, 2), (0, 4, None, 1)], [(1, 1, 0), (1, 0, 0), (1, 0, 0), (1, 0, 1), (1, 1, 0)]
        self.assertEqual(self.leaves(example("old-later.demo"), example("old-later.out")), rows)
        # The second leave of port 8 and that of a port without a player are refused.
        last = content("leaving.demo").replace(b"from 8 0101\n", b"from 8 0101\nfrom 8 0103\nfrom 8 0103\nfrom 9 0103\n")
        path = self.path("last.demo", last)
        rows = [(0, 0, 0, 1), (0, 1, 1, 0)], [(1, 1, 1), (1, 1, 1)]
        self.assertEqual(self.leaves(path), rows)
        fed = self.path("fed", run(["feed", "1"], last)[0])
        self.assertEqual(self.leaves(path, fed), rows)
        out, _, _ = self.call("stats", path, "--prometheus", status=0)
        self.assertIn(b'\nmustardawl_score{port="8",slot="0"} 0\n', out)
        self.assertNotIn(b'port="7"', out)

    def test_tables_and_metrics(self):
        out, _, _ = self.call("stats", example("duel.demo"), example("duel.out"), "--csv", status=0)
        self.assertEqual([row["score"] for row in csv.DictReader(io.StringIO(out.decode()))], ["1", "0", "0"])
        out, _, _ = self.call("stats", example("duel.demo"), example("duel.out"), "--csv-frames", status=0)
        self.assertEqual(len(list(csv.DictReader(io.StringIO(out.decode())))), 48)
        out, _, _ = self.call("stats", example("packet-faults.demo"), example("packet-faults.out"), "--prometheus", status=0)
        self.assertIn(b'\nmustardawl_refusals_total{name="Empty"} 1\n', out)
        for line in out.decode().splitlines():
            self.assertRegex(line, r"^(# (HELP|TYPE) mustardawl_\w+ .+|mustardawl_\w+(\{\w+=\"\w+\"(,\w+=\"\w+\")*\})? [0-9]+)$")

    def test_a_name_is_no_label(self):
        """A refusal's name in an output may be anything."""
        changed = self.path("other", content("packet-faults.out").replace(b" Empty\n", b' a"b\n'))
        out, _, _ = self.call("stats", example("packet-faults.demo"), changed, "--prometheus", status=0)
        self.assertIn(b'\nmustardawl_refusals_total{name="a\\"b"} 1\n', out)

    def test_files(self):
        packed = self.path("duel.out.gz", gzip.compress(content("duel.out")))
        plain = self.counted(example("duel.demo"), example("duel.out"))
        self.assertEqual(self.counted(example("duel.demo"), packed), plain)
        self.assertEqual(self.counted(example("duel.demo"), "-", given=content("duel.out")), plain)
        fed = self.path("fed", run(["feed", "1"], content("duel.demo"))[0])
        self.assertEqual(self.counted(example("duel.demo"), fed)["frames"], plain["frames"])
        cut = self.counted(example("duel.demo"), self.path("cut", content("duel.out")[:9000]), status=1)
        self.assertFalse(cut["whole"])
        _, error, _ = self.call("stats", self.path("cut.demo", content("duel.demo")[:500]), status=1)
        self.assertIn(b"recording refused: line 25, fault 10 (status 1)", error)
        for words in ([], ["-"], ["-", "-"], [self.path("none")], [self.folder], [""], [example("duel.demo"), ""], [example("duel.demo"), "--sing"]):
            self.call("stats", *words, status=2)
        self.call("stats", example("duel.out"), status=1)
        error, status = self.into_closed_pipe("stats", example("duel.demo"), example("duel.out"))
        self.assertEqual((error, status), (b"stats: the output was closed before all of it was written\n", 1))

    def test_damaged_outputs(self):
        """Of these a reader knew nothing: what they lack is said by each script, in a sentence."""
        duel, lift = content("duel.out"), content("lift.out")
        to = re.search(rb"\nto 0 [0-9a-f]+", lift)[0]
        for name, changed, why in (
            ("duel", re.sub(rb"(\ndid .*) -\n", rb"\1 3,5\n", duel, 1), b"got 5, which is the id of no thing"),
            ("duel", re.sub(rb"\nto 0 .*", b"", duel, 1), b"slot 0 joins, and has no snapshot"),
            # The first bytes of an entity that is a lift, and not its place.
            ("lift", lift.replace(to, to[:6 + 86] + b"400005", 1), b"bytes are no snapshot (Short)"),
        ):
            for script in ("stats", "replay", "picture"):
                words = [example(name + ".demo"), self.path("damaged.out", changed)]
                self.assertIn(why, self.call(script, *words, status=1)[1], script)

    def test_outputs_that_are_cut(self):
        """As a full disk leaves them: a frame without all of its lines isn't counted, and one with them all is."""
        whole = content("two-players.out")
        lines = whole.splitlines(keepends=True)
        ends = [place for place, line in enumerate(lines) if line.startswith((b"frame ", b"end "))][1:]
        for kept in range(len(lines)):
            for more in (b"", lines[kept][:3]):
                cut = self.path("cut.out", b"".join(lines[:kept]) + more)
                output = match.Match(*self.readers("two-players", cut))
                self.assertEqual(len(list(output.frames())), sum(end <= kept for end in ends), kept)
        cut = self.path("cut.out", b"".join(lines[:8]))
        self.assertEqual(len(self.counted(example("two-players.demo"), cut, status=1)["frames"]), 1)
        self.call("picture", example("two-players.demo"), cut, status=1)
        self.call("replay", example("two-players.demo"), cut, status=0)

    def readers(self, name, output):
        with open(output, "rb") as file:
            data = file.read()
        return arena.Recording(io.BytesIO(content(name + ".demo"))), arena.Output(io.BytesIO(data))

    def test_outputs_of_another_match(self):
        """Whose frames are others than the recording's, or have other numbers than their own."""
        whole = content("duel.out")
        for changed in (
            b"end 0\n", whole.replace(b"end 48", b"end 47"), whole.replace(b"frame 7\n", b"frame 8\n"),
            whole.replace(b"frame 0\n", b"frame -1\n"), content("two-players.out"),
        ):
            for script in ("stats", "replay", "picture"):
                out, _, _ = self.call(script, example("duel.demo"), self.path("other", changed), status=1)
                self.assertEqual(out, b"")
        self.call("stats", example("two-players.demo"), example("duel.out"), status=1)


if __name__ == "__main__":
    unittest.main()
