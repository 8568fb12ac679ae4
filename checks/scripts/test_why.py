"""`why`: faults, rules of the map, encodings, and what a wrong output should have been."""
import gzip
import os
import random
import unittest

from calls import Calls, content, example, run

MAP = "arena -65536 -65536 0 65536 65536 65536\nspawn 0 0 6144\n"
LIFT = "lift 20000 20000 0 30000 30000 2000 9000 100\n"
HIGH = "block 25000 25000 10999 26000 26000 12000\n"
SHAFT_SPAN, HIGH_SPAN = "from (20000, 20000, 0) to (30000, 30000, 11000)", "from (25000, 25000, 10999) to (26000, 26000, 12000)"
# A last line of a map, the rule that it breaks, and the two things by which.
BROKEN = [
    ("arena 0 0 0 32767 40000 40000\n", 1, "on x the arena reaches from 0 to 32767, which is 32767 long, and 32768 is the least"),
    (MAP + "block 5 0 0 5 10 10\n", 2, "x0 is 5 and x1 is 5, and x0 is to be below"),
    (MAP + "goal 0 0 0 10 10 65537\n", 2, "on z the goal reaches from 0 to 65537, and the arena from 0 to 65536"),
    (MAP + "teleport 0 0 -1 9 9 9 0 0 6144\n", 2, "on z the teleport reaches from -1 to 9, and the arena from 0 to 65536"),
    (MAP + "block 0 0 0 9 9 9\n" * 1025, 3, "it is the 1,025th of these lines, and a map has at most 1,024"),
    (MAP + "blocks 1025\n" + "block 0 0 0 9 9 9\n" * 1026, 3, "it is the 1,026th of these lines, and this map has at most 1,025"),
    (MAP + "blocks 1025\nblocks 1025\n", 3, "line 3 says already how many blocks there may be"),
    (MAP + "block 0 0 0 9 9 9\nblocks 1025\n", 3, "it comes after the block of line 3"),
    (MAP + "spawn 0 0 6144\n" * 64, 3, "it is the 65th of these lines, and a map has at most 64"),
    (MAP + "item 0 0 0 gem 5\n" * 401, 3, "it is the 401th of these lines, and a map has at most 400"),
    (MAP + "spawn 61441 0 6144\n", 4, "on x the body of a player at the spawn reaches from 57345 to 65537, and the arena from"),
    (MAP + "teleport 0 0 0 9 9 9 0 0 0\n", 4, "on z the body of a player at the destination reaches from -6144 to 8192, and the"),
    (MAP + LIFT + "item 57345 0 0 gem 5\n", 5, "on x the body of the item, 65, reaches from 57345 to 65537, and the arena from"),
    (MAP + "lift 0 0 0 9 9 9 1048576 1\n", 6, "on z the lift, 64, with its rise reaches from 0 to 1048585, and the arena from 0"),
    (MAP.split("spawn")[0] + "frame\n", 7, "this is the first frame, and no line before it is a spawn"),
    (MAP + LIFT + LIFT, 8, f"the shaft of this lift, 65, reaches {SHAFT_SPAN}, and overlaps the shaft of lift 64, of line 3, {SHAFT_SPAN}"),
    (MAP + LIFT + HIGH, 8, f"this block reaches {HIGH_SPAN}, and overlaps the shaft of lift 64, of line 3, {SHAFT_SPAN}"),
    (MAP + "block 0 0 0 9 9 9\n" + HIGH + LIFT, 8, f"lift, 64, reaches {SHAFT_SPAN}, and overlaps the block of line 4 {HIGH_SPAN}"),
]


class Recordings(Calls):
    def test_each_rule_is_named(self):
        for text, rule, things in BROKEN:
            path = self.path("broken.demo", (text + "end\n").encode())
            out, _, _ = self.call("why", path, status=1)
            self.assertIn(b"line %d is refused" % text.count("\n"), out, text[-80:])
            self.assertIn(b"\nrule %d is broken: " % rule, out, text[-80:])
            here = next(line for line in out.decode().splitlines() if line.startswith("here "))
            self.assertIn(things, here)
            out, _, _ = self.call("explain", path, status=0)
            said = [line for line in out.decode().splitlines() if line.startswith("    ")]
            self.assertEqual(said, [f"    breaks rule {rule} of the map: {here[5:]}"], text[-80:])

    def test_a_cut_file(self):
        for data in (content("duel.demo")[:300], content("duel.demo")[:-4], b""):
            out, _, _ = self.call("why", self.path("cut.demo", data), status=1)
            self.assertIn(b"it was cut, or is still being written", out)

    def test_encodings_are_named(self):
        text = content("duel.demo").decode()
        for encoding, said in (("utf-16", b"UTF-16"), ("utf-16-be", b"UTF-16"), ("utf-8-sig", b"byte order mark")):
            out, _, _ = self.call("why", self.path("other.demo", text.encode(encoding)), status=1)
            self.assertIn(said, out)

    def test_packed_files(self):
        out, _, _ = self.call("why", self.path("one.demo.gz", gzip.compress(content("one-join.demo"))), status=0)
        self.assertEqual(out, b"the recording is not refused\n")
        self.call("why", self.path("two.demo.gz", gzip.compress(content("one-join.demo"))[:-9]), status=1)

    def test_no_control_byte_is_written(self):
        out, error, _ = self.call("why", self.path("evil.demo", b"arena \x1b]0;evil\x07\n\x9b31m\nend\n"), status=1)
        self.assertTrue(all(32 <= b <= 126 or b == 10 for b in out + error), out)
        self.assertIn(b"\\x1b]0;evil\\x07", out)

    def test_a_program_that_is_killed(self):
        killed = self.path("killed", b"#!/bin/sh\nkill -9 $$\n")
        os.chmod(killed, 0o755)
        out, error, _ = self.call("why", "--words", "play", "1", status=1, env={"ARENA_CLI": killed})
        self.assertEqual((out, error.count(b"why: signal 9 ended the program")), (b"", 1))

    def test_standard_input(self):
        """`-` is one file that is read once, and else is refused, by each script that takes a recording and an output."""
        demo, out, log = (example("two-players" + end) for end in (".demo", ".out", ".log"))
        taken = [(demo, "why", "-"), (demo, "why", "-", out), (out, "why", demo, "-"), (log, "why", "--log", "-")]
        taken += [(demo, "replay", "-", out), (out, "replay", demo, "-"), (demo, "picture", "-", out)]
        taken += [(demo, "picture", "-", "--height", "24"), (demo, "stats", "-", out), (out, "stats", demo, "-")]
        for path, *words in taken:
            named = [path if word == "-" else word for word in words]
            got, wanted = (self.call(*called, given=content(path), status=0)[0] for called in (words, named))
            if words[0] in ("why", "stats"):
                self.assertEqual(got, wanted, words)
            else:
                self.assertEqual(got.count(b"\n"), wanted.count(b"\n"), words)  # its title has the file's name
        refused = [("why", "-", "-"), ("replay", "-"), ("replay", "-", "-"), ("picture", demo, "-"), ("picture", "-", "-")]
        for words in refused + [("picture", demo, "-", "--height", "24"), ("stats", "-"), ("stats", "-", "-")]:
            self.assertRegex(self.call(*words, given=content(demo), status=2)[1], rb"standard input")
        unended = content("unfinished.demo")
        wanted = self.call("why", example("unfinished.demo"), out, status=1)
        self.assertEqual(self.call("why", "-", out, given=unended, status=1), wanted)

    def test_words(self):
        self.assertEqual(self.call("why", "--words", "play", "1", status=0)[0], b"the program takes these words\n")
        out = self.call("why", "--words", "play", "17", status=1)[0]
        self.assertTrue(b"\n  play N: " in out and b"\n  help, version: " in out and b"`" not in out, out)
        for words in ([], ["--log"], ["--sing"], ["a", "b", "c"], [self.path("none")], [self.folder]):
            self.call("why", *words, status=2)


class Outputs(Calls):
    def pair(self, words, workers):
        recording = run(words)[0]
        output = run(["play", workers], recording)[0]
        return recording, output

    def why(self, recording, output):
        return self.call("why", self.path("r.demo", recording), self.path("r.out", output))

    def test_right_outputs(self):
        for name in ("duel", "lost-packets", "tour", "leaving", "full"):
            out, _, _ = self.call("why", example(name + ".demo"), example(name + ".out"), status=0)
            self.assertTrue(out.startswith(b"the output is right: right frames "))

    def test_the_changed_line_is_named_with_what_it_should_be(self):
        """A coordinate of a `did` line or a digit of a snapshot is changed: this line is named, and the one it was."""
        rng = random.Random(76)
        for words in (["make", "7", "16", "8"], ["resend", "5", "4", "9"]):
            recording, output = self.pair(words, "4")
            lines = output.split(b"\n")
            for _ in range(5):
                place = rng.choice([p for p, line in enumerate(lines) if line.startswith((b"did ", b"to "))])
                fields = lines[place].split(b" ")
                if fields[0] == b"did":
                    fields[3] = b"%d" % (int(fields[3]) + 1)
                else:
                    at = rng.randrange(12, len(fields[2]))
                    fields[2] = fields[2][:at] + (b"1" if fields[2][at : at + 1] == b"0" else b"0") + fields[2][at + 1 :]
                changed = lines[:place] + [b" ".join(fields)] + lines[place + 1 :]
                out, _, status = self.why(recording, b"\n".join(changed))
                self.assertEqual(status, 1)
                wanted = lines[place][:100] + (b".." if len(lines[place]) > 100 else b"")
                self.assertIn(b"\nline %d should be %s\n" % (place + 1, wanted), out)

    def test_other_changes_are_explained(self):
        """Lines of an output are dropped, doubled, swapped and cut: each is explained."""
        rng = random.Random(77)
        recording, output = self.pair(["make", "9", "8", "6"], "4")
        lines = output.split(b"\n")
        for _ in range(16):
            place = rng.randrange(len(lines) - 2)
            way = rng.randrange(4)
            if way == 0:
                changed = lines[:place] + lines[place + 1 :]
            elif way == 1:
                changed = lines[: place + 1] + lines[place:]
            elif way == 2:
                changed = lines[:place] + [lines[place + 1], lines[place]] + lines[place + 2 :]
            else:
                changed = b"\n".join(lines)[: -rng.randrange(2, 9000)].split(b"\n")
            out, error, status = self.why(recording, b"\n".join(changed))
            if status == 0:
                continue  # two moves that don't meet are right in both orders
            self.assertEqual((status, error), (1, b""))
            self.assertTrue(b"should be" in out, out)

    def test_moves_of_a_player_out_of_order(self):
        recording, output = content("three-moves.demo"), content("three-moves.out")
        did = [line for line in output.split(b"\n") if line.startswith(b"did ")]
        swapped = output.replace(did[0] + b"\n" + did[1], did[1] + b"\n" + did[0])
        if swapped != output:
            out, _, status = self.why(recording, swapped)
            self.assertEqual(status, 1)
            self.assertIn(b"should be", out)
        extra = output.replace(did[0], did[0].replace(b"did 0 ", b"did 9 "))
        self.assertIn(b"of slot 9 has a `did` line more than was sent", self.why(recording, extra)[0])

    def test_outputs_of_feed_and_long_recordings(self):
        recording = content("duel.demo")
        self.assertIn(b"`feed` wrote it", self.why(recording, run(["feed", "1"], recording)[0])[0])
        long = run(["make", "1", "1", "2001"])[0]
        self.assertIn(b"takes no more", self.why(long, b"")[0])


class Logs(Calls):
    def setUp(self):
        super().setUp()
        recording = run(["make", "5", "6", "4"])[0]
        self.lines = (recording.split(b"\nframe")[0] + b"\nend\n" + run(["feed", "2"], recording)[0]).split(b"\n")

    def place(self, word, after=140):
        """The place of the first line of this kind after so many."""
        return next(place for place, line in enumerate(self.lines) if place >= after and line.split(b" ")[0] == word)

    def why(self, data, status=1):
        return self.call("why", "--log", self.path("some.log", data), status=status)[0]

    def changed(self, place, *lines):
        return b"\n".join([*self.lines[:place], *lines, *self.lines[place + 1 :]])

    def test_right_logs(self):
        whole = b"\n".join(self.lines)
        self.assertEqual(self.why(whole, 0), b"the log is right: right frames 4 moves 24\n")
        self.why(whole.replace(b"\nend\n", b"\nend\r\n", 1) + b"more", 0)

    def test_the_changed_line_is_named_with_what_it_should_be(self):
        for word, field in ((b"did", 4), (b"to", 1), (b"from", 1)):
            place = self.place(word)
            fields = self.lines[place].split(b" ")
            fields[field] = b"%d" % (int(fields[field]) + 1)
            out = self.why(self.changed(place, b" ".join(fields)).replace(b"\nend\n", b"\nend\r\n", 1))
            piece = max(p for p in range(place) if self.lines[p].startswith(b"frame "))
            self.assertTrue(out.startswith(b"the log is wrong from its line %d on\n" % (piece + 1)))
            if word == b"from":  # no player of this port joined, or another one moves once more
                self.assertIn(b"should be ", out)
            else:
                wanted = self.lines[place][:100] + (b".." if len(self.lines[place]) > 100 else b"")
                self.assertIn(b"\nline %d should be %s\n" % (place + 1, wanted), out)

    def test_where_a_piece_begins(self):
        place = self.place(b"frame")
        number = int(self.lines[place].split(b" ")[1])
        begins = b"line %d should be frame %d, or end %d\n" % (place + 1, number, number)
        out = self.why(self.changed(place))
        self.assertIn(begins, out)
        self.assertIn(b"\nthe log ends before its line %d\n" % (place + 1) + begins, self.why(b"\n".join([*self.lines[:place], b""])))
        out = self.why(self.changed(place, b"frame 999"))
        self.assertIn(b"line %d should be frame %d\n" % (place + 1, number), out)

    def test_lines_that_are_no_packets(self):
        place = self.place(b"from")
        for line in (b"from 1 0", b"from 1 0A", b"from 99999 -", b"from 01 -", b"from 1", b"from 65535 " + b"00" * 251):
            out = self.why(self.changed(place, line))
            self.assertIn(b"\nline %d is        %s" % (place + 1, line[:90]), out)
            self.assertIn(b"a frame has at most 512 lines `from PORT HEX`", out)
        self.assertIn(b"\nline %d is " % (place + 513), self.why(self.changed(place, *[b"from 1 -"] * 600)))

    def test_a_frame_without_answers(self):
        """Packets may still come where a log ends after its line `frame`."""
        log = b"arena -65536 -65536 0 65536 65536 65536\nspawn 0 0 6144\nend\nframe 0\nframe 1\n"
        out = self.why(log)
        self.assertIn(b"the log is wrong from its line 5 on", out)
        self.assertIn(b"the log ends there, where packets or answers of the frame may follow", out)
        self.why(log + b"end 2\n", 0)

    def test_a_map_without_its_end(self):
        whole = b"\n".join(self.lines)
        self.assertIn(b"line 102 begins a frame", self.why(whole.replace(b"\nend\n", b"\nframe\nend\n", 1)))
        self.assertIn(b"is refused", self.why(whole.replace(b"\nend\n", b"\n", 1)))


if __name__ == "__main__":
    unittest.main()
