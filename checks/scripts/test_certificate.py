"""`certificate`: a right way, a packed file, changed ones, and files that aren't of `bots`."""
import gzip
import unittest

from calls import Calls, content, example


class Certificate(Calls):
    def test_a_right_way(self):
        packed = self.path("way.gz", gzip.compress(content("ways-to-10.out")))
        out, _, _ = self.call("certificate", example("ways-to-10.out"), packed, status=0)
        self.assertEqual(out.count(b"the way to spawn 10 has the least length 248000"), 2)

    def test_changed_ways(self):
        for old, new in ((b"length 248000", b"length 248001"), (b"way 0 2", b"way 0 1"), (b"least 0", b"least 1")):
            changed = content("ways-to-10.out").replace(old, new)
            self.assertNotEqual(changed, content("ways-to-10.out"))
            _, error, _ = self.call("certificate", self.path("way", changed), status=1)
            self.assertIn(b"this doesn't hold", error)

    def test_asserts_are_not_needed(self):
        """Python leaves out `assert` where a user's variable says so."""
        changed = content("ways-to-10.out").replace(b"length 248000", b"length 1")
        _, error, _ = self.call("certificate", self.path("way", changed), status=1, env={"PYTHONOPTIMIZE": "1"})
        self.assertIn(b"this doesn't hold", error)

    def test_numbers_and_names(self):
        for old, new in ((b"way 0 ", b"way 0 00"), (b"way 0 ", b"way -1 "), (b"way 0 ", b"way 999 "), (b"th 2", b"th 2_")):
            self.call("certificate", self.path("way", content("ways-to-10.out").replace(old, new)), status=1)
        bare = content("ways-to-10.out").split(b"\nway ")
        self.call("certificate", self.path("way", bare[0] + b"\nway\n" + bare[1].split(b"\n", 1)[1]), status=1)
        out, _, _ = self.call("certificate", self.path("a \x1b\n name", content("ways-to-10.out")), status=0)
        self.assertIn(b"a \\x1b\\n name: the way", out)
        _, error, _ = self.call("certificate", self.path("a \x1b\n name", content("duel.out")), status=1)
        self.assertNotIn(b"\x1b", error)

    def test_what_is_no_way(self):
        for data in (content("duel.demo"), content("duel.out"), b"", content("ways-to-10.out") + b"more\n"):
            self.call("certificate", self.path("way", data), status=1)
        zeros = self.path("zeros", bytes(100))
        why = f"certificate: {zeros} begins with zero bytes, so it is no text\n".encode()
        self.assertEqual(self.call("certificate", zeros, status=1)[1], why)
        for words in ([], [self.path("none")], [self.folder]):
            self.call("certificate", *words, status=2)
        error, status = self.into_closed_pipe("certificate", example("ways-to-10.out"))
        self.assertEqual((error, status), (b"certificate: the output was closed before all of it was written\n", 1))


if __name__ == "__main__":
    unittest.main()
