"""`checks/links` in a repository that is made here."""
import os
import shutil
import subprocess
import unittest

from calls import SECONDS, Calls
from common import CHECKS, TOOLS


class Links(Calls):
    def setUp(self):
        super().setUp()
        for folder, names in ((CHECKS, ("links", "common.py")), (TOOLS, ("arena.py", "program.py"))):
            inner = os.path.join(self.folder, os.path.basename(folder))
            os.mkdir(inner)
            for name in names:
                shutil.copy(os.path.join(folder, name), inner)
        subprocess.run(["git", "init", "-q", self.folder], check=True)
        self.path("README.md", b"# One\n\n[two](two.md#a-b) `checks/links`\n")
        self.path("two.md", b"# A b\n\n[one](README.md)\n")

    def links(self, *words, status, **more):
        done = subprocess.run(
            [self.path("checks/links"), *words], stderr=subprocess.PIPE, timeout=SECONDS, **{"stdout": subprocess.PIPE, **more}
        )
        self.assertNotIn(b"Traceback", done.stderr)
        self.assertEqual(done.returncode, status, done)
        return done.stdout, done.stderr

    def test_right(self):
        self.assertEqual(self.links(status=0), (b"2 pages, 0 faults\n", b""))
        self.assertTrue(self.links("--help", status=0)[0].startswith(b"Checks that every link"))

    def test_faults(self):
        self.path("a \x1b[31m.md", b"[x](none.md) [y](two.md#c) [z](checks#d) `tools/none`\n\xff\x1b\n[e](\x1b.md)\n")
        os.symlink("/none", self.path("gone.md"))
        self.path("README.md", b"x" * 9001)
        out, _ = self.links(status=1)
        self.assertTrue(all(32 <= b <= 126 or b == 10 for b in out), out)
        for said in (b"there is no none.md", b"two.md has no heading #c", b"checks has no heading #d", b"there is no tools/none"):
            self.assertIn(b"a \\x1b[31m.md:1: " + said, out)
        self.assertIn(b"a \\x1b[31m.md:3: there is no \\x1b.md", out)
        self.assertIn(b"gone.md: it is no file", out)
        self.assertIn(b"README.md has 9001 bytes", out)
        self.assertIn(b"4 pages, 7 faults", out)

    def test_what_a_user_does_wrong(self):
        self.assertIn(b"links: no words are wanted\n", self.links("x", status=2)[1])
        with open("/dev/full", "w") as full:
            self.assertEqual(self.links(status=1, stdout=full)[1], b"links: No space left on device\n")
        read, write = os.pipe()
        os.close(read)
        self.assertEqual(self.links(status=1, stdout=write)[1], b"links: the output was closed before all of it was written\n")
        os.close(write)
        shutil.rmtree(self.path(".git"))
        self.assertIn(b"git can't list the pages", self.links(status=1)[1])


if __name__ == "__main__":
    unittest.main()
