"""`checks/names` in a repository that is made here."""
import os
import shutil
import subprocess
import unittest

from calls import SECONDS, Calls
from common import CHECKS, TOOLS

CODE = b"""pub struct World {
    records: u8, // not a_comment
}

impl World {
    /// Adds.
    pub fn add_one(&self) -> u8
        ensures sum { result }
    {
        1
    }
}
"""
LAW = b"use other::Outside;\n\npub fn worlds_are_kept()\n    ensures { Kept }\n{}\n"
SPECS = b"-- one\npub record Kept (r : R) : Type 0 where\n  pub is_same : r\n"


class Names(Calls):
    def setUp(self):
        super().setUp()
        for folder, copied in ((CHECKS, ("names", "links", "common.py")), (TOOLS, ("arena.py", "program.py"))):
            os.mkdir(self.path(os.path.basename(folder)))
            for name in copied:
                shutil.copy(os.path.join(folder, name), self.path(os.path.basename(folder)))
        for folder in ("one/src", "one/specs", "one/planted", "two/src"):
            os.makedirs(self.path(os.path.join("crates", folder)))
        os.mkdir(self.path("docs"))
        self.path("crates/one/src/world.rt", CODE)
        self.path("crates/one/src/laws.rt", LAW)
        self.path("crates/one/specs/Keeping.antt", SPECS)
        self.path("crates/one/planted/sum_is_two.edit", b"bug: x\n")
        self.path("crates/one/src/lib.rt", b"mod laws;\npub use laws::worlds_are_kept;\n")
        self.path("crates/two/src/lib.rt", b"pub fn play() {}\n")
        subprocess.run(["git", "init", "-q", self.folder], check=True)

    def names(self, *words, status, **more):
        done = subprocess.run(
            [self.path("checks/names"), *words], stderr=subprocess.PIPE, timeout=SECONDS, **{"stdout": subprocess.PIPE, **more}
        )
        self.assertNotIn(b"Traceback", done.stderr)
        self.assertEqual(done.returncode, status, done)
        return done.stdout, done.stderr

    def page(self, text, name="README.md"):
        self.path(name, text.encode())

    def test_right(self):
        self.page("`one`: `World`, law `worlds_are_kept`; `sum_is_two`; `play` of `two`. `x + one`, `from 7 00`, `out/none`\n\n")
        self.page("`World::add_one(r)` `Kept.is_same` `is_same` of `Kept` `sum` `specs/Keeping.antt` `world.rt`\n", "crates/one/README.md")
        self.page("`Outside` `u8` `one::World` `SV_Link`, `absmin` and `absmax` in Quake's `SV_Link`\n\n    World add_one\n", "two.md")
        bugs = "| `crates/NAME/planted/BUG.edit` | x | 1, y |\n\n`one`: `bug_by_hand` (no `such_thing`), `play_is_last`.\n"
        self.page(bugs + "\nand `bug_by_hand`\n", "docs/BUGS.md")
        self.assertEqual(self.names(status=0), (b"4 pages, 0 faults\n", b""))
        self.assertTrue(self.names("--help", status=0)[0].startswith(b"Checks that every name"))

    def test_faults(self):
        for text, fault in (
            ("`add_two`", "there is no add_two"),
            ("`a_comment`", "there is no a_comment"),
            ("`add_two(x)`", "there is no add_two"),
            ("`three.rt`", "there is no file three.rt"),
            ("`two` has `world.rt`", "there is no file world.rt"),
            ("`World::add_two`", "World has no add_two"),
            ("`World.is_same`", "World has no is_same"),
            ("`is_same` of `World`", "World has no is_same"),
            ("`sum`, `is_same` of `Kept`", "Kept has no sum"),
            ("`two::World`", "two has no World"),
            ("`two`: `play`, `World`; `World`", "two has no World"),
            ("`World` of `two`", "two has no World"),
            ("law `add_one`", "there is no law add_one here"),
            ("laws `worlds_are_kept` and `play`", "there is no law play here"),
            ("`two`, law `worlds_are_kept`", "there is no law worlds_are_kept here"),
            ("`two`, `sum_is_two`", "sum_is_two is an edit of another crate"),
            ("    add_one add_two", "there is no add_two"),
        ):
            with self.subTest(text):
                self.page(f"\n{text}\n")
                said = self.names(status=1)[0].decode().splitlines()
                self.assertEqual(said, [f"README.md:2: {fault}", "1 pages, 1 faults"])
        self.page("| `crates/NAME/planted/BUG.edit` | x | 2, y |\n`three`: `x_y`.\n`add_two`\n", "docs/BUGS.md")
        self.page("`add_two`\n", "a \x1b.md")
        self.path("crates/one/planted/sum_is_two.edit", b"file: x\n")
        out, _ = self.names(status=1)
        unsaid = b"1: crates/one/planted/sum_is_two.edit doesn't begin with its line bug:"
        for said in (b"1: there are 1 edits in planted, not 2", unsaid, b"2: there is no crate three", b"3: there is no add_two"):
            self.assertIn(b"docs/BUGS.md:" + said + b"\n", out)
        self.assertIn(b"a \\x1b.md:1: there is no add_two\n", out)

    def test_a_hidden_law(self):
        self.page("`World`\n")
        self.path("crates/one/src/lib.rt", b"mod laws;\n")
        hidden = b"crates/one/src/laws.rt: the crate doesn't show the law worlds_are_kept\n"
        self.assertIn(hidden, self.names(status=1)[0])

    def test_what_a_user_does_wrong(self):
        self.page("`World`\n")
        self.assertIn(b"names: no words are wanted\n", self.names("x", status=2)[1])
        with open("/dev/full", "w") as full:
            self.assertEqual(self.names(status=1, stdout=full)[1], b"names: No space left on device\n")
        shutil.rmtree(self.path(".git"))
        self.assertIn(b"git can't list the pages", self.names(status=1)[1])


if __name__ == "__main__":
    unittest.main()
