"""`many`: right, refused and wrong recordings, odd names, stored outputs, signals, full disks and other machines."""
import gzip
import json
import os
import resource
import shutil
import signal
import subprocess
import time
import unittest

from calls import Calls, content, run
from common import PROGRAM, TOOLS

ODD = ["a\tb\nc.demo", "\udcff '\"{}$(x).demo", "-n.demo", "\x1b[31mred.demo"]
# What stands in for `ssh`: it runs the command on this machine, in a folder of its own.
SSH = """#!/bin/sh
while [ "${1#-}" != "$1" ]; do case "$1" in -l|-o|-p) shift;; esac; shift; done
shift; [ "$1" = -- ] && shift
cd "$FAR_HOME" && HOME=$FAR_HOME exec sh -c "$*"
"""


@unittest.skipUnless(shutil.which("parallel"), "GNU parallel isn't here")
class Many(Calls):
    def setUp(self):
        super().setUp()
        self.recordings = self.path("recordings")
        os.mkdir(self.recordings)

    def put(self, name, data):
        with open(os.path.join(self.recordings, name), "wb") as file:
            file.write(data)

    def many(self, *words, status, **more):
        """The table, and the results by name."""
        results = self.path("results")
        out, error, _ = self.call("many", self.recordings, "--jsonl", results, *words, status=status, **more)
        with open(results, encoding="utf-8") as file:
            found = {result["name"]: result for result in map(json.loads, file)}
        return out.decode(), found, error

    def ends(self, found):
        return {name: result["end"] for name, result in found.items()}

    def test_right_refused_and_packed(self):
        self.put("a.demo", content("duel.demo"))
        self.put("b.demo.gz", gzip.compress(content("packet-faults.demo")))
        out, found, _ = self.many(status=0)
        self.assertEqual(self.ends(found), {"a.demo": "right", "b.demo.gz": "right"})
        refusals = content("packet-faults.out").count(b"\nno ")
        self.assertIn(f"{refusals}  refused packets, in 1 of them", out)
        self.put("c.demo", content("refused.demo"))
        self.put("long.demo", run(["make", "1", "1", "2001"])[0])
        out, found, _ = self.many(status=1)
        self.assertIn("refused: c.demo: line 5, fault 3: the line begins with no known word", out)
        self.assertIn("long: long.demo: its frame of line 4103 is one more than `check` takes", out)

    def test_odd_names(self):
        for name in ODD:
            self.put(name, content("one-join.demo"))
        out, found, _ = self.many("-j", "2", status=0)
        self.assertEqual(self.ends(found), {name: "right" for name in ODD})
        self.put("\x1b]0;evil\x07.demo", content("refused.demo"))
        self.assertNotIn("\x1b", self.many(status=1)[0])

    def test_names_are_no_program(self):
        """GNU parallel runs Perl that stands in its command: no name of a file or a folder may come there."""
        trap = "{= qx(touch PWNED) =} {}"
        folder = self.path("in " + trap)
        os.mkdir(folder)
        self.recordings = os.path.join(folder, "b " + trap)
        os.mkdir(self.recordings)
        self.put(trap + ".demo", content("one-join.demo"))
        program = shutil.copy(PROGRAM, os.path.join(folder, "p " + trap))
        _, found, _ = self.many(status=0, cwd=folder, env={"ARENA_CLI": program})
        self.assertEqual(self.ends(found), {trap + ".demo": "right"})
        self.put(trap + ".out", content("one-join.out"))
        self.many("--pairs", "--joblog", self.path("l " + trap), status=0, cwd=folder, env={"ARENA_CLI": program})
        self.assertEqual([name for _, _, names in os.walk(self.folder) for name in names if name == "PWNED"], [])

    def test_what_is_no_recording(self):
        os.symlink("/none", os.path.join(self.recordings, "dangling.demo"))
        os.mkdir(os.path.join(self.recordings, "folder.demo"))
        os.mkfifo(os.path.join(self.recordings, "pipe.demo"))
        self.put("cut.demo.gz", gzip.compress(content("duel.demo"))[:-9])
        self.put("wide.demo", content("one-join.demo").decode().encode("utf-16"))
        _, found, _ = self.many(status=1)
        wanted = {"dangling.demo": "failed", "folder.demo": "failed", "cut.demo.gz": "failed", "wide.demo": "refused"}
        wanted["pipe.demo"] = "failed"
        self.assertEqual(self.ends(found), wanted)

    def test_results_that_never_come(self):
        """What came in place of a result is said: how parallel ended, what it wrote, and which signal ended a job."""
        self.put("a.demo", content("duel.demo"))
        for ends, said in (("exit 0", "with status 0"), ("exit 2", "with status 2"), ("kill -9 $$", "by signal 9")):
            out, _, error = self.many(status=1, env=self.instead_of_parallel(ends))
            self.assertIn(f"failed: a.demo: it wasn't judged to its end; parallel ended {said}\n", out)
            self.assertEqual(error, b"")
        _, _, error = self.many(status=1, env=self.instead_of_parallel("printf 'odd \\033 line\\n'"))
        self.assertEqual(error, b"many: parallel wrote what is no result: odd \\x1b line\\n\n")

    def test_a_job_that_is_stopped(self):
        """A job that a signal ends, and not `many`, is a result."""
        self.put("a.demo", run(["make", "1", "64", "1900"])[0])
        marked = self.path("marked_program")
        shutil.copy(PROGRAM, marked)
        words = [os.path.join(TOOLS, "many"), self.recordings]
        environment = {**os.environ, "ARENA_CLI": marked}
        script = subprocess.Popen(words, env=environment, stdout=subprocess.PIPE, stderr=subprocess.PIPE)
        self.wait_for(lambda: self.running(marked), "a program runs")
        os.kill(self.parent_of(self.running(marked)[0]), signal.SIGTERM)
        out, error = script.communicate(timeout=60)
        self.assertEqual((script.returncode, error), (1, b""))
        self.assertIn(b"failed: a.demo: signal 15 stopped its judging\n", out)
        self.wait_for(lambda: not self.running(marked), "no program is left")

    def instead_of_parallel(self, script):
        """A search path whose `parallel` ends otherwise than it should."""
        bins = self.path("bins")
        os.makedirs(bins, exist_ok=True)
        with open(os.path.join(bins, "parallel"), "w") as file:
            file.write(f'#!/bin/sh\n[ "$1" = --version ] && exec echo GNU parallel 1\n{script}\n')
        os.chmod(file.name, 0o755)
        return {"PATH": f"{bins}:{os.environ['PATH']}"}

    def test_wrong_words(self):
        empty = self.path("empty")
        os.mkdir(empty)
        lists = [[], [empty], [self.path("none")], [self.recordings, "--workers", "17"], [self.recordings, "-j", "0"]]
        lists += [[self.recordings, "--resume"], [self.recordings, "--pairs", "--logs"], [self.recordings, "--sing"]]
        lists += [[self.recordings, "--pairs", "--sshlogin", "far"]]
        for words in lists:
            _, error, _ = self.call("many", *words, status=2)
            self.assertTrue(error.startswith(b"many: "))

    def test_a_program_by_a_relative_path(self):
        self.put("a.demo", content("one-join.demo"))
        place = os.path.relpath(PROGRAM, self.folder)
        _, found, _ = self.many(status=0, env={"ARENA_CLI": place}, cwd=self.folder)
        self.assertEqual(self.ends(found), {"a.demo": "right"})
        self.call("many", self.recordings, status=2, env={"ARENA_CLI": "./none"}, cwd=self.folder)

    def test_a_program_that_judges_nothing(self):
        """Status 0 without the line `right ..` isn't taken for a verdict."""
        self.put("a.demo", content("one-join.demo"))
        out, found, _ = self.many(status=1, env={"ARENA_CLI": shutil.which("true")})
        self.assertEqual(self.ends(found), {"a.demo": "failed"})
        self.assertIn("failed: a.demo: the judging program ended with status 0", out)

    def test_stored_outputs(self):
        for name in ("duel", "tour", "packet-faults"):
            self.put(name + ".demo", content(name + ".demo"))
            self.put(name + ".out", content(name + ".out"))
        self.put("packed.demo.gz", gzip.compress(content("lift.demo")))
        self.put("packed.out.gz", gzip.compress(content("lift.out")))
        out, found, _ = self.many("--pairs", status=0)
        self.assertEqual(set(self.ends(found).values()), {"right"})
        self.put("tour.out", content("tour.out").replace(b"did 0", b"did 1", 1))
        self.put("alone.demo", content("duel.demo"))
        self.put("refused.demo", content("refused.demo"))
        self.put("refused.out", content("refused.out"))
        out, found, _ = self.many("--pairs", status=1)
        ends = self.ends(found)
        self.assertEqual((ends["tour.demo"], ends["alone.demo"], ends["refused.demo"]), ("wrong", "failed", "refused"))
        self.assertIn("failed: alone.demo: there is no output beside it", out)

    def test_logs(self):
        recording = content("packet-faults.demo")
        fed = run(["feed", "2"], recording)[0]
        head = recording.split(b"\nframe")[0] + b"\nend\n"
        self.put("whole.log", head + fed + b"what follows isn't looked at")
        self.put("parted.log", fed)
        self.put("parted.demo", recording)
        self.put("cut.log.gz", gzip.compress(head + fed[:-2]))
        self.put("alone.log", fed)
        self.put("refused.log", content("map-rule.demo") + fed)
        self.put("framed.log", recording + fed)
        self.put("long.log.gz", gzip.compress(self.log_of(["make", "7", "1", "2100"])))
        out, found, _ = self.many("--logs", status=1)
        wanted = {"whole.log": "right", "parted.log": "right", "long.log.gz": "right", "cut.log.gz": "wrong"}
        wanted.update({"alone.log": "failed", "framed.log": "failed", "refused.log": "refused"})
        self.assertEqual(self.ends(found), wanted)
        self.assertIn("alone.log: the log has no map, and there is no recording beside it", out)
        number = recording.split(b"\nframe")[0].count(b"\n") + 2
        self.assertIn(f"framed.log: the lines of its map go on with a frame in line {number}, without `end`", out)
        last = (head + fed).count(b"\n")
        self.assertIn(f"cut.log.gz: transcript refused: line {last}", out)
        counts = {result["name"]: result.get("refusals") for result in found.values()}
        self.assertEqual(counts["whole.log"], fed.count(b"\nno "))

    @staticmethod
    def log_of(words):
        recording = run(words)[0]
        return recording.split(b"\nframe")[0] + b"\nend\n" + run(["feed", "2"], recording)[0]

    def test_results_go_on(self):
        for number in range(4):
            self.put(f"{number}.demo", content("one-join.demo"))
        log = self.path("jobs")
        self.many("--joblog", log, "-j", "1", status=0)
        with open(log) as file:
            lines = file.readlines()
        with open(log, "w") as file:
            file.writelines(lines[:3])
        out, found, _ = self.many("--joblog", log, "--resume", status=0)
        self.assertEqual(len(found), 4)
        with open(self.path("results")) as file:
            self.assertEqual(len(file.readlines()), 6)
        os.remove(self.path("results"))
        out, found, _ = self.many("--joblog", log, "--resume", status=1)
        self.assertIn("4  before", out)

    def test_results_that_are_damaged(self):
        """Lines that are no result are passed over, and after one that was cut the next begins a line of its own."""
        for name in ("a.demo", "b.demo", "c.demo"):
            self.put(name, content("one-join.demo"))
        log, results = self.path("jobs"), self.path("results")
        self.many("--joblog", log, "-j", "1", status=0)
        with open(results, "rb") as file:
            first = file.readline()
        odd = [b'{"name":"a.demo","end":"foo"}', b'{"name":"a.demo","end":"refused","fault":3}', b"[" * 9000, b'["name"]', b"3"]
        odd += [b'{"name":["a.demo"],"end":"right"}', b'{"name":"a.demo","end":["right"]}', b'{"end":"right","refusals":"2"}']
        self.path("results", first + b"\n".join([*odd, first[:9]]))
        with open(log) as file:
            lines = file.readlines()
        self.path("jobs", "".join(lines[:2]).encode())
        out = self.call("many", self.recordings, "--jsonl", results, "--joblog", log, "--resume", status=0)[0]
        self.assertIn(b"3  right", out)
        with open(results, "rb") as file:
            self.assertEqual([json.loads(line)["end"] for line in file.readlines()[-2:]], ["right", "right"])

    def test_a_line_without_an_end(self):
        """A recording of zero bytes alone, a gigabyte of them, is refused without being read as one line."""
        with open(os.path.join(self.recordings, "sparse.demo"), "wb") as file:
            file.truncate(1 << 30)
        self.put("packed.demo.gz", gzip.compress(b"x" * (1 << 24)))
        self.put("sparse.out", b"")
        self.put("packed.out", b"")
        most = 600_000_000
        for words in ([], ["--pairs"]):
            limit = {"preexec_fn": lambda: resource.setrlimit(resource.RLIMIT_AS, (most, most))}
            self.assertEqual(set(self.ends(self.many(*words, "-j", "1", status=1, **limit)[1]).values()), {"refused"})

    def test_a_signal_ends_all(self):
        """No program and no file is left by a signal, whichever it is."""
        marked = self.path("marked_program")
        shutil.copy(PROGRAM, marked)
        for number in range(4):
            self.put(f"{number}.demo", run(["make", str(number), "64", "1900"])[0])
        room = self.path("room")
        os.mkdir(room)
        for sent in (signal.SIGTERM, signal.SIGINT, signal.SIGHUP, signal.SIGKILL):
            environment = {**os.environ, "ARENA_CLI": marked, "TMPDIR": room}
            script = subprocess.Popen(
                [os.path.join(TOOLS, "many"), self.recordings, "-j", "2"], env=environment, stdout=subprocess.PIPE, stderr=subprocess.PIPE
            )
            self.wait_for(lambda: len(self.running(marked)) >= 2, "a program runs")
            script.send_signal(sent)
            out, error = script.communicate(timeout=60)
            self.assertEqual(script.returncode, -sent if sent == signal.SIGKILL else 128 + sent, error)
            self.wait_for(lambda: not self.running(marked), f"no program is left after {sent!r}")
            self.assertEqual(os.listdir(room), [])
            if sent != signal.SIGKILL:
                self.assertIn(b"many: stopped after 0 of 4", error)

    @staticmethod
    def running(path):
        """The numbers of the processes whose program this is."""
        found = []
        for name in os.listdir("/proc"):
            if name.isdecimal():
                try:
                    with open(f"/proc/{name}/cmdline", "rb") as file:
                        words = file.read().split(b"\0")
                except OSError:
                    continue
                if words[0] == os.fsencode(path):
                    found.append(int(name))
        return found

    @staticmethod
    def parent_of(process):
        with open(f"/proc/{process}/stat") as file:
            return int(file.read().rsplit(")", 1)[1].split()[1])

    def wait_for(self, holds, what):
        until = time.monotonic() + 60
        while not holds():
            self.assertLess(time.monotonic(), until, what)
            time.sleep(0.05)

    def test_a_full_disk(self):
        """With no room for a temporary file anywhere a right output is called right."""
        room = self.path("full")
        os.mkdir(room)
        mounted = subprocess.run(["mount", "-t", "tmpfs", "-o", "size=64k", "tmpfs", room], capture_output=True)
        if mounted.returncode != 0:
            self.skipTest("a small tmpfs can't be mounted here; that takes root")
        self.addCleanup(subprocess.run, ["umount", room])
        with open(os.path.join(room, "all"), "wb", buffering=0) as file:
            try:
                while True:
                    file.write(b"x" * 4096)
            except OSError:
                pass
        for number in range(3):
            self.put(f"{number}.demo", run(["make", str(number), "8", "100"])[0])
        _, found, _ = self.many(status=0, env={"TMPDIR": room})
        self.assertEqual(set(self.ends(found).values()), {"right"})
        _, error, _ = self.call("many", self.recordings, "--jsonl", os.path.join(room, "results"), status=1)
        self.assertIn(b"No space left on device", error)

    @unittest.skipUnless(shutil.which("rsync"), "rsync isn't here, by which parallel copies files")
    def test_another_machine(self):
        """The program, the script and the recordings are copied, and nothing stays."""
        home, bins = self.path("home"), self.path("bins")
        os.mkdir(home)
        os.mkdir(bins)
        with open(os.path.join(bins, "ssh"), "w") as file:
            file.write(SSH)
        os.chmod(os.path.join(bins, "ssh"), 0o755)
        for name in ODD[:2] + ["plain.demo"]:
            self.put(name, content("duel.demo"))
        self.put("packed.demo.gz", gzip.compress(content("lift.demo")))
        program = shutil.copy(PROGRAM, self.path("p {= qx(touch PWNED) =}\\n"))
        environment = {"PATH": f"{bins}:{os.environ['PATH']}", "FAR_HOME": home, "ARENA_CLI": program}
        _, found, _ = self.many("--sshlogin", "far", "-j", "2", status=0, env=environment)
        self.assertEqual((len(found), set(self.ends(found).values())), (4, {"right"}))
        left = [name for _, _, files in os.walk(home) for name in files if "demo" in name or name == "many_job.py"]
        self.assertEqual(left, [])


if __name__ == "__main__":
    unittest.main()
