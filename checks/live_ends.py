"""How the front ends where it isn't by its clock, for `checks/live`: by signals, kills in the last frame, faults of its
own, and folders that lead elsewhere."""
import atexit
import contextlib
import fcntl
import json
import os
import pty
import shutil
import signal
import socket
import subprocess
import sys
import tempfile
import termios
import time

from common import PROGRAM, TOOLS
from live import LIVE, MAP, Front, want
from live_hostile import page_socket

PORTS = ["--http", "0", "--udp", "0"]


def begun(*words, program=PROGRAM, **more):
    """A run of the front that may end at once. None is left where the check ends before it."""
    pipes = {"stdout": subprocess.PIPE, "stderr": subprocess.PIPE, "text": True, **more}
    command = [sys.executable, LIVE, *words, *PORTS]
    process = subprocess.Popen(command, env={**os.environ, "ARENA_CLI": program}, **pipes)
    atexit.register(process.kill)
    return process


def ended(process, seconds=30):
    """What a run said, and its status, once it has ended by itself; one that doesn't is killed, and has no status."""
    try:
        said, status = process.communicate(timeout=seconds), process.returncode
    except subprocess.TimeoutExpired:
        process.kill()
        said, status = process.communicate(), None
    return "".join(filter(None, said)), status


def until(is_so, text, seconds=20):
    """Waits until this is so."""
    end = time.monotonic() + seconds
    while not is_so():
        want(time.monotonic() < end, text)
        time.sleep(0.005)


def played(folder, *words):
    """A whole match of 60 frames, with what its players have done in the last ones."""
    with Front(MAP, "--hz", "100", "--bots", "2", "--frames", "60", *words, "--save", folder) as front:
        text, status = front.end(None)
    want(status == 0, f"status {status}, {text}")


def bytes_of(*path):
    with open(os.path.join(*path), "rb") as file:
        return file.read()


def put(data, *path):
    with open(os.path.join(*path), "wb") as file:
        file.write(data)


# Folders that lead elsewhere.

# A file of a match, what stands in its place, the word, and what is said of it.
REPLACED = [
    *((name, os.symlink, "--resume", "is a link") for name in ("match.demo", "match.out", "match.json", "lock")),
    ("match.demo", os.symlink, "--judge", "is a link"),
    ("match.demo", os.link, "--resume", "has another name"),
    ("match.out", os.link, "--resume", "has another name"),
    ("match.demo", lambda _, path: os.mkfifo(path), "--judge", "isn't a plain file"),
    ("match.out", lambda _, path: os.mkfifo(path), "--resume", "isn't a plain file"),
    ("match.json", lambda _, path: os.mkfifo(path), "--resume", "isn't a plain file"),
    ("lock", lambda _, path: os.mkfifo(path), "--resume", "isn't a plain file"),
    ("match.out", lambda _, path: os.mkdir(path), "--resume", "isn't a plain file"),
]


def links_elsewhere():
    """No file of a match may be a link, another's file or none at all, and nothing outside of the folder is written."""
    with tempfile.TemporaryDirectory(prefix="live-") as top:
        whole, outside = os.path.join(top, "whole"), os.path.join(top, "outside")
        played(whole)
        os.mkdir(outside)
        runs = []
        for number, (name, place, word, said) in enumerate(REPLACED):
            folder, victim = os.path.join(top, f"{number}"), os.path.join(outside, f"{number}-{name}")
            shutil.copytree(whole, folder)
            if word == "--resume":
                os.truncate(os.path.join(folder, "match.demo"), os.path.getsize(os.path.join(whole, "match.demo")) - 4)
            path = os.path.join(folder, name)
            os.rename(path, victim)
            place(victim, path)
            runs.append((begun(word, folder), path, said, victim, bytes_of(victim)))
        for run, path, said, victim, before in runs:
            text, status = ended(run)
            is_said = text.count("\n") == 1 and f"{path} {said}" in text
            want(status == 2 and is_said, f"{path} in a folder of others: status {status}, {text}")
            want(bytes_of(victim) == before, f"{victim}, outside of the folder, is changed")
        links_to_nothing(whole, outside)
        want(len(os.listdir(outside)) == len(REPLACED), f"files are made outside of the folder: {os.listdir(outside)}")


def links_to_nothing(whole, outside):
    """Links to files that aren't there, in the places of those that the front makes."""
    folder = whole + "-links"
    shutil.copytree(whole, folder)
    settings = json.loads(bytes_of(folder, "match.json"))
    put(json.dumps({**settings, "workers": 3}).encode(), folder, "match.json")
    os.truncate(os.path.join(folder, "match.demo"), os.path.getsize(os.path.join(folder, "match.demo")) - 4)
    for name in ("match-2.demo", "match-3.out", "match.json.new"):
        os.symlink(os.path.join(outside, name), os.path.join(folder, name))
    text, status = ended(begun("--resume", folder, "--frames", "60"))
    want(status == 2 and "match.json.new is a link" in text, f"a link match.json.new: status {status}, {text}")
    os.remove(os.path.join(folder, "match.json.new"))
    text, status = ended(begun("--resume", folder, "--frames", "60"))
    want(status == 0 and "right:" in text, f"links match-2.demo and match-3.out: status {status}, {text}")
    for name in ("match.json", "match.json.new", "match.demo", "lock"):
        new = whole + "-new-" + name
        os.mkdir(new)
        os.symlink(os.path.join(outside, name), os.path.join(new, name))
        text, status = ended(begun(MAP, "--frames", "2", "--save", new))
        want(status == 2 and "Traceback" not in text, f"a link {name} where a match is saved: status {status}, {text}")


# Signals.


def program_that(path, script):
    """A program that is the real one but for this line of a shell before it."""
    put(f"#!/bin/sh\n{script}\nexec '{PROGRAM}' \"$@\"\n".encode(), path)
    os.chmod(path, 0o755)
    return path


def signals():
    """A signal ends the front in a sentence at every moment, and a match with its line `end` and a verdict."""
    with tempfile.TemporaryDirectory(prefix="live-") as top:
        moments = {signal.SIGINT: stopped_before, signal.SIGTERM: stopped_resuming, signal.SIGHUP: stopped_judging}
        for number, stopped in moments.items():
            name = os.path.join(top, number.name)
            with Front(MAP, "--hz", "100", "--bots", "2", "--save", name) as front:
                time.sleep(0.3)
                text, status = front.end(number)
            is_over = bytes_of(name, "match.demo").endswith(b"\nend\n")
            is_right = is_over and "live: right:" in text
            want(status == 0 and is_right, f"{number.name} in a match: status {status}, {text}")
            stopped(name, number)
        closed_terminal(os.path.join(top, "terminal"))
        stopped_rewriting(os.path.join(top, "long"))
    print("killed: signals before, in and after a match, and a closed terminal, end it in a sentence")


def stopped_before(name, number):
    """While the map is read, from a pipe that says nothing."""
    os.mkfifo(name + ".map")
    run = begun(name + ".map")
    writer = []

    def is_read():
        with contextlib.suppress(OSError):
            writer.append(os.open(name + ".map", os.O_WRONLY | os.O_NONBLOCK))
        return writer

    until(is_read, "the map isn't read")
    time.sleep(0.1)
    run.send_signal(number)
    text, status = ended(run, 10)
    os.close(writer[0])
    is_said = text == "live: it was stopped before it began\n"
    want(status == 4 and is_said, f"{number.name} while the map is read: status {status}, {text}")


def children_of(process):
    with contextlib.suppress(OSError):
        with open(f"/proc/{process.pid}/task/{process.pid}/children", encoding="ascii") as file:
            return file.read().split()
    return []


def stopped_resuming(name, number):
    """A match that a signal meets while it is resumed can be resumed again."""
    folder = name + "-cut"
    shutil.copytree(name, folder)
    demo = bytes_of(folder, "match.demo")
    put(demo[: demo.rindex(b"frame\n") + 6], folder, "match.demo")
    put(b"", folder, "match.out")
    run = begun("--resume", folder, program=program_that(name + "-slow", "exec sleep 60"))
    until(lambda: children_of(run), "the program isn't started")
    time.sleep(0.1)
    run.send_signal(number)
    text, status = ended(run, 10)
    is_said = text.count("\n") == 1 and f"`--resume {folder}`" in text
    want(status == 3 and is_said, f"{number.name} while a match is resumed: status {status}, {text}")
    text, status = ended(begun("--resume", folder, "--frames", "1"))
    want(status == 0 and "live: right:" in text, f"resumed after {number.name}: status {status}, {text}")


def stopped_judging(name, number):
    """A second signal leaves a match unjudged, and one that is judged later too."""
    slow = program_that(name + "-slow", '[ "$1" = audit ] && exec sleep 60')
    for words in ([MAP, "--frames", "3", "--hz", "100", "--save", name + "-unjudged"], ["--judge", name]):
        run = begun(*words, program=slow)
        lines = []
        while not lines or lines[-1] and "it is judged" not in lines[-1]:
            lines.append(run.stdout.readline())
        run.send_signal(number)
        text, status = ended(run, 10)
        is_said = text == "live: not judged: it was stopped\n"
        want(status == 4 and is_said, f"{number.name} while it judges: status {status}, {text}")


def closed_terminal(folder):
    """A match whose terminal is closed ends with its line `end` and a verdict, though nothing can be said any more."""
    ours, theirs = pty.openpty()
    files = dict.fromkeys(("stdin", "stdout", "stderr"), theirs)
    words = [MAP, "--hz", "100", "--save", folder]
    run = begun(*words, **files, start_new_session=True, preexec_fn=lambda: fcntl.ioctl(0, termios.TIOCSCTTY, 0))
    os.close(theirs)
    said = b""
    while b"Control-C" not in said:
        said += os.read(ours, 1000)
    os.close(ours)
    _, status = ended(run)
    is_over = bytes_of(folder, "match.demo").endswith(b"\nend\n")
    want(status == 0 and is_over, f"a match whose terminal is closed: status {status}, its end is written: {is_over}")


def idle(folder, frames, workers, closing=b""):
    """A saved match in which nobody plays, with this after its last line `frame`."""
    os.mkdir(folder)
    lines = bytes_of(MAP).removesuffix(b"end\n")
    put(lines + b"frame\n" * frames + closing, folder, "match.demo")
    put(b"".join(b"frame %d\n" % number for number in range(frames - 1)), folder, "match.out")
    put(json.dumps({"workers": workers, "hz": 100, "name": "match"}).encode(), folder, "match.json")


def stopped_rewriting(folder):
    """A match of several workers, which is written anew when it is resumed: that can be stopped too."""
    idle(folder, 100_000, 3)
    run = begun("--resume", folder)
    until(lambda: os.path.exists(os.path.join(folder, "match-2.demo")), "a match isn't written anew")
    run.send_signal(signal.SIGTERM)
    text, status = ended(run)
    is_as_before = json.loads(bytes_of(folder, "match.json"))["name"] == "match"
    want(status == 3 and is_as_before, f"SIGTERM while a match is written anew: status {status}, {text}")


# The last frame.


def last_frames():
    """A match that is killed in its last frame or after it is resumed at each point, and right."""
    with tempfile.TemporaryDirectory(prefix="live-") as top:
        for workers in (1, 3):
            whole = os.path.join(top, f"whole-{workers}")
            played(whole, "--workers", str(workers))
            for folder, text, status in all_resumed(last_frame_cuts(whole)):
                is_right = "right: `audit` says: right frames 60 " in text
                want(status == 0 and is_right, f"{folder}, with {workers} workers, is resumed: status {status}, {text}")
                is_same = bytes_of(folder, "match.out") == bytes_of(whole, "match.out")
                want(is_same or workers > 1 or "recording" in folder, f"the output of {folder} isn't what it was")
        whole = os.path.join(top, "whole-1")
        text, status = ended(begun("--resume", whole + "-nothing"))
        want(status == 2 and "the match was over" in text, f"a match that is whole: status {status}, {text}")
        unlike(whole)
        longest_match(top)
    print("killed: matches cut in their last frame were resumed, with 1 and 3 workers, and one in its 100,000th")


def last_frame_cuts(whole):
    """Copies of a match, by what is left of its output, or of its recording."""
    demo, out = bytes_of(whole, "match.demo"), bytes_of(whole, "match.out")
    last = out.rindex(b"\nframe 59\n") + 1
    for name, length in {"end": len(out) - 1, "line": len(out) - 60, "frame": last, "nothing": 0}.items():
        yield copied(whole, name, demo, out[:length])
    for name, length in {"end": len(demo) - 2, "packets": demo.rindex(b"\nframe\n") + 9}.items():
        yield copied(whole, "recording-" + name, demo[:length], out[:last])


def all_resumed(folders):
    """All are resumed at once: each with what was said, and the status."""
    runs = [(folder, begun("--resume", folder, "--frames", "60")) for folder in folders]
    return [(folder, *ended(run, 60)) for folder, run in runs]


def copied(whole, name, demo, out):
    folder = f"{whole}-{name}"
    shutil.copytree(whole, folder)
    put(demo, folder, "match.demo")
    put(out, folder, "match.out")
    return folder


def unlike(whole):
    """An output that lacks its end isn't called wrong, and one that isn't the program's doesn't get it."""
    demo, out = bytes_of(whole, "match.demo"), bytes_of(whole, "match.out")
    folder = copied(whole, "short", demo, out[:-7])
    text, status = ended(begun("--judge", folder))
    is_said = "not judged" in text and f"`--resume {folder}`" in text
    want(status == 4 and is_said, f"a short output: status {status}, {text}")
    folder = copied(whole, "unlike", demo, out[:-60].replace(b"\nto 0 ", b"\nto 1 ", 1))
    text, status = ended(begun("--resume", folder))
    want(status == 2 and "isn't what the program answers" in text, f"a changed output: status {status}, {text}")


def longest_match(top):
    """One that was killed in its 100,000th frame, the last that the program takes, has no more; the next begins."""
    folder, settings = os.path.join(top, "longest"), os.path.join(top, "longest-2", "match.json")
    idle(folder, 100_000, 1, b"from 0 ")
    with Front("--resume", folder) as front:
        until(lambda: os.path.exists(settings), "after 100,000 frames no other match begins")
        text, status = front.end()
    is_right = "right: `audit` says: right frames 100000 moves 0" in text
    want(status == 0 and is_right and text.count("right:") == 2, f"a match of 100,000 frames: status {status}, {text}")


# Faults of the front.

# The front with faults: in each message `fault`, in what bots do from frame 20 on, and in the frame of this number.
FAULTY = """
import sys
sys.dont_write_bytecode = True
sys.path.insert(0, {tools!r})
from arena_live import bots, main, match, sessions

def plant(owner, name, is_faulty):
    real = getattr(owner, name)
    def act(self, *given):
        return len(None) if is_faulty(*given) else real(self, *given)
    act.__code__ = act.__code__.replace(co_filename={tools!r} + "/planted-" + name)
    setattr(owner, name, act)

plant(sessions.Sessions, "receive", lambda address, data, now: data[16:] == b"fault")
plant(bots.Bot, "_act", lambda seen: seen.frame >= 20)
plant(match.Match, "_told", lambda frame, events: frame.number == {frame})
sys.exit(main.main())
"""
LINE = next(number for number, line in enumerate(FAULTY.splitlines(), 1) if "len(None)" in line)
SAID = "a fault of the front: TypeError in planted-{}, line %d" % LINE


def faults():
    """A fault in what a client or a bot does is told once, and the match goes on; one of a frame breaks it off."""
    with tempfile.TemporaryDirectory(prefix="live-") as top:
        folder, script = os.path.join(top, "match"), os.path.join(top, "faulty.py")
        put(FAULTY.format(tools=TOOLS, frame=60).encode(), script)
        with Front(MAP, "--save", folder + "-clients", script=script) as front:
            faulty_messages(front)
            count = front.metrics()["arena_faults_total"]
            text, status = front.end()
        want(status == 0 and "live: right:" in text, f"faults in what clients do: status {status}, {text}")
        is_told = text.count(f"live: {SAID.format('receive')}\n") == text.count("fault") == 1
        want(is_told and count == 4, f"of 4 faults of a kind {count} are counted, and not one is told: {text}")
        with Front(MAP, "--hz", "50", "--bots", "2", "--save", folder, script=script) as front:
            text, status = front.end(None)
        told = (f"live: {SAID.format('_act')}\n", f"live: it broke off: {SAID.format('_told')}; `--resume {folder}`")
        is_told = all(text.count(one) == 1 for one in told) and "60 frames" in text and "Traceback" not in text
        want(status == 3 and is_told, f"faults of bots and of frame 60: status {status}, {text}")
        text, status = ended(begun("--resume", folder, "--frames", "70"))
        is_right = "right: `audit` says: right frames 70 " in text
        want(status == 0 and is_right, f"resumed after a fault: status {status}, {text}")


def faulty_messages(front):
    """Three by UDP and one by a page; the match goes on by its clock."""
    with socket.socket(socket.AF_INET, socket.SOCK_DGRAM) as link, page_socket(front) as page:
        for _ in range(3):
            link.sendto(bytes(15) + b"1fault", ("127.0.0.1", front.udp))
        page.recv(4096)
        page.sendall(b"\x82\x95\0\0\0\0" + bytes(16) + b"fault")
        time.sleep(0.2)
        before = front.metrics()["arena_frames_total"]
        until(lambda: front.metrics()["arena_frames_total"] > before + 10, "after a fault the match doesn't go on")
