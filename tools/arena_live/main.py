"""tools/live: lets people play on a map, in a browser or by UDP, and judges what they played.

The program plays; this stands between it and the players' sockets, saves what came and what was answered, and at the
end prints whether the one is right for the other. docs/LIVE.md has how, and what a client must know.

statuses: 0 each match is right; 1 one is wrong; 2 the words, the map or the folder can't be used; 3 a match broke off,
and `--resume` goes on with it; 4 one wasn't judged, or the front was stopped before one began.
"""
import argparse
import asyncio
import itertools
import os
import signal
import subprocess
import sys
import tempfile
from typing import Awaitable, Callable, Iterable, List, Optional, TextIO, Tuple

import arena
import program
from arena_live.bots import Bots
from arena_live.faults import Faults, sentence_of
from arena_live.match import Arena, Match
from arena_live.metrics import Metrics
from arena_live.pipe import ProgramEnded
from arena_live.resume import Start, resume
from arena_live.saved import MOST_FRAMES, Saved, SaveFault, Settings, read_map
from arena_live.sessions import Sessions
from arena_live.udp import Udp
from arena_live.verdict import NOT_JUDGED, WRONG, Verdict, judge

try:
    from arena_live.web import Web
except ImportError:
    Web = None

# What the program may take to answer a map.
SECONDS = 60
# What asks the front to end: Control-C, `kill`, and a terminal that is closed.
SIGNALS = (signal.SIGINT, signal.SIGTERM, signal.SIGHUP)
ALL_RIGHT, ONE_WRONG, MISUSED, BROKEN_OFF, UNJUDGED = range(5)


class Misuse(Exception):
    """Why the front can't begin, as a sentence."""


class BrokenOff(Exception):
    """Why a match stopped before its end, as a sentence."""


def number_from(least: int, most: int):
    def read(word: str) -> int:
        if not word.isascii() or not word.isdigit() or not least <= int(word) <= most:
            raise argparse.ArgumentTypeError(f"{word!r} isn't a number from {least} to {most}")
        return int(word)

    return read


def read_words() -> argparse.Namespace:
    shape = argparse.RawDescriptionHelpFormatter
    parser = argparse.ArgumentParser("live", description=__doc__, formatter_class=shape, allow_abbrev=False)
    a_port, a_match = number_from(0, 65535), number_from(1, MOST_FRAMES)
    add = parser.add_argument
    add("map", metavar="MAP", nargs="?", help="a file with the lines of a map, as they begin each recording")
    add("--bots", metavar="K", type=number_from(0, 64), default=0, help="players that the front brings (default 0)")
    add("--workers", metavar="N", type=number_from(1, 16), default=1, help="workers of the program (default 1)")
    add("--hz", metavar="F", type=number_from(1, 100), default=20, help="frames a second (default 20)")
    add("--http", metavar="PORT", type=a_port, default=8765, help="of the page; 0 takes a free one (default 8765)")
    add("--udp", metavar="PORT", type=a_port, default=27500, help="of UDP; 0 takes a free one (default 27500)")
    add("--bind", metavar="ADDRESS", default="127.0.0.1", help="where both listen (default 127.0.0.1, this machine)")
    add("--save", metavar="FOLDER", help="where the match is saved (default: a new folder among the temporary files)")
    add("--resume", metavar="FOLDER", help="go on with the match that was saved there, in place of MAP")
    add("--judge", metavar="FOLDER", help="judge the match that was saved there, in place of MAP, and play none")
    add("--frames", metavar="N", type=a_match, help="end when the match has so many frames")
    next_match = "frames of a match; then a new one begins, in FOLDER-2 and so on (default 100000, the most)"
    add("--match", metavar="N", type=a_match, default=MOST_FRAMES, help=next_match)
    words = parser.parse_args()
    if sum(word is not None for word in (words.map, words.resume, words.judge)) != 1:
        parser.error("one of MAP, --resume FOLDER and --judge FOLDER is wanted")
    if words.map is None and words.save is not None:
        parser.error("--save is for a new match: a resumed one goes on in its folder")
    if not words.bind:
        parser.error("--bind wants an address")
    return words


def say(text: str) -> None:
    """Prints a line. A match goes on where these can't be written; then only that is said, once."""
    try:
        print(f"live: {program.shown(text)}", flush=True)
    except OSError as why:
        silence(sys.stdout)
        complain(f"no line can be written any more: {program.sentence_of(why)[0]}; the status says how it ended")


def complain(text: str) -> None:
    """Says on standard error why the front can't begin."""
    try:
        print(f"live: {program.shown(text)}", file=sys.stderr, flush=True)
    except OSError:
        silence(sys.stderr or sys.stdout)


def silence(file: TextIO) -> None:
    """What is written there from now on, and what still waits to be, goes nowhere."""
    os.dup2(os.open(os.devnull, os.O_WRONLY), file.fileno())


def catch_signals(act: Callable[[], None]) -> None:
    """Has the signals do this from now on. One that is ignored, as by `nohup`, remains so."""
    for number in SIGNALS:
        if number != signal.SIGHUP or signal.getsignal(number) is not signal.SIG_IGN:
            asyncio.get_running_loop().add_signal_handler(number, act)


def ignore_signals() -> None:
    """All is said, so that a signal that comes now changes nothing."""
    for number in SIGNALS:
        signal.signal(number, signal.SIG_IGN)


class Live:
    """A run of the front: matches one after another, on the same sockets. Without a map it goes on with a saved one."""

    def __init__(self, words: argparse.Namespace, ground: Optional[Arena], metrics: Metrics):
        self._words, self._ground, self._metrics = words, ground, metrics
        self._stop = asyncio.Event()
        self._folder = words.resume or words.save
        self._judging: List[asyncio.Task] = []

    async def run(self) -> int:
        try:
            catch_signals(self._stop.set)
            if self._ground is None:
                await self._go_on()
            else:
                await self._serve(self._ground, Sessions(self._metrics, self._words.hz), None)
        except (Misuse, SaveFault, ProgramEnded, arena.FormatError):
            raise
        except Exception as why:
            say(f"it broke off: {why if isinstance(why, BrokenOff) else sentence_of(why)}")
            await self._report()
            return BROKEN_OFF
        return await self._report()

    async def _go_on(self) -> None:
        """Goes on with a saved match, or judges it where it was killed while it ended."""
        resumed = await self._resumed()
        try:
            if resumed.is_over:
                resumed.saved.close()
                say(f"the match was over; {resumed.saved.output_path} has now what it lacked")
                self._judging.append(asyncio.create_task(judge(program.PROGRAM, resumed.saved)))
                return
            ground = Arena(*read_map(resumed.saved.recording_path), program.PROGRAM)
            sessions = Sessions(self._metrics, resumed.saved.settings.hz)
            say(f"resumed at frame {resumed.frame}")
            await self._serve(ground, sessions, lambda: Match(ground, sessions, self._metrics, resumed))
        finally:
            await resumed.pipe.kill()

    async def _resumed(self) -> Start:
        """The match of the folder. A signal that comes meanwhile leaves it as it was, for another time."""
        resuming = asyncio.create_task(resume(self._folder, program.PROGRAM))
        stopping = asyncio.create_task(self._stop.wait())
        await asyncio.wait((resuming, stopping), return_when=asyncio.FIRST_COMPLETED)
        stopping.cancel()
        if not resuming.done():
            resuming.cancel()
            await asyncio.wait((resuming,))
        if resuming.cancelled():
            raise BrokenOff(f"it was stopped while it resumed; `--resume {self._folder}` goes on with what was saved")
        return resuming.result()

    async def _serve(self, ground: Arena, sessions: Sessions, go_on: Optional[Callable[[], Match]]) -> None:
        """Listens, plays, and says goodbye to all."""
        udp, web = None, Web(ground, sessions, self._metrics)
        try:
            udp, http = await self._listen(sessions, web)
            match = go_on() if go_on is not None else await self._new_match(ground, sessions)
            host = f"[{self._words.bind}]" if ":" in self._words.bind else self._words.bind
            say(f"the page is http://{host}:{http}/ and UDP port {udp.port}")
            say("Control-C ends the match")
            Bots(self._words.bots, sessions, ground).enter()
            await self._play(ground, sessions, match)
        finally:
            for session in sessions:
                sessions.say_goodbye(session, b"over")
            await asyncio.sleep(0.05)  # so that it is sent
            if udp is not None:
                udp.close()
            await web.close()

    async def _new_match(self, ground: Arena, sessions: Sessions) -> Match:
        """The first match, or a later one, in a folder of its own."""
        if self._folder is None:
            self._folder = tempfile.mkdtemp(prefix="arena-live-")
        folder = self._folder
        if self._judging:
            numbered = (f"{self._folder.rstrip('/')}-{number}" for number in itertools.count(2))
            folder = next(folder for folder in numbered if not os.path.lexists(folder))
        saved = Saved.create(folder, ground.lines, Settings(self._words.workers, sessions.hz))
        return await Match.begin(ground, sessions, self._metrics, saved)

    async def _listen(self, sessions: Sessions, web: "Web") -> Tuple[Udp, int]:
        """The UDP socket, and the port of the page."""
        words = self._words
        try:
            udp = Udp(sessions, self._metrics, words.bind, words.udp)
        except OSError as why:
            raise Misuse(f"UDP port {words.udp} of {words.bind} can't be had: {why.strerror}") from None
        try:
            return udp, await web.listen(words.bind, words.http)
        except OSError as why:
            udp.close()
            raise Misuse(f"port {words.http} of {words.bind} can't be had: {why.strerror}") from None

    async def _play(self, ground: Arena, sessions: Sessions, match: Match) -> None:
        """Plays matches until the run is to end; each is judged while the next is played."""
        words = self._words
        try:
            while True:
                await self._play_one(match, min(words.frames or MOST_FRAMES, words.match))
                match.saved.close()
                self._judging.append(asyncio.create_task(judge(ground.program, match.saved)))
                say(f"{match.frame} frames are saved in {match.saved.recording_path} and {match.saved.output_path}")
                if self._stop.is_set() or words.frames is not None:
                    return
                match = await self._new_match(ground, sessions)
        except (ProgramEnded, SaveFault) as why:
            raise BrokenOff(f"{why}, so no other match begins") from None
        finally:
            await match.pipe.kill()

    async def _play_one(self, match: Match, most: int) -> None:
        try:
            await match.run(self._stop, most)
        except Exception as why:
            said = str(why) if isinstance(why, (ProgramEnded, SaveFault)) else sentence_of(why)
            raise BrokenOff(f"{said}; `--resume {match.saved.folder}` goes on with what was saved") from None

    async def _report(self) -> int:
        parts = {"median": 0.5, "99th": 0.99, "worst": 1}
        times = ", ".join(f"{name} {1000 * self._metrics.quantile(part):.1f}" for name, part in parts.items())
        counts = (self._metrics.counts[f"arena_{name}_total"] for name in ("frames", "late_frames", "joins", "moves"))
        said = "{} frames, {} late, {} joins, {} moves".format(*counts)
        if self._metrics.counts["arena_frames_total"]:
            say(f"{said}; milliseconds from when a frame was due until it was sent: {times}")
        return await tell_verdicts(self._judging)


async def tell_verdicts(judging: Iterable[Awaitable[Verdict]]) -> int:
    """Waits for the verdicts and prints them: the status of the run."""
    judged = asyncio.gather(*judging)
    catch_signals(judged.cancel)
    if not judged.done():
        say("it is judged; Control-C leaves it unjudged")
    try:
        verdicts = await judged
    except asyncio.CancelledError:
        say("not judged: it was stopped")
        return UNJUDGED
    for verdict in verdicts:
        say(str(verdict))
    kinds = {verdict.kind for verdict in verdicts}
    return ONE_WRONG if WRONG in kinds else UNJUDGED if NOT_JUDGED in kinds else ALL_RIGHT


async def judge_saved(folder: str) -> int:
    """Judges a match that was saved before, as at its end."""
    saved = Saved.reopen(folder)
    try:
        return await tell_verdicts([judge(program.PROGRAM, saved)])
    finally:
        saved.close()


def refuse_bad_map(path: str, ground: Arena) -> None:
    """The program reads the map and a frame without packets, before anybody waits for it."""
    text = b"\n".join([*ground.lines, b"frame", b"end", b""])
    try:
        done = subprocess.run(
            [ground.program, "play", "1"], input=text, capture_output=True, start_new_session=True, timeout=SECONDS
        )
    except (OSError, subprocess.TimeoutExpired) as why:
        raise Misuse(program.sentence_of(why)[0]) from None
    if done.returncode != 0:
        said = arena.printable(done.stderr.strip()) or f"status {done.returncode}"
        raise Misuse(f"{path} is no map that the program takes: {said}; `tools/why` says it in words")


def why_not(words: argparse.Namespace) -> Optional[str]:
    """What this machine lacks, or None."""
    if Web is None and words.judge is None:
        return f"{sys.executable} has no aiohttp: `apt-get install python3-aiohttp`, and run it by /usr/bin/python3"
    return program.lacking()


def read_ground(path: str) -> Arena:
    """The map that is to be played on, once the program has taken it."""
    ground = Arena(*read_map(path), program.PROGRAM)
    refuse_bad_map(path, ground)
    return ground


def begin() -> int:
    """Does what the words ask for, and gives the status."""
    if sys.stdout is not None:
        sys.stdout.reconfigure(errors="backslashreplace", line_buffering=True)
    try:
        words = read_words()
    except OSError as fault:  # where the help can't be written
        silence(sys.stdout)
        raise Misuse(program.sentence_of(fault)[0]) from None
    why = why_not(words) or (program.unreadable(words.map) if words.map is not None else None)
    if why is not None:
        raise Misuse(why)
    metrics = Metrics()
    Faults(metrics, say)
    if words.judge is not None:
        return asyncio.run(judge_saved(words.judge))
    # The map is read before there is a loop, which would hear no signal while a pipe has the front wait for it.
    ground = read_ground(words.map) if words.map is not None else None
    return asyncio.run(Live(words, ground, metrics).run())


def main() -> int:
    for number in SIGNALS:
        if signal.getsignal(number) is not signal.SIG_IGN:
            signal.signal(number, program.stop)
    try:
        return begin()
    except (Misuse, SaveFault, ProgramEnded, arena.FormatError) as fault:
        complain(str(fault))
        return MISUSED
    except KeyboardInterrupt:
        ignore_signals()
        say("it was stopped before it began")
        return UNJUDGED
    except Exception as fault:
        complain(sentence_of(fault))
        return BROKEN_OFF
    finally:
        ignore_signals()
