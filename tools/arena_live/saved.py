"""The folder of a match: `match.demo`, its recording, `match.out`, its output, and `match.json`, how it is played.

A frame's packets are in the recording before the program gets them, and its text is in the output before a client sees
anything of it. Both are handed to the system at once, so they outlive the front and the program, but no loss of power.
"""
import errno
import fcntl
import json
import os
import re
import stat
from dataclasses import asdict, dataclass
from typing import BinaryIO, List, Sequence, Tuple

import arena

MOST_FRAMES = 100_000
NAME = re.compile(r"match(-[0-9]{1,7})?")
# The last lines of a recording and of its output, with the end of the line before.
LAST_OF_RECORDING, LAST_OF_OUTPUT = re.compile(rb"\nend\n\Z"), re.compile(rb"\nend [0-9]{1,6}\n\Z")
MOST_LAST = 16  # bytes
MOST_SETTINGS = 1000  # bytes
# Why a file of a match isn't opened, by what the system says then.
NOT_OPENED = {errno.ELOOP: "is a link", errno.EISDIR: "isn't a plain file", errno.ENXIO: "isn't a plain file"}


class SaveFault(Exception):
    """Why a folder can't be used or written, as a sentence."""


@dataclass(frozen=True)
class Settings:
    """What a resumed match must know beside its two files, and what these are called."""

    workers: int
    hz: int
    name: str = "match"

    def __post_init__(self) -> None:
        """Raises ValueError where they aren't as this front writes them: a folder may come from anywhere."""
        numbers = ((self.workers, 16), (self.hz, 100))
        if not all(type(number) is int and 1 <= number <= most for number, most in numbers):
            raise ValueError("a number isn't one of a match")
        if not (isinstance(self.name, str) and NAME.fullmatch(self.name)):
            raise ValueError("the name isn't one of a match")


def read_map(path: str) -> Tuple[arena.Map, List[bytes]]:
    """The map of a file and its lines: those of a recording before its first frame, or all of them."""
    lines, map_ = [], arena.Map()
    with arena.opened(path) as file:
        for number, line in enumerate(arena.parts(file, arena.RECORDING_LINE + 2), 1):
            line = line.removesuffix(b"\n").removesuffix(b"\r")
            if line in (b"frame", b"end"):
                break
            try:
                map_.take(line)
            except ValueError as why:
                raise arena.FormatError(f"{path}, line {number}: {why}") from None
            lines.append(line)
    if not map_.spawns:
        raise arena.FormatError(f"{path} has no spawn, so nobody could join")
    return map_, lines


def frame_text(arrivals: Sequence[Tuple[int, bytes]], closing: bytes) -> bytes:
    """The lines of a frame's packets, and the line that closes the frame: `frame`, which opens the next, or `end`."""
    lines = [b"from %d %s\n" % (port, data.hex().encode() or b"-") for port, data in arrivals]
    return b"".join(lines) + closing + b"\n"


def open_plain(path: str, mode: str, buffering: int = -1) -> BinaryIO:
    """Opens a file of a match, where it is one: its folder may hold what anybody put there.

    A link leads elsewhere, as does another name of a file that is written; and a pipe would keep the front waiting.
    """
    return open(path, mode, buffering, opener=_open_checked)


def _open_checked(path: str, flags: int) -> int:
    try:
        number = os.open(path, flags | os.O_NOFOLLOW | os.O_NONBLOCK, 0o666)
    except OSError as why:
        if why.errno not in NOT_OPENED:
            raise
        raise SaveFault(f"{path} {NOT_OPENED[why.errno]}") from None
    about, is_written = os.fstat(number), flags & os.O_ACCMODE != os.O_RDONLY
    if stat.S_ISREG(about.st_mode) and not (is_written and about.st_nlink > 1):
        return number
    os.close(number)
    why = "has another name, so it isn't written" if stat.S_ISREG(about.st_mode) else "isn't a plain file"
    raise SaveFault(f"{path} {why}")


class Saved:
    """An open folder of a match, held by this process alone."""

    def __init__(self, folder: str, settings: Settings):
        self.folder, self.settings = folder, settings
        self._lock = _locked(folder)
        self._recording = self._output = None

    def paths(self, name: str) -> Tuple[str, str]:
        """A recording of this name, and its output."""
        path = os.path.join(self.folder, name)
        return path + ".demo", path + ".out"

    @property
    def recording_path(self) -> str:
        return self.paths(self.settings.name)[0]

    @property
    def output_path(self) -> str:
        return self.paths(self.settings.name)[1]

    @classmethod
    def create(cls, folder: str, map_lines: Sequence[bytes], settings: Settings) -> "Saved":
        """A new match: the recording has the map and its first frame is open."""
        try:
            os.makedirs(folder, exist_ok=True)
            saved = cls(folder, settings)
            if os.path.lexists(os.path.join(folder, "match.json")):
                raise SaveFault(f"{folder} has a match already; `--resume {folder}` goes on with it")
            for name in ("match.demo", "match.out", "match.json.new"):
                if os.path.lexists(os.path.join(folder, name)):
                    raise SaveFault(f"{folder} has a file {name} already")
            saved.open("xb")
            saved.write_settings()
        except OSError as why:
            raise SaveFault(f"{folder} can't be used: {why.strerror}") from None
        saved.add_packets(saved.opening(map_lines))
        return saved

    @classmethod
    def reopen(cls, folder: str) -> "Saved":
        """The folder of a match that was saved before; `open` comes once its files are as they should be."""
        try:
            with open_plain(os.path.join(folder, "match.json"), "rb") as file:
                saved = cls(folder, Settings(**json.loads(file.read(MOST_SETTINGS))))
            for path in filter(os.path.lexists, (saved.recording_path, saved.output_path)):
                open_plain(path, "rb").close()  # so that nothing is changed where one of them is refused
            return saved
        except OSError as why:
            raise SaveFault(f"{folder} has no match: {why.strerror}") from None
        except (ValueError, TypeError, RecursionError):
            raise SaveFault(f"{folder} has no match: match.json isn't one of `tools/live`") from None

    def is_over(self) -> bool:
        """Whether the recording has its line `end`."""
        return _ends_with(self.recording_path, LAST_OF_RECORDING)

    def is_answered(self) -> bool:
        """Whether the output has its line `end K`, so that nothing is missing that the program answered."""
        return _ends_with(self.output_path, LAST_OF_OUTPUT)

    @staticmethod
    def opening(map_lines: Sequence[bytes]) -> bytes:
        return b"".join(line + b"\n" for line in [*map_lines, b"frame"])

    def write_settings(self) -> None:
        path = os.path.join(self.folder, "match.json")
        with open_plain(path + ".new", "ab") as file:
            file.truncate(0)  # of a crash before
            file.write(json.dumps(asdict(self.settings)).encode("ascii"))
        os.replace(path + ".new", path)

    def open(self, mode: str) -> None:
        # Unbuffered: what `write` has taken is the system's.
        self._recording = open_plain(self.recording_path, mode, buffering=0)
        self._output = open_plain(self.output_path, mode, buffering=0)

    def add_packets(self, text: bytes) -> None:
        self._write(self._recording, text)

    def add_answer(self, text: bytes) -> None:
        self._write(self._output, text)

    def _write(self, file: BinaryIO, text: bytes) -> None:
        rest = memoryview(text)
        try:
            while rest:
                rest = rest[file.write(rest) :]
        except OSError as why:
            raise SaveFault(f"{file.name} can't be written: {why.strerror}") from None

    def close(self) -> None:
        for file in (self._recording, self._output, self._lock):
            if file is not None:
                file.close()


def _ends_with(path: str, last: "re.Pattern[bytes]") -> bool:
    with open_plain(path, "rb") as file:
        file.seek(max(0, file.seek(0, os.SEEK_END) - MOST_LAST))
        return last.search(file.read()) is not None


def _locked(folder: str) -> BinaryIO:
    file = open_plain(os.path.join(folder, "lock"), "ab")
    try:
        fcntl.flock(file, fcntl.LOCK_EX | fcntl.LOCK_NB)
    except OSError:
        file.close()
        raise SaveFault(f"the match in {folder} is being played by another process") from None
    return file
