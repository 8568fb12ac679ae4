"""Goes on with a saved match: its recording is played again, and what the program answers must be what was saved.

One worker plays a recording always in the same way. Several workers may run the moves of a frame in another order each
time; so the recording of their match is first rewritten in the order that the saved output shows, as one worker plays
it, and one worker goes on. The moves and snapshots stay those that clients saw; only the `no` lines go, with the
packets that were refused. The files of before stay beside the new ones.

A match that was killed while it ended has its line `end`: then only what the output lacks is added.
"""
import asyncio
import os
from contextlib import suppress
from dataclasses import dataclass
from typing import BinaryIO, Dict, Iterator, List, Optional, Tuple

import arena
from arena_live.pipe import CHUNK, Pipe
from arena_live.roll import Roll, leaves_of
from arena_live.saved import Saved, SaveFault, Settings, frame_text, open_plain
from expected import in_turns

FRAME, END = b"frame\n", b"end\n"
# Frames that are written in order in a row, so that a signal is heard between them.
IN_A_ROW = 64
Commands = Dict[Tuple[int, int], arena.Command]  # by port and number


@dataclass
class Start:
    """Where a match begins or goes on: its folder, the program, who has joined, and the number of the open frame.

    Where it is over, no frame is open, and the program has ended.
    """

    saved: Saved
    pipe: Pipe
    roll: Roll
    frame: int
    is_over: bool = False


async def resume(folder: str, program: str) -> Start:
    saved = Saved.reopen(folder)
    try:
        is_over = saved.is_over()
        if not is_over:
            _cut_open_frame(saved.recording_path)
        elif saved.is_answered():
            raise SaveFault("the match was over: its recording has its line `end`")
        if saved.settings.workers > 1:
            await _rewrite_in_order(saved)
        pipe = await Pipe.start(program, 1)
        try:
            saved.open("ab")
            roll, frame = await _replay(saved, pipe, is_over)
        except BaseException:
            await pipe.kill()
            raise
    except OSError as why:
        saved.close()
        raise SaveFault(f"{folder} can't be resumed: {why.strerror}") from None
    except (ValueError, LookupError):
        saved.close()
        raise SaveFault(f"{folder} can't be resumed: its files aren't as `tools/live` writes them") from None
    except BaseException:
        saved.close()
        raise
    return Start(saved, pipe, roll, frame, is_over)


def _cut_open_frame(path: str) -> None:
    """Cuts what follows the last line `frame`: packets of a frame that was never run, the last one perhaps in part."""
    with open_plain(path, "r+b") as file:
        size = file.seek(0, os.SEEK_END)
        file.seek(max(0, size - CHUNK))
        tail = file.read()
        place = tail.rfind(b"\n" + FRAME)
        if place < 0:
            raise SaveFault(f"{path} has no line `frame`, so there is nothing to resume")
        file.truncate(size - len(tail) + place + 1 + len(FRAME))


def _frames(recording: BinaryIO) -> Iterator[Tuple[List[bytes], bytes]]:
    """The packet lines of each closed frame of a recording, and the line that closes it."""
    for line in recording:
        if line == FRAME:
            break
    lines = []
    for line in recording:
        if line in (FRAME, END):
            yield lines, line
            lines = []
        else:
            lines.append(line)


class _Output:
    """The output of a match that is played again: it must begin with what was saved, and gets what wasn't."""

    def __init__(self, saved: Saved, file: BinaryIO):
        self._saved, self._file = saved, file
        self.rest = os.fstat(file.fileno()).st_size  # of what was saved

    def take(self, text: bytes, name: str) -> None:
        """The program has answered this, which is the text of what is named so."""
        before = self._file.read(min(self.rest, len(text)))
        self.rest -= len(before)
        if not text.startswith(before):
            raise SaveFault(f"the saved output isn't what the program answers: {name} differs")
        self._saved.add_answer(text[len(before) :])


async def _replay(saved: Saved, pipe: Pipe, is_over: bool) -> Tuple[Roll, int]:
    """Plays the recording, up to its line `end` where it is over, beside the output."""
    roll, frame = Roll(), 0
    feeding = asyncio.create_task(_feed(saved.recording_path, pipe))
    try:
        with open_plain(saved.recording_path, "rb") as recording, open_plain(saved.output_path, "rb") as file:
            output = _Output(saved, file)
            for lines, _ in _frames(recording):
                leaves = {place: int(line.split()[1]) for place, line in enumerate(lines) if line.endswith(b" 0103\n")}
                roll.begin(len(lines), leaves)
                text = b"".join(line + b"\n" for line in await pipe.read_frame(roll))
                roll.finish()
                output.take(text, f"frame {frame}")
                frame += 1
            await feeding
            if is_over:
                output.take(await pipe.finish(), "its end")
            if output.rest:
                raise SaveFault("the saved output goes on after the last frame of the recording")
    finally:
        feeding.cancel()
        with suppress(asyncio.CancelledError, Exception):
            await feeding
    return roll, frame


async def _feed(path: str, pipe: Pipe) -> None:
    with open_plain(path, "rb") as file:
        while chunk := file.read(CHUNK):
            await pipe.send(chunk)


async def _rewrite_in_order(saved: Saved) -> None:
    """Writes two files of the same match as one worker plays it, which are the match's from then on."""
    numbers = (f"match-{number}" for number in range(2, 1 << 20))
    name = next(name for name in numbers if not any(map(os.path.lexists, saved.paths(name))))
    new_recording_path, new_output_path = saved.paths(name)
    with open_plain(saved.recording_path, "rb") as recording, open_plain(saved.output_path, "rb") as output:
        with open_plain(new_recording_path, "xb") as new_recording, open_plain(new_output_path, "xb") as new_output:
            await _write_in_order(recording, output, new_recording, new_output)
    saved.settings = Settings(1, saved.settings.hz, name)
    saved.write_settings()


async def _write_in_order(recording: BinaryIO, output: BinaryIO, new_recording: BinaryIO, new_output: BinaryIO) -> None:
    for line in recording:
        new_recording.write(line)
        if line == FRAME:
            break
    recording.seek(0)
    roll, is_whole = Roll(), True
    for number, (lines, closing) in enumerate(_frames(recording)):
        if number % IN_A_ROW == 0:
            await asyncio.sleep(0)
        arrivals = [_arrival(line) for line in lines]
        text = _whole_frame(output, roll, arrivals) if is_whole else None
        is_whole = text is not None
        if is_whole:
            arrivals = _in_order(text, arrivals, roll)
            new_output.writelines(line + b"\n" for line in text if not line.startswith(b"no "))
            roll.finish()
        new_recording.write(frame_text(arrivals, closing.rstrip()))


def _arrival(line: bytes) -> Tuple[int, bytes]:
    _, port, data = line.decode("ascii").split()
    return int(port), b"" if data == "-" else bytes.fromhex(data)


def _whole_frame(output: BinaryIO, roll: Roll, arrivals: List[Tuple[int, bytes]]) -> Optional[List[bytes]]:
    """The lines of the next frame's text, or None where it wasn't saved whole, so that nobody saw it."""
    roll.begin(len(arrivals), leaves_of(arrivals))
    text = []
    for line in output:
        if not line.endswith(b"\n"):
            return None
        text.append(line[:-1])
        if roll.take(line[:-1]):
            return text
    return None


def _in_order(text: List[bytes], arrivals: List[Tuple[int, bytes]], roll: Roll) -> List[Tuple[int, bytes]]:
    """The frame's packets that count: its joins, each move by itself in the order of the text, and its leaves."""
    frame = arena.PlayedFrame(0, 0)
    for line in text[1:]:
        frame.take(line, 0)
    ports = {slot: port for port, slot in roll.slots.items()}
    commands = _accepted_commands(arrivals, frame.refusals)
    joins = [(port, arena.join()) for port in frame.joins]
    # Together where they follow each other, since a frame has no more than 512 packets.
    moves = in_turns([(ports[move.slot], commands[ports[move.slot], move.number]) for move in frame.moves])
    return joins + moves + [(port, arena.leave()) for port in roll.leaving()]


def _accepted_commands(arrivals: List[Tuple[int, bytes]], refusals: Dict[int, str]) -> Commands:
    """The commands of the packets that weren't refused: each where it came first."""
    commands: Commands = {}
    for place, (port, data) in enumerate(arrivals):
        if place not in refusals:
            for command in arena.read_packet(data).commands:
                commands.setdefault((port, command.number), command)
    return commands
