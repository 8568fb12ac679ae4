"""Exceptions that nobody awaits: a fault of the front is told, and what clients bring about is only counted."""
import logging
import os
import traceback
from typing import Callable, Optional, Set

import program
from arena_live.metrics import Metrics

TOOLS = os.path.dirname(os.path.dirname(os.path.abspath(__file__)))
LOGGERS = ("aiohttp.access", "aiohttp.internal", "aiohttp.server", "aiohttp.web", "aiohttp.websocket", "asyncio")


def fault_of(why: BaseException) -> Optional[str]:
    """A fault of the front as a sentence, or None for what it must expect, as a client that is gone or a full disk."""
    lines = [(frame.f_code.co_filename, line) for frame, line in traceback.walk_tb(why.__traceback__)]
    ours = [(os.path.basename(path), line) for path, line in lines if path.startswith(TOOLS + os.sep)]
    if not ours or program.sentence_of(why) is not None:
        return None
    # Nothing of its text, in which there may be words of a client.
    return "a fault of the front: {} in {}, line {}".format(type(why).__name__, *ours[-1])


def sentence_of(why: Exception) -> str:
    """Any exception as a sentence."""
    return fault_of(why) or (program.sentence_of(why) or (type(why).__name__,))[0]


class Faults(logging.Handler):
    """Takes what asyncio and aiohttp would log.

    Clients bring it about, as often as they like, and it has words of theirs in it. So the operator isn't shown it, nor
    does the clock wait where nobody reads standard error. But a fault of the front is told, once of each kind.
    """

    def __init__(self, metrics: Metrics, tell: Callable[[str], None]):
        super().__init__(logging.WARNING)
        self._metrics, self._tell = metrics, tell
        self._told: Set[str] = set()
        for name in LOGGERS:
            logger = logging.getLogger(name)
            logger.handlers, logger.propagate = [self], False

    def emit(self, record: logging.LogRecord) -> None:
        fault = fault_of(record.exc_info[1]) if record.exc_info and record.exc_info[1] else None
        if fault is None:
            self._metrics.counts["arena_unshown_total"] += 1
            return
        self._metrics.counts["arena_faults_total"] += 1
        if fault not in self._told:
            self._told.add(fault)
            self._tell(fault)
