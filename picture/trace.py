"""Reads the output of `nsq steps --trace`: how the attempts ended, and the entries of all histories."""

from dataclasses import dataclass
from enum import Enum

REQUESTS = {
    1: "read",
    2: "update",
    3: "delete",
    4: "continue",
    5: "read key",
    6: "insert",
    7: "lock",
    8: "prepare",
    9: "commit",
    10: "undo",
}

REPLIES = {
    1: "ended",
    2: "redrive",
    3: "locked",
    4: "failed",
    5: "row",
    6: "no row",
    7: "done",
    8: "floor",
    9: "duplicate key",
    10: "after end",
    11: "after prepare",
    12: "still live",
    13: "not known",
    14: "not prepared",
    15: "stamp low",
    16: "no subset",
    17: "wrong key",
    18: "bad code",
    19: "bad shape",
    20: "too many subsets",
}

CAUSES = {0: "", 1: "visits", 2: "lock", 3: "fault", 4: "buffer"}

MODES = {0: "", 1: "S", 2: "X"}


class Reason(Enum):
    """Why an input is refused."""

    NO_TRACE = "NoTrace"
    BAD_LINE = "BadLine"


class TraceError(Exception):
    """The input is no output of `nsq steps --trace`."""

    def __init__(self, reason, message):
        super().__init__(f"{reason.value}: {message}")
        self.reason = reason


@dataclass(frozen=True)
class Entry:
    """One request that a partition served, with its reply. The fields are those of a line of LINES, in order."""

    part: int
    place: int
    session: int
    sync: int
    ordinal: int
    request: int
    reply: int
    cause: int
    rows: int
    changed: int
    mode: int

    @property
    def is_quantum(self):
        """Whether it is a quantum of a subset, or the read of one key."""
        return 1 <= self.request <= 5

    @property
    def is_locked(self):
        return REPLIES[self.reply] == "locked"

    @property
    def is_redrive(self):
        return REPLIES[self.reply] == "redrive"

    @property
    def goes_on(self):
        """Whether it goes on with a subset."""
        return REQUESTS[self.request] == "continue"

    @property
    def is_commit(self):
        return REQUESTS[self.request] == "commit"

    @property
    def is_undo(self):
        return REQUESTS[self.request] == "undo"


@dataclass(frozen=True)
class Attempt:
    """How one attempt of a transaction ended, as the text tells it."""

    session: int
    ordinal: int
    outcome: str


@dataclass(frozen=True)
class Trace:
    attempts: list
    entries: list


def entry_of(line, number):
    """The entry of a line of eleven numbers; `number` is the line's, from 1."""
    words = line.split(" ")
    if len(words) != 11 or not all(word.isascii() and word.isdigit() for word in words):
        raise TraceError(Reason.BAD_LINE, f"line {number} isn't one of eleven numbers: {line!r}")
    entry = Entry(*map(int, words))
    if entry.request not in REQUESTS or entry.reply not in REPLIES:
        raise TraceError(Reason.BAD_LINE, f"line {number} names a kind that there isn't: {line!r}")
    if entry.cause not in CAUSES or entry.mode not in MODES:
        raise TraceError(Reason.BAD_LINE, f"line {number} names a cause or mode that there isn't: {line!r}")
    return entry


def attempt_of(line):
    _, session, ordinal, outcome = line.split(" ", 3)
    return Attempt(int(session), int(ordinal), outcome)


def read_trace(text):
    """The trace that the text has. Raises `TraceError` where it has none."""
    lines = text.split("\n")
    if "LINES" not in lines:
        raise TraceError(Reason.NO_TRACE, "the input has no line LINES; `nsq steps --trace` prints one")
    start = lines.index("LINES")
    entries = []
    for number, line in enumerate(lines[start + 1 :], start + 2):
        if not line[:1].isdigit():
            break
        entries.append(entry_of(line, number))
    attempts = [attempt_of(line) for line in lines[:start] if line.startswith("TXN ")]
    return Trace(attempts, entries)
