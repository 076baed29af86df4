"""What a log says, by docs/FORMATS.md and with nothing of the monitor in it: its time-points, and its first fault.

A signature is a dictionary from a predicate's name to its sorts, a text of `i` (int) and `t` (string).
"""

import re

BLANK = re.compile(rb"[ \t\r\n]+|#[^\n]*")
WORD = re.compile(rb"[A-Za-z0-9_\[\]/:\-.!]+")
MARKS = b"@(),;"
MOST_BYTES = 4096
MOST_TIME = 2**62
MOST_EVENTS = 65_536


class Fault(Exception):
    """A fault, as it is printed behind `log: `."""


class More(Exception):
    """The bytes end, and whether they go on isn't told."""


def text_token(log, at, is_end):
    """The content of the text whose quote stands at a place, and where the text ends."""
    for place in range(at + 1, len(log)):
        if log[place] == ord('"'):
            try:
                return log[at + 1:place].decode("utf-8"), place + 1
            except UnicodeDecodeError:
                raise Fault(f"Lex BadUtf8 at {at}") from None
        if log[place] < 32:
            raise Fault(f"Lex BadByte at {place}")
        if place - at > MOST_BYTES:
            raise Fault(f"Lex TextLong at {at}")
    raise Fault(f"Lex OpenText at {at}") if is_end else More


def tokens(log, is_end):
    """The tokens in order, each with its kind and its place; behind them, where the end is told, the end."""
    at = 0
    while at < len(log):
        blank, word = BLANK.match(log, at), WORD.match(log, at)
        if blank:
            at = blank.end()
        elif word:
            if word.end() - at > MOST_BYTES:
                raise Fault(f"Lex TextLong at {at}")
            if word.end() == len(log) and not is_end:
                raise More
            yield "word", word[0].decode(), at
            at = word.end()
        elif log[at] == ord('"'):
            content, end = text_token(log, at, is_end)
            yield "text", content, at
            at = end
        elif log[at] in MARKS:
            yield chr(log[at]), None, at
            at += 1
        else:
            raise Fault(f"Lex BadByte at {at}")
    if not is_end:
        raise More
    yield "end", None, len(log)


class Reader:
    """Takes tokens one by one. A time-point is put to the others when it is complete."""

    def __init__(self, sig):
        self.sig, self.points = sig, []
        self.time, self.events, self.count = None, None, 0
        self.name, self.values = None, None
        self.next = self.at_begin

    def syntax(self, at):
        raise Fault(f"Syntax at {at}")

    def complete(self):
        self.points.append((self.time, self.events))
        self.events = None

    def at_begin(self, kind, _, at):
        """At the log's beginning, and behind a `;`."""
        if kind not in ("@", "end"):
            self.syntax(at)
        self.next = self.at_time

    def at_time(self, kind, word, at):
        if kind != "word" or not re.fullmatch("[0-9]+", word):
            self.syntax(at)
        time = int(word)
        if time > MOST_TIME:
            raise Fault(f"TimestampRange at {at}")
        if self.time is not None and time < self.time:
            raise Fault(f"FallingTime {self.time} {time} at {at}")
        self.time, self.events, self.count = time, set(), 0
        self.next = self.at_event

    def at_event(self, kind, word, at):
        """Where an event's name may stand, or the time-point may end."""
        if kind == "word":
            if word not in self.sig:
                raise Fault(f"UnknownPredicate at {at}")
            self.name, self.next = word, self.at_group
        elif kind in ("@", ";", "end"):
            self.complete()
            self.next = self.at_time if kind == "@" else self.at_begin
        else:
            self.syntax(at)

    def at_group(self, kind, _, at):
        """Behind a predicate's name."""
        if kind != "(":
            self.syntax(at)
        self.count += 1
        if self.count > MOST_EVENTS:
            raise Fault(f"TooManyEvents at {at}")
        self.values, self.next = [], self.at_value_or_close

    def at_value_or_close(self, kind, word, at):
        if kind == ")":
            self.close(at)
        else:
            self.at_value(kind, word, at)

    def at_value(self, kind, word, at):
        if kind not in ("word", "text"):
            self.syntax(at)
        sorts = self.sig[self.name]
        if len(self.values) == len(sorts):
            raise Fault(f"WrongArity at {at}")
        if sorts[len(self.values)] == "i":
            if kind == "text" or not re.fullmatch("-?[0-9]+", word):
                raise Fault(f"WrongSort at {at}")
            word = int(word)
            if not -2**63 <= word < 2**63:
                raise Fault(f"IntRange at {at}")
        self.values.append(word)
        self.next = self.behind_value

    def behind_value(self, kind, _, at):
        if kind == ",":
            self.next = self.at_value
        elif kind == ")":
            self.close(at)
        else:
            self.syntax(at)

    def close(self, at):
        if len(self.values) < len(self.sig[self.name]):
            raise Fault(f"WrongArity at {at}")
        self.events.add((self.name, tuple(self.values)))
        self.next = self.behind_group

    def behind_group(self, kind, word, at):
        if kind == "(":
            self.at_group(kind, word, at)
        else:
            self.at_event(kind, word, at)


def read(log, sig, is_end=True):
    """The time-points that are complete before the first fault, and the fault, or None.

    Where the end isn't told, only what no more bytes can change counts.
    """
    reader = Reader(sig)
    try:
        for token in tokens(log, is_end):
            reader.next(*token)
    except Fault as fault:
        return reader.points, str(fault)
    except More:
        pass
    return reader.points, None
