#!/usr/bin/env python3
"""The demo of a seed, computed from the definitions: its texts, its verdict lines, and the one line of `demo SEED`.

    tools/demo.py SEED                  the line that `./monitor demo SEED` is to print
    tools/demo.py SEED --lines          the verdict lines of its log
    tools/demo.py SEED --write FOLDER   its texts as FOLDER/sig, policy, log and changes
    tools/demo.py SEED.. --check PROGRAM   whether PROGRAM prints these lines, by `demo`, and by `run` on the texts with
                                        and without the changes; ends with 1 where it doesn't

It shares nothing with the monitor. It is slow: at each time-point it tries each row of values that there are, and a
formula holds or doesn't by the lines of docs/LOGIC.md, word for word. A seed takes half a minute.
"""

import argparse
import functools
import itertools
import pathlib
import subprocess
import sys
import tempfile

SIGNATURE = "req(id:int,who:string) grant(id:int) drop(id:int)\n"
POLICY = "(req(i,w) AND NOT ONCE[0,50] drop(i)) IMPLIES EVENTUALLY[0,20] grant(i)\n"
CHANGES = """\
before 250 i=hash:4
before 500 i=hash:2 w=hash:3
before 750 w=hash:5
before 1000 i=cut:25,50,75
before 1250 i=hash:1
before 1500 i=hash:8
"""
PEOPLE = "ann bob cat dan eve".split()
POINTS = 2000

# The policy as a tree. Its columns are `i` and `w`.
FORMULA = ("implies", ("and", ("atom", "req", ("i", "w")), ("not", ("once", 0, 50, ("atom", "drop", ("i",))))),
           ("eventually", 0, 20, ("atom", "grant", ("i",))))
COLUMNS = ("i", "w")


def draws(seed):
    """A function that gives the next number below a limit."""
    state = seed

    def draw(limit):
        nonlocal state
        state = (state * 6364136223846793005 + 1442695040888963407) % 2**64
        return (state >> 33) % limit

    return draw


def event(draw):
    """An event: a predicate and its values."""
    kind, number = draw(8), draw(100)
    if kind < 4:
        return "req", (number, PEOPLE[draw(5)])
    return "grant" if kind < 7 else "drop", (number,)


def points(seed):
    """The time-points of a seed: each with its timestamp and its events as they are drawn."""
    draw, time = draws(seed), 0
    for _ in range(POINTS):
        time += draw(4)
        yield time, [event(draw) for _ in range(draw(6))]


def log_text(log):
    return "".join(f"@{time}" + "".join(f" {name}({','.join(map(str, values))})" for name, values in events) + ";\n"
                   for time, events in log)


class Meaning:
    """What a formula means over a log: where it holds, and where it is settled."""

    def __init__(self, log):
        self.times = [time for time, _ in log]
        self.events = [frozenset(events) for _, events in log]
        self.once = functools.cache(self.once)
        self.eventually = functools.cache(self.eventually)

    def holds(self, formula, row, at):
        kind, *parts = formula
        if kind == "atom":
            name, variables = parts
            return (name, tuple(row[COLUMNS.index(each)] for each in variables)) in self.events[at]
        if kind == "not":
            return not self.holds(parts[0], row, at)
        if kind == "and":
            return self.holds(parts[0], row, at) and self.holds(parts[1], row, at)
        if kind == "implies":
            return not self.holds(parts[0], row, at) or self.holds(parts[1], row, at)
        return getattr(self, kind)(*parts, row, at)

    def once(self, low, high, operand, row, at):
        return any(low <= self.times[at] - self.times[then] <= high and self.holds(operand, row, then)
                   for then in range(at + 1))

    def eventually(self, low, high, operand, row, at):
        return any(low <= self.times[then] - self.times[at] <= high and self.holds(operand, row, then)
                   for then in range(at, len(self.times)))

    def is_settled(self, formula, at):
        """Whether no longer log tells another answer, judged by timestamps alone."""
        kind, *parts = formula
        if kind == "atom":
            return at < len(self.times)
        if kind == "once":
            return all(self.is_settled(parts[2], then) for then in range(at + 1))
        if kind == "eventually":
            last = self.times[at] + parts[1]
            return self.times[-1] > last and all(
                self.is_settled(parts[2], then) for then in range(at, len(self.times)) if self.times[then] <= last)
        return all(self.is_settled(each, at) for each in parts)

    def values(self):
        """The values of the log, which are all that a row may have: the integers in order, and then the texts."""
        found = {value for events in self.events for _, values in events for value in values}
        return sorted(found, key=lambda value: (isinstance(value, str), value))


def verdicts(log):
    """The settled time-points in order: timestamp, number and the rows at which the policy doesn't hold."""
    meaning = Meaning(log)
    rows = list(itertools.product(meaning.values(), repeat=len(COLUMNS)))
    for at, (time, _) in enumerate(log):
        if not meaning.is_settled(FORMULA, at):
            return
        yield time, at, [row for row in rows if not meaning.holds(FORMULA, row, at)]


def spelled(value):
    return f'"{value}"' if isinstance(value, str) else str(value)


def line_of(time, number, rows):
    return f"@{time} (time point {number}):" + "".join(f" ({','.join(map(spelled, row))})" for row in rows) + "\n"


def demo_line(seed, found):
    violated = [rows for _, _, rows in found if rows]
    return f"demo {seed}: settled {len(found)} violated {len(violated)} rows {sum(map(len, violated))}\n"


def write(log, folder):
    folder = pathlib.Path(folder)
    folder.mkdir(parents=True, exist_ok=True)
    for name, text in (("sig", SIGNATURE), ("policy", POLICY), ("log", log_text(log)), ("changes", CHANGES)):
        (folder / name).write_text(text, encoding="ascii")


def differing(seed, program):
    """What a program prints that isn't due."""
    log = list(points(seed))
    found = list(verdicts(log))
    due = "".join(line_of(*each) for each in found)
    with tempfile.TemporaryDirectory() as folder:
        write(log, folder)
        files = [f"--{name}={folder}/{name}" for name in ("sig", "policy", "log")]
        changes = f"--changes={folder}/changes"
        calls = [(["demo", str(seed)], demo_line(seed, found)), (["run", *files], due)]
        calls += [(["run", *files, changes, f"--threads={threads}"], due) for threads in (0, 2, 4)]
        for words, wanted in calls:
            done = subprocess.run([program, *words], capture_output=True, text=True, check=False)
            if done.stdout + done.stderr != wanted:
                yield f"demo {seed}: {' '.join(words[:1] + words[4:])} differs"


def arguments():
    parser = argparse.ArgumentParser(description=__doc__, formatter_class=argparse.RawDescriptionHelpFormatter)
    parser.add_argument("seeds", type=int, nargs="+", metavar="SEED")
    parser.add_argument("--lines", action="store_true")
    parser.add_argument("--write", metavar="FOLDER")
    parser.add_argument("--check", metavar="PROGRAM")
    return parser.parse_args()


def main():
    options = arguments()
    status = 0
    for seed in options.seeds:
        log = list(points(seed))
        if options.write:
            write(log, options.write)
        elif options.check:
            wrong = list(differing(seed, options.check))
            status = 1 if wrong else status
            print("\n".join(wrong) or f"demo {seed}: as it is due", flush=True)
        elif options.lines:
            print("".join(line_of(*each) for each in verdicts(log)), end="", flush=True)
        else:
            print(demo_line(seed, list(verdicts(log))), end="", flush=True)
    return status


if __name__ == "__main__":
    sys.exit(main())
