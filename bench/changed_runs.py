"""Runs drawn by chance: a policy that can be monitored, a log, a strategy and a script of changes, and the lines due.

    bench/changed_runs.py SEED                          prints the run of a seed
    bench/changed_runs.py --cases FIRST COUNT FOLDER    writes the runs of so many seeds as cases for the program
                                                        run_cases, to FOLDER/stdin, and their answers to FOLDER/stdout

The lines are those of bench/meaning.py.
"""

import pathlib
import random
import sys
from dataclasses import dataclass

import meaning
from case_files import answer_text, case_text

SIGNATURE = {"p": "i", "q": "i", "r": "ii", "s": "ti", "e": ""}
SORTS = {"x": "i", "y": "i", "z": "i", "v": "t", "w": "t"}
NAMES = {"i": "int", "t": "string"}
NUMBERS = range(-2, 3)
TEXTS = ("a", "b", "ab", "ä b")
MOST_WORKERS = 64
LINE = "\n"
KINDS = ("atom", "and", "without", "compare", "or", "exists", "previous", "next",
         *("once", "eventually", "since", "until") * 2)


@dataclass(frozen=True)
class Run:
    """The texts of a run, its policy as a tree, and what is due."""

    formula: tuple
    sig: str
    policy: str
    log: str
    strategy: str
    changes: str
    due: str

    def status(self):
        return 1 if ")\n" in self.due else 0


class Drawing:
    """Draws formulas that can be monitored: each is given the variables that are to be free in it."""

    def __init__(self, draw):
        self.draw, self.bound = draw, 0

    def term(self, sort, names):
        """A variable of the sort among the names, or a value."""
        fitting = [name for name in names if SORTS[name[0]] == sort]
        if fitting and self.draw.random() < 0.8:
            return "variable", self.draw.choice(fitting)
        return "value", self.draw.choice(NUMBERS if sort == "i" else TEXTS)

    def interval(self, bounded):
        low = self.draw.choice((0, 0, 0, 1, 2, 5))
        if not bounded and self.draw.random() < 0.3:
            return low, None
        return low, low + self.draw.choice((0, 1, 2, 5, 9))

    def atom(self, names):
        """An atom with all of these variables free; the other places have values, or variables that are bound."""
        fitting = [name for name, sorts in SIGNATURE.items()
                   if all(sum(SORTS[each[0]] == sort for each in names) <= sorts.count(sort) for sort in "it")]
        if not fitting:
            first, *others = names
            return "and", self.atom([first]), self.atom(others)
        name = self.draw.choice(fitting)
        sorts, left, terms, bound = SIGNATURE[name], list(names), [], []
        for at, sort in enumerate(sorts):
            mine = next((each for each in left if SORTS[each[0]] == sort), None)
            later = sorts[at + 1:].count(sort)
            if mine and (sum(SORTS[each[0]] == sort for each in left) > later or self.draw.random() < 0.5):
                left.remove(mine)
                terms.append(("variable", mine))
            elif self.draw.random() < 0.4:
                self.bound += 1
                bound.append(f"{'z' if sort == 'i' else 'v'}{self.bound}")
                terms.append(("variable", bound[-1]))
            else:
                terms.append(self.term(sort, names))
        formula = "atom", name, tuple(terms)
        for each in reversed(bound):
            formula = "exists", each, formula
        return formula

    def some(self, names):
        return [name for name in names if self.draw.random() < 0.5]

    def split(self, names):
        """Two lists that together have all of the names."""
        left = self.some(names)
        return left, [name for name in names if name not in left or self.draw.random() < 0.4]

    def positive(self, names, depth):
        """A formula with exactly these free variables, whose satisfying rows can be listed."""
        if depth == 0:
            return self.atom(names)
        kind = self.draw.choice(KINDS)
        if kind == "atom":
            return self.atom(names)
        if kind == "and":
            left, right = self.split(names)
            return "and", self.positive(left, depth - 1), self.positive(right, depth - 1)
        if kind == "without":
            return "and", self.positive(names, depth - 1), ("not", self.positive(self.some(names), depth - 1))
        if kind == "compare":
            return "and", self.positive(names, depth - 1), self.comparison(names)
        if kind == "or":
            return "or", self.positive(names, depth - 1), self.positive(names, depth - 1)
        if kind == "exists":
            self.bound += 1
            name = f"{self.draw.choice('zv')}{self.bound}"
            return "exists", name, self.positive([*names, name], depth - 1)
        if kind in meaning.UNARY:
            return kind, self.interval(kind in meaning.FUTURE), self.positive(names, depth - 1)
        left = self.positive(self.some(names), depth - 1)
        left = self.draw.choice((left, negated(left), ("true",)))
        return kind, self.interval(kind in meaning.FUTURE), left, self.positive(names, depth - 1)

    def comparison(self, names):
        sort = self.draw.choice([SORTS[name[0]] for name in names] or ["i"])
        compared = "compare", self.draw.choice(tuple(meaning.SIGNS)), self.term(sort, names), self.term(sort, names)
        return self.draw.choice((compared, ("not", compared)))

    def policy(self):
        names = self.draw.sample(("x", "y", "w"), self.draw.choice((0, 1, 1, 1, 2, 2, 3)))
        depth = self.draw.choice((0, 1, 1, 2, 2, 3))
        kind = self.draw.choice(("not", "implies", "implies", "forall"))
        if kind == "not":
            return "not", self.positive(names, depth)
        if kind == "implies":
            return "implies", self.positive(names, depth), self.positive(self.some(names), depth)
        inner = "implies", self.positive([*names, "z0"], depth), self.positive(self.some([*names, "z0"]), depth)
        return "implies", self.positive(names, depth), ("forall", "z0", inner)


def negated(formula):
    """The formula's negation as it may stand to the left of SINCE or UNTIL. That of an OR with free variables may not:
    its normal form is an AND of two NOTs, in which nothing gives them their values. So the OR stays as it is."""
    return formula if formula[0] == "or" and meaning.free_variables(formula) else ("not", formula)


def term_text(term):
    return term[1] if term[0] == "variable" else meaning.spelled(term[1])


def interval_text(interval):
    return f"[{interval[0]},{'*)' if interval[1] is None else str(interval[1]) + ']'}"


def formula_text(formula):
    """A formula as it is written in a policy, with all parentheses."""
    kind, those = formula[0], [formula_text(each) for each in meaning.operands(formula)]
    if kind == "atom":
        return f"{formula[1]}({', '.join(map(term_text, formula[2]))})"
    if kind == "compare":
        return f"({term_text(formula[2])} {formula[1]} {term_text(formula[3])})"
    if kind in ("true", "false"):
        return kind.upper()
    if kind == "not":
        return f"NOT {those[0]}"
    if kind in ("exists", "forall"):
        return f"({kind.upper()} {formula[1]}. {those[0]})"
    if kind in meaning.UNARY:
        return f"({kind.upper()}{interval_text(formula[1])} {those[0]})"
    interval = interval_text(formula[1]) if kind in meaning.BINARY else ""
    return f"({those[0]} {kind.upper()}{interval} {those[1]})"


def draw_log(draw):
    """Time-points with their events."""
    time, log = draw.choice((0, 0, 7, 10**9)), []
    for _ in range(draw.choice((0, 1, 2, 3, 4, 5, 6, 8, 10))):
        time += draw.choice((0, 0, 1, 1, 2, 3, 8))
        events = set()
        for _ in range(draw.choice((0, 1, 2, 3, 4, 6))):
            name = draw.choice(tuple(SIGNATURE))
            events.add((name, tuple(draw.choice(NUMBERS if sort == "i" else TEXTS) for sort in SIGNATURE[name])))
        log.append((time, events))
    return log


def log_text(draw, log):
    lines = []
    for time, events in log:
        written = [f"{name}({','.join(map(meaning.spelled, values))})"
                   for name, values in sorted(events, key=repr) for _ in range(draw.choice((1, 1, 2)))]
        draw.shuffle(written)
        end = draw.choice(("", ";")) + draw.choice((" ", LINE, " # a note" + LINE))
        lines.append(f"@{time} {' '.join(written)}{end}")
    return "".join(lines)


def draw_strategy(draw, sorts):
    """A strategy over variables, each with its sort, and at most 64 workers."""
    entries, workers = [], 1
    for name, sort in draw.sample(sorted(sorts.items()), len(sorts)):
        if draw.random() < 0.3:
            continue
        cuts = sorted(draw.sample(range(-4, 7), draw.randrange(1, 5)))
        is_cut = sort == "i" and draw.random() < 0.5
        parts = len(cuts) + 1 if is_cut else draw.choice((1, 2, 3, 4, 5, 8, 16, 64))
        if workers * parts <= MOST_WORKERS:
            workers *= parts
            entries.append(f"{name}=cut:{','.join(map(str, cuts))}" if is_cut else f"{name}=hash:{parts}")
    return " ".join(entries)


def draw_changes(draw, sorts, points):
    """A script of changes for a log of so many time-points."""
    numbers = sorted(draw.choice((draw.randrange(points + 2), 0)) for _ in range(draw.choice((0, 1, 1, 2, 3, 6))))
    return "".join(f"before {number} {draw_strategy(draw, sorts)}\n" for number in numbers)


def drawn(seed):
    """The run of a seed."""
    draw = random.Random(seed)
    policy, log = Drawing(draw).policy(), draw_log(draw)
    sorts = {name: SORTS[name[0]] for name in meaning.free_variables(policy)}
    sig = " ".join(f"{name}({','.join(NAMES[sort] for sort in sorts)})" for name, sorts in SIGNATURE.items())
    return Run(policy, sig + "\n", formula_text(policy) + "\n", log_text(draw, log), draw_strategy(draw, sorts),
               draw_changes(draw, sorts, len(log)), meaning.text(policy, log))


def case(seed, run):
    """A run as a case of run_cases, and its answer. Each fourth has no changes, and each eighth no strategy either."""
    draw = random.Random(f"case {seed}")
    files = {"s": run.sig, "p": run.policy, "l": run.log}
    words = ["run", "--sig", "s", "--policy", "p", "--log", "l"]
    if seed % 8:
        words.append(f"--strategy={run.strategy}")
    if seed % 4:
        words += ["--changes", "c"]
        files["c"] = run.changes
    words += ["--threads", draw.choice("01248")]
    name = f"drawn-{seed}"
    return case_text(name, words, files, draw.choice((1, 2, 7, 65536))), answer_text(name, run.status(), run.due, "")


def write_cases(first, count, folder):
    cases = [case(seed, drawn(seed)) for seed in range(first, first + count)]
    for name, texts in zip(("stdin", "stdout"), zip(*cases)):
        (pathlib.Path(folder) / name).write_bytes(b"".join(texts))


def main():
    if sys.argv[1] == "--cases":
        write_cases(int(sys.argv[2]), int(sys.argv[3]), sys.argv[4])
        return
    run = drawn(int(sys.argv[1]))
    for name in ("sig", "policy", "log", "strategy", "changes", "due"):
        print(f"---- {name}\n{getattr(run, name).rstrip()}")


if __name__ == "__main__":
    main()
