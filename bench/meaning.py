"""What a policy means over a log, by the definitions and nothing else: slow, and with nothing of the monitor in it.

A formula is a tuple, its kind first:

    ("true",)  ("false",)  ("atom", name, terms)  ("compare", sign, term, term)
    ("not", f)  ("and" | "or" | "implies" | "equiv", f, g)  ("exists" | "forall", variable, f)
    ("previous" | "next" | "once" | "historically" | "eventually" | "always", interval, f)
    ("since" | "until", interval, f, g)

A term is ("variable", name) or ("value", v), a value an int or a str, and an interval a pair of its least and its
greatest number, None for no greatest one. A log is a list of time-points, each a timestamp and a set of events, each
of these a predicate's name and its values.
"""

import itertools
import operator

UNARY = ("previous", "next", "once", "historically", "eventually", "always")
BINARY = ("since", "until")
FUTURE = ("eventually", "always", "until")
SIGNS = {"=": operator.eq, "<": operator.lt, "<=": operator.le, ">": operator.gt, ">=": operator.ge}


def operands(formula):
    kind = formula[0]
    if kind in ("atom", "compare", "true", "false"):
        return ()
    if kind in ("exists", "forall") or kind in UNARY:
        return formula[2:3]
    return formula[2:] if kind in BINARY else formula[1:]


def terms_of(formula):
    return formula[2] if formula[0] == "atom" else formula[2:] if formula[0] == "compare" else ()


def free_variables(formula):
    """The free variables, in the order of their first occurrence."""
    found = [name for kind, name in terms_of(formula) if kind == "variable"]
    found += itertools.chain.from_iterable(free_variables(each) for each in operands(formula))
    if formula[0] in ("exists", "forall"):
        found = [name for name in found if name != formula[1]]
    return list(dict.fromkeys(found))


def constants(formula):
    found = {value for kind, value in terms_of(formula) if kind == "value"}
    return found.union(*(constants(each) for each in operands(formula)))


def in_order(value):
    """Integers before texts, integers by number, texts by bytes."""
    return (1, value.encode()) if isinstance(value, str) else (0, value)


class Meaning:
    """Where formulas hold over a log, and where they are settled. Quantifiers range over the domain."""

    def __init__(self, log, domain):
        self.times = [time for time, _ in log]
        self.events = [events for _, events in log]
        self.domain = sorted(domain, key=in_order)
        self.known, self.free = {}, {}

    def holds(self, formula, row, at):
        """Whether the formula holds at a position, under the values of its free variables; no answer is found twice."""
        free = self.free.setdefault(formula, tuple(free_variables(formula)))
        key = formula, tuple(row[name] for name in free), at
        if key not in self.known:
            self.known[key] = getattr(self, formula[0])(*formula[1:], row, at)
        return self.known[key]

    def value(self, term, row):
        return row[term[1]] if term[0] == "variable" else term[1]

    def true(self, row, at):
        return True

    def false(self, row, at):
        return False

    def atom(self, name, terms, row, at):
        return (name, tuple(self.value(term, row) for term in terms)) in self.events[at]

    def compare(self, sign, left, right, row, at):
        one, other = self.value(left, row), self.value(right, row)
        if isinstance(one, str) != isinstance(other, str):
            return False
        return SIGNS[sign](in_order(one), in_order(other))

    def exists(self, name, body, row, at):
        return any(self.holds(body, row | {name: value}, at) for value in self.domain)

    def forall(self, name, body, row, at):
        return all(self.holds(body, row | {name: value}, at) for value in self.domain)

    def within(self, interval, distance):
        return interval[0] <= distance and (interval[1] is None or distance <= interval[1])

    def previous(self, interval, body, row, at):
        return at > 0 and self.within(interval, self.times[at] - self.times[at - 1]) and self.holds(body, row, at - 1)

    def next(self, interval, body, row, at):
        return (at + 1 < len(self.times) and self.within(interval, self.times[at + 1] - self.times[at])
                and self.holds(body, row, at + 1))

    def since(self, interval, left, right, row, at):
        return any(self.within(interval, self.times[at] - self.times[then]) and self.holds(right, row, then)
                   and all(self.holds(left, row, between) for between in range(then + 1, at + 1))
                   for then in range(at + 1))

    def until(self, interval, left, right, row, at):
        return any(self.within(interval, self.times[then] - self.times[at]) and self.holds(right, row, then)
                   and all(self.holds(left, row, between) for between in range(at, then))
                   for then in range(at, len(self.times)))

    def once(self, interval, body, row, at):
        return self.since(interval, ("true",), body, row, at)

    def eventually(self, interval, body, row, at):
        return self.until(interval, ("true",), body, row, at)

    def historically(self, interval, body, row, at):
        return not self.once(interval, ("not", body), row, at)

    def always(self, interval, body, row, at):
        return not self.eventually(interval, ("not", body), row, at)

    def is_settled(self, formula, at):
        """Whether no longer log can change what the formula says at a position, as far as timestamps tell."""
        kind, those, count = formula[0], operands(formula), len(self.times)
        if kind == "previous":
            return at < count and (at == 0 or self.is_settled(those[0], at - 1))
        if kind == "next":
            return at + 1 < count and self.is_settled(those[0], at + 1)
        if kind in ("since", "once", "historically"):
            return all(self.is_settled(each, then) for each in those for then in range(at + 1))
        if kind in FUTURE:
            most = formula[1][1]
            if at >= count or most is None or self.times[-1] <= self.times[at] + most:
                return False
            return all(self.is_settled(each, then) for each in those for then in range(at, count)
                       if self.times[then] <= self.times[at] + most)
        return at < count and all(self.is_settled(each, at) for each in those)


# the operators whose names are words of Python
setattr(Meaning, "not", lambda self, body, row, at: not self.holds(body, row, at))
setattr(Meaning, "and", lambda self, left, right, *here: self.holds(left, *here) and self.holds(right, *here))
setattr(Meaning, "or", lambda self, left, right, *here: self.holds(left, *here) or self.holds(right, *here))
setattr(Meaning, "implies", lambda self, left, right, *here: not self.holds(left, *here) or self.holds(right, *here))
setattr(Meaning, "equiv", lambda self, left, right, *here: self.holds(left, *here) == self.holds(right, *here))


def verdicts(policy, log):
    """For each settled time-point its timestamp, its number and the rows at which the policy doesn't hold, in order."""
    domain = constants(policy) | {value for _, events in log for _, values in events for value in values}
    meaning, columns = Meaning(log, domain), free_variables(policy)
    for at, (time, _) in enumerate(log):
        if not meaning.is_settled(policy, at):
            return
        rows = itertools.product(meaning.domain, repeat=len(columns))
        yield time, at, [row for row in rows if not meaning.holds(policy, dict(zip(columns, row)), at)]


def spelled(value):
    return f'"{value}"' if isinstance(value, str) else str(value)


def line(time, number, rows):
    return f"@{time} (time point {number}):" + "".join(f" ({','.join(map(spelled, row))})" for row in rows) + "\n"


def text(policy, log):
    """The lines that are due."""
    return "".join(line(*each) for each in verdicts(policy, log))
