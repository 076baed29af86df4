"""The policies and logs by which the monitor is measured: fifteen shapes that stress it in different places, and six
that are measured where they are asked for.

`write(name, events, folder)` writes a signature, a policy and a log of about so many events. The same name and
number give the same bytes.
"""

import argparse
import itertools
import os
import random
from collections import deque
from dataclasses import dataclass
from typing import Callable, Iterator

Point = tuple[int, list[str]]


@dataclass(frozen=True)
class Workload:
    signature: str
    policy: str
    shape: str
    points: Callable[[random.Random, int], Iterator[Point]]
    variable: str = "x"  # the one whose values a strategy would part by hash
    only_asked: bool = False  # measured only where it is asked for by its name


def event(predicate, *values):
    return f"{predicate}({','.join(map(str, values))})"


def batches(events, size):
    """How many events each time-point has."""
    while events > 0:
        yield min(size, events)
        events -= size


def clock(draw, step):
    """Timestamps that rise by 0 to `step` - 1."""
    now = 0
    while True:
        now += draw.randrange(step)
        yield now


def portions(draw, events, step, most):
    """Timestamps, and how many events each has: fewer than `most`, until all are given out."""
    for now in clock(draw, step):
        if events <= 0:
            return
        size = min(draw.randrange(most), events)
        events -= size
        yield now, size


def approvals_one_by_one(draw, events):
    recent = deque([0] * 4, maxlen=4)
    for number, now in zip(range(events), clock(draw, 3)):
        if number % 2 == 0:
            recent.append(draw.randrange(10_000))
            yield now, [event("approve", recent[-1])]
        else:
            report = draw.choice(recent) if draw.randrange(10) else draw.randrange(10_000)
            yield now, [event("publish", report)]


def approvals_in_thousands(draw, events):
    for size, now in zip(batches(events, 1000), clock(draw, 3)):
        yield now, [event(draw.choice(("approve", "publish")), draw.randrange(2000)) for _ in range(size)]


def approvals_with_empty_points(draw, events):
    for number, now in zip(range(events), clock(draw, 2)):
        predicate = {0: "approve", 2: "publish"}.get(number % 4)
        yield now, [event(predicate, draw.randrange(1000))] if predicate else []


def approvals_kept_long(draw, events):
    values = min(1_000_000, events)
    for now, size in enumerate(batches(events, 20)):
        yield now, [event("approve" if draw.randrange(10) < 8 else "publish", 1009 * draw.randrange(values))
                    for _ in range(size)]


class Owed:
    """What is to be answered later: the oldest first, once its time has come."""

    def __init__(self):
        self.waiting = deque()

    def add(self, due, what):
        self.waiting.append((due, what))

    def take(self, now):
        return self.waiting.popleft()[1] if self.waiting and self.waiting[0][0] <= now else None


def requests_granted_later(draw, events):
    owed, numbers = Owed(), itertools.count()
    for now, size in portions(draw, events, 3, 5):
        here = []
        for _ in range(size):
            request = owed.take(now)
            if request is not None:
                here.append(event("grant", request if draw.randrange(20) else 2_000_000))
            else:
                request = next(numbers) * 7919 % 1_000_003
                owed.add(now + 100 + draw.randrange(800), request)
                here.append(event("request", request))
        yield now, here


def requests_with_drops(draw, events):
    for now, size in portions(draw, events, 4, 60):
        here = []
        for _ in range(size):
            kind, number = draw.randrange(8), draw.randrange(800)
            if kind < 4:
                here.append(event("req", number, f"user{draw.randrange(50)}"))
            else:
                here.append(event("grant" if kind < 7 else "drop", number))
        yield now, here


def triangles(draw, events):
    left = events
    for now in itertools.count(1):
        if left <= 0:
            return
        rows = max(1, min(1000 + draw.randrange(2301), (left + 2) // 3))
        values = max(1, rows // 12)
        yield now, [event(predicate, draw.randrange(values), draw.randrange(values))
                    for predicate in "pqr" for _ in range(rows)]
        left -= 3 * rows


def since_without(draw, events):
    for size, now in zip(batches(events, 10), clock(draw, 3)):
        yield now, [event(draw.choice("aaaaacccbb"), draw.randrange(50_000)) for _ in range(size)]


def skewed_sends(draw, events):
    values = range(100_000)
    weights = list(itertools.accumulate(1 / (value + 1) for value in values))
    skewed = lambda: draw.choices(values, cum_weights=weights)[0]
    owed = Owed()
    for size, now in zip(batches(events, 20), clock(draw, 3)):
        here = []
        for _ in range(size):
            sent = owed.take(now)
            if sent is not None:
                here.append(event("ack", sent[0] if draw.randrange(20) else 2_000_000, sent[1]))
            elif draw.randrange(50) == 0:
                here.append(event("block", skewed()))
            else:
                sent = (skewed(), draw.randrange(1000))
                owed.add(now + 50 + draw.randrange(850), sent)
                here.append(event("send", *sent))
        yield now, here


def until_without(draw, events):
    owed = Owed()
    for size, now in zip(batches(events, 10), clock(draw, 3)):
        here = []
        for _ in range(size):
            pair = owed.take(now)
            if pair is not None:
                here.append(event("b", *pair))
            elif draw.randrange(60) == 0:
                here.append(event("c", draw.randrange(2000)))
            else:
                pair = (draw.randrange(2000), draw.randrange(100))
                owed.add(now + 20 + draw.randrange(250), pair)
                here.append(event("p", *pair))
        yield now, here


def tasks_seen_open(draw, events):
    live, numbers, left = [], itertools.count(), events
    for now in clock(draw, 3):
        if left <= 0:
            return
        here = [event("open", task) for task in live if draw.randrange(2000)]
        if len(live) < 50:
            started = [next(numbers), next(numbers)]
            live += started
            here += [event("start", task) for task in started]
        if len(live) > 40:
            here.append(event("done", live.pop(draw.randrange(len(live)))))
        left -= len(here)
        yield now, here


def links_that_are_up(draw, events):
    kinds = ["link"] * 5 + ["up"] * 2 + ["alarm"] * 3
    for size, now in zip(batches(events, 10), clock(draw, 3)):
        here = []
        for _ in range(size):
            kind, host, link = draw.choice(kinds), draw.randrange(1000), draw.randrange(3000)
            here.append(event(kind, *{"link": (host, link), "up": (link,), "alarm": (host,)}[kind]))
        yield now, here


def approvals_with_approvers(draw, events):
    for size, now in zip(batches(events, 10), clock(draw, 3)):
        yield now, [event("approve", draw.randrange(5000), draw.randrange(100)) if draw.randrange(2)
                    else event("publish", draw.randrange(5000)) for _ in range(size)]


def approvals_with_drafts(draw, events):
    kinds = ["approve"] * 5 + ["publish"] * 4 + ["draft"]
    for size, now in zip(batches(events, 10), clock(draw, 3)):
        yield now, [event(draw.choice(kinds), draw.randrange(5000)) for _ in range(size)]


def approvals_among_others(draw, events):
    others = ("edit", "read", "share", "print")
    for now, size in enumerate(batches(events, 20)):
        yield now, [event(draw.choice(others), draw.randrange(1000), f"place{draw.randrange(1000)}") if draw.randrange(3)
                    else event("approve" if draw.randrange(10) < 8 else "publish", draw.randrange(1000))
                    for _ in range(size)]


def alarms_with_answers(draw, events):
    for _, now in zip(batches(events, 1), clock(draw, 3)):
        yield now, [event("answer", draw.randrange(1000), draw.randrange(100)) if draw.randrange(100)
                    else event("alarm", draw.randrange(1000))]


def signals_of_few(draw, events):
    kinds = ["ready"] * 8 + ["hold", "start"]
    for _, now in zip(batches(events, 1), clock(draw, 3)):
        yield now, [event(draw.choice(kinds), draw.randrange(20))]


def bursts(draw, events):
    now = 0
    kinds = ["request"] * 10 + ["grant"] * 9 + ["drop"]
    for number in range(1, events + 1):
        now += 1000 if number % 5000 == 0 else 1 if number % 1000 == 0 else 0
        yield now, [event(draw.choice(kinds), draw.randrange(4000))]


def sessions(draw, events):
    live, numbers = deque(), itertools.count()
    name = lambda number: f'"{random.Random(number).getrandbits(144):036x}"'
    for size, now in zip(batches(events, 10), clock(draw, 3)):
        here = []
        for _ in range(size):
            kind = draw.randrange(8)
            if kind < 2 or len(live) < 50:
                live.append(name(next(numbers)))
                here.append(event("open", live[-1], f'"user {draw.randrange(5000)}"'))
            elif kind < 7:
                here.append(event("use", draw.choice(live)))
            else:
                here.append(event("close", live.popleft()))
                if len(live) > 2000:
                    live.popleft()
        yield now, here


APPROVED = "publish(x) IMPLIES ONCE[0,7] approve(x)"
REPORTS = "publish(int) approve(int)"
DRAFTS = "publish(int) approve(int) draft(int)"

WORKLOADS = {
    "approvals": Workload(REPORTS, APPROVED, "one event a time-point", approvals_one_by_one),
    "approvals-1000": Workload(REPORTS, APPROVED, "1,000 events a time-point", approvals_in_thousands),
    "granted": Workload("request(int) grant(int)", "request(x) IMPLIES EVENTUALLY[0,1000] grant(x)",
                        "about 1,000 time-points in the window", requests_granted_later),
    "granted-or-dropped": Workload(
        "req(id:int,who:string) grant(id:int) drop(id:int)",
        "(req(i,w) AND NOT ONCE[0,50] drop(i)) IMPLIES EVENTUALLY[0,20] grant(i)",
        "about 30 events a time-point, texts, many violations", requests_with_drops, "i"),
    "triangles": Workload("p(int,int) q(int,int) r(int,int)", "NOT (p(x,y) AND q(y,z) AND r(z,x))",
                          "1,000 to 3,300 rows a relation, each value in about 12", triangles),
    "approvals-long": Workload(REPORTS, "publish(x) IMPLIES ONCE[0,100000] approve(x)",
                               "up to a million values in the window", approvals_kept_long),
    "since-without": Workload("a(int) b(int) c(int)", "b(x) IMPLIES NOT ((NOT c(x)) SINCE[0,1000] a(x))",
                              "10 events a time-point", since_without),
    "approvals-empty": Workload(REPORTS, APPROVED, "half of the time-points are empty", approvals_with_empty_points),
    "acknowledged": Workload(
        "send(int,int) ack(int,int) block(int)",
        "(send(x,y) AND NOT ONCE[0,200] block(x)) IMPLIES EVENTUALLY[0,1000] ack(x,y)",
        "values of which few are frequent", skewed_sends),
    "until-without": Workload("p(int,int) c(int) b(int,int)",
                              "p(x,y) IMPLIES (NOT c(x)) UNTIL[10,300] b(x,y)", "10 events a time-point", until_without),
    "open-since": Workload("start(int) open(int) done(int)", "done(x) IMPLIES open(x) SINCE[5,500] start(x)",
                           "about 50 events a time-point", tasks_seen_open),
    "links": Workload("alarm(int) link(int,int) up(int)",
                      "alarm(x) IMPLIES EXISTS y. (ONCE[0,500] link(x,y) AND ONCE[0,500] up(y))",
                      "two windows joined", links_that_are_up),
    "approvers": Workload("publish(int) approve(int,int)", "NOT (publish(x) AND ONCE[0,500] approve(x,y))",
                          "a window that is asked by key", approvals_with_approvers),
    "bursts": Workload("request(int) grant(int) drop(int)",
                       "(request(x) AND NOT ONCE[0,20] drop(x)) IMPLIES EVENTUALLY[0,5] grant(x)",
                       "1,000 time-points to a timestamp, jumps that empty all windows", bursts),
    "sessions": Workload("open(session:string,user:string) use(session:string) close(session:string)",
                         "use(s) IMPLIES (NOT close(s)) SINCE[0,500] (EXISTS u. open(s,u))",
                         "texts of 36 bytes", sessions, "s"),
    "approved-or-draft": Workload(DRAFTS, "publish(x) IMPLIES (draft(x) OR ONCE[0,700] approve(x))",
                                  "a window that is denied with an atom", approvals_with_drafts, only_asked=True),
    "unapproved-draft": Workload(DRAFTS, "NOT (publish(x) AND NOT ONCE[0,700] approve(x) AND draft(x))",
                                 "a window between two atoms", approvals_with_drafts, only_asked=True),
    "approved-first": Workload(REPORTS, "ONCE[0,700] approve(x) OR NOT publish(x)",
                               "a window before its atom", approvals_one_by_one, only_asked=True),
    "approvals-among-others": Workload(
        REPORTS + " edit(int,string) read(int,string) share(int,string) print(int,string)", APPROVED,
        "two thirds of the events are of predicates that the policy lacks", approvals_among_others, only_asked=True),
    "answers-ahead": Workload("alarm(int) answer(int,int)", "NOT (alarm(x) AND EVENTUALLY[0,500] answer(x,y))",
                              "a window ahead that few time-points ask, by key", alarms_with_answers, only_asked=True),
    "ready-again": Workload("start(int) hold(int) ready(int)", "start(x) IMPLIES hold(x) UNTIL[1,500] ready(x)",
                            "few values that come again and again in a window ahead", signals_of_few, only_asked=True),
}

MEASURED = [name for name, workload in WORKLOADS.items() if not workload.only_asked]


def chosen(names):
    """The workloads of these names, which commas part."""
    unknown = [name for name in names.split(",") if name not in WORKLOADS]
    if unknown:
        raise argparse.ArgumentTypeError(f"no workload is called {', '.join(unknown)}")
    return names.split(",")


def write(name, events, folder):
    """Writes the files of a workload, unless they are there, and gives the bytes of its log."""
    workload = WORKLOADS[name]
    log = os.path.join(folder, "log")
    if not os.path.exists(log):
        os.makedirs(folder, exist_ok=True)
        for file, text in (("sig", workload.signature), ("policy", workload.policy)):
            with open(os.path.join(folder, file), "w", encoding="ascii") as out:
                out.write(text + "\n")
        draw = random.Random(f"{name} {events}")
        with open(log + ".part", "w", encoding="ascii") as out:
            out.writelines(f"@{now} {' '.join(here)};\n" for now, here in workload.points(draw, events))
        os.rename(log + ".part", log)
    return os.path.getsize(log)
