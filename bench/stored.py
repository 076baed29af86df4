"""Stored runs (crates/run_cases) as calls of the monitor itself, on real files and with any number of threads."""

import collections
import os
import subprocess
import tempfile

from case_files import TOP, runs

PROGRAM = os.path.join(TOP, "crates", "monitor", "out", "monitor")
MOST_THREADS = 64
# the longest name that a file is given
MOST_NAME = 200
# the longest word that Linux hands to a program
MOST_WORD = 131_071


def own_threads(words):
    """The values that a run's words give for threads, and all its other words."""
    values, others, words = [], [], iter(words)
    for word in words:
        if word == b"--threads":
            values.append(next(words, b""))
        elif word.startswith(b"--threads="):
            values.append(word.partition(b"=")[2])
        else:
            others.append(word)
    return values, others


def can_be_made(name):
    """Whether a folder can have a file of this name."""
    return name not in (b"", b".", b"..") and len(name) < MOST_NAME and b"/" not in name and b"\0" not in name


def left_out(case):
    """Why a run isn't made; nothing where it is."""
    values, _ = own_threads(case["words"])
    if case["fails"]:
        return "calls of the outside fail"
    if case["words"][1:2] != [b"run"]:
        return "the command is not run"
    if not all(can_be_made(name) for name in case["files"] if name != b"-"):
        return "a file can't be made"
    if any(b"\0" in word for word in case["words"]):
        return "a word has a zero"
    if any(len(word) > MOST_WORD for word in case["words"]):
        return "a word is too long for the system"
    if len(values) > 1 or not all(value.isdigit() and int(value) <= MOST_THREADS for value in values):
        return "its word for threads is none"
    return None


def sort_out(folder):
    """The runs of FOLDER/stdin that are made, and how many are left out for which reason."""
    made, reasons = [], collections.Counter()
    for case in runs(os.path.join(folder, "stdin")):
        reason = left_out(case)
        if reason:
            reasons[reason] += 1
        else:
            made.append(case)
    return made, reasons


def call(command, case, threads, most_seconds):
    """What a run with so many threads answers; nothing where it doesn't end in time. The command is the program, with
    another one and its words before it if need be."""
    _, words = own_threads(case["words"][2:])
    with tempfile.TemporaryDirectory() as folder:
        for name, text in case["files"].items():
            if name != b"-":
                with open(os.path.join(os.fsencode(folder), name), "wb") as file:
                    file.write(text)
        try:
            done = subprocess.run([*command, b"run", b"--threads=%d" % threads, *words], cwd=folder,
                                  input=case["files"].get(b"-", b""), capture_output=True, timeout=most_seconds,
                                  check=False)
        except subprocess.TimeoutExpired:
            return None
    return done.returncode, done.stdout, done.stderr
