"""The files of cases that the program run_cases reads and writes: whole runs, and what each answers."""

import os
import subprocess
import tempfile

TOP = os.path.dirname(os.path.dirname(os.path.abspath(__file__)))
FOLDER = os.path.join(TOP, "crates", "run_cases")
PROGRAM = os.path.join(FOLDER, "out", "run_cases")


def case_text(name, words, files, piece=65_536, **failing):
    """A case: its words behind the program's name, its files by name, and the numbers of calls that fail."""
    lines = [f"case {name}", f"piece {piece}"]
    lines += [f"{kind.replace('_', '-')} {' '.join(map(str, numbers))}" for kind, numbers in failing.items()]
    lines += [f"word {word}" for word in ("monitor", *words)]
    text = "\n".join(lines).encode() + b"\n"
    for file, content in files.items():
        content = content if isinstance(content, bytes) else content.encode()
        text += b"file %s %d\n%s\n" % (file.encode(), len(content), content)
    return text + b"end\n"


def answer_text(name, status, out, err):
    """What run_cases prints of a case."""
    out, err = out.encode(), err.encode()
    return b"case %s\nstatus %d\nout %d\n%s\nerr %d\n%s\n" % (name.encode(), status, len(out), out, len(err), err)


def blocks(path):
    """The lines of a file of cases as lists of words; of a line that ends with a length, the bytes behind it last."""
    with open(path, "rb") as file:
        for line in file:
            words = line.rstrip(b"\n").split(b" ")
            if words[0] in (b"file", b"out", b"err"):
                words[-1] = file.read(int(words[-1]))
                file.read(1)
            elif words[0] == b"word":
                words = [b"word", line.rstrip(b"\n")[5:]]
            yield words


def runs(path):
    """The whole runs of a file: each with its name, its words, its files, and whether a call fails in it."""
    for kind, *rest in blocks(path):
        if kind == b"case":
            case = {"name": rest[0].decode(), "words": [], "files": {}, "fails": False}
        elif kind == b"word":
            case["words"].append(rest[0])
        elif kind == b"file":
            # of two files of one name the first counts
            case["files"].setdefault(b" ".join(rest[:-1]), rest[-1])
        elif kind.startswith(b"fail"):
            case["fails"] = True
        elif kind == b"end":
            yield case


def answers(path):
    """For each case its status, output and errors."""
    found, name = {}, None
    for kind, *rest in blocks(path):
        if kind == b"case":
            name = rest[0].decode()
        elif kind in (b"status", b"out", b"err"):
            found.setdefault(name, []).append(int(rest[0]) if kind == b"status" else rest[-1])
    return {name: tuple(answer) for name, answer in found.items()}


def answers_of(program, cases):
    """What run_cases answers to cases."""
    with tempfile.NamedTemporaryFile() as given, tempfile.NamedTemporaryFile() as got:
        given.writelines(cases)
        given.flush()
        given.seek(0)
        subprocess.run([program], stdin=given, stdout=got, check=True)
        return answers(got.name)
