"""How a run of a program is measured: processor seconds and peak memory, by the small program `launch.c`."""

import os
import subprocess
import sys

BENCH = os.path.dirname(os.path.abspath(__file__))


def launcher(folder):
    """The program that starts another and measures it."""
    program = os.path.join(folder, "launch")
    os.makedirs(folder, exist_ok=True)
    subprocess.run(["cc", "-O2", "-o", program, os.path.join(BENCH, "launch.c")], check=True)
    return program


def run(launch, command, folder, more, output):
    """Processor seconds and peak memory in MiB; None for a run that was given up."""
    files = [word for name in ("sig", "policy", "log") for word in (f"--{name}", os.path.join(folder, name))]
    with open(output, "wb") as target:
        done = subprocess.run([*launch, *command, "run", *files, *more], stdout=target, stderr=subprocess.PIPE, text=True)
    seconds, memory, status = done.stderr.split()[-3:]
    if int(status) not in (-1, 0, 1):
        sys.exit(f"{command[0]} ended with {status} on {folder}: {done.stderr}")
    return (float(seconds), int(memory) / 1024) if int(status) >= 0 else None


def least(runs):
    """The least time and the greatest memory of some runs, if none was given up."""
    if not runs or None in runs:
        return None
    return min(seconds for seconds, _ in runs), max(memory for _, memory in runs)
