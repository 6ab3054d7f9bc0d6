#!/usr/bin/env python3
"""Runs commands in turn on one input, round by round, and writes what each took beside another.

    python3 bench/rounds.py ROUNDS INPUT NAME[:BASE]=COMMAND..

Each command is one of the shell, and has INPUT as its standard input. A line for each NAME: median of the seconds from its
start to its end, median of the processor's seconds (user and system), peak memory of its greatest process in MiB, and the
medians over the rounds of both times by those of BASE, the first command unless it is named, in the same round. Where all
that a command writes to standard error is a number, the median of these numbers and that of the ratios follow. The fields
are set off by tabs.

So whatever else the machine does at the time affects all commands alike. A command that fails ends the run.
"""

import os
import statistics
import subprocess
import sys
import tempfile
import time


def number_in(said: bytes) -> float | None:
    try:
        return float(said)
    except ValueError:
        return None


def measured(command: str, path: str, peak: str) -> tuple:
    """The seconds, the processor's seconds, the memory, and the number that it wrote, if it did.

    The memory comes from `time`, which writes it to the file `peak`: a child of this process would have its peak, too.
    """
    words = ["/usr/bin/time", "-q", "-o", peak, "-f", "%M", "sh", "-c", command]
    with open(path, "rb") as source:
        began = time.monotonic()
        child = subprocess.Popen(words, stdin=source, stdout=subprocess.DEVNULL, stderr=subprocess.PIPE)
        said = child.stderr.read()
        _, status, used = os.wait4(child.pid, 0)
        wall = time.monotonic() - began
    child.returncode = os.waitstatus_to_exitcode(status)
    if child.returncode != 0:
        sys.exit(f"{command}: status {child.returncode}\n{said.decode(errors='replace')}")
    with open(peak) as told:
        room = int(told.read()) / 1024
    return wall, used.ru_utime + used.ru_stime, room, number_in(said)


def ratio(own: list, base: list, at: int) -> str:
    return f"{statistics.median(a[at] / max(b[at], 0.001) for a, b in zip(own, base)):.2f}"


def main() -> None:
    rounds, path = int(sys.argv[1]), sys.argv[2]
    words = [word.split("=", 1) for word in sys.argv[3:]]
    named = [(*name.split(":"), words[0][0].split(":")[0])[:2] for name, _ in words]
    found = {name: [] for name, _ in named}
    with tempfile.NamedTemporaryFile() as peak:
        for _ in range(rounds):
            for (name, _), (_, command) in zip(named, words):
                found[name].append(measured(command, path, peak.name))
    for name, base in named:
        runs = found[name]
        walls, times, rooms, numbers = zip(*runs)
        row = [name, f"{statistics.median(walls):.3f}", f"{statistics.median(times):.3f}", f"{max(rooms):.0f}",
               ratio(runs, found[base], 0), ratio(runs, found[base], 1)]
        if None not in numbers:
            row += [f"{statistics.median(numbers):.0f}", ratio(runs, found[base], 3)]
        print(*row, sep="\t")


if __name__ == "__main__":
    main()
