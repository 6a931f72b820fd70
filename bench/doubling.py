#!/usr/bin/env python3
"""Times a command of crates/ccai_bench on sources of which each is twice as large as the one before.

    python3 bench/doubling.py PROGRAM COMMAND UNITS SOURCE..

Each source is read RUNS times by `PROGRAM COMMAND SOURCE`; the least time counts, in user and system time, and reading the file is
in it. Of a parser the time that `PROGRAM lex SOURCE` takes is taken off, unless WHOLE is set: what is told is the time of the
parser alone. It is told how many times as long it takes from one source to the next; the status is 1 where that is more than
LIMIT, which is 2.2 where it is not set.
"""

import os
import resource
import subprocess
import sys

LIMIT = float(os.environ.get("LIMIT", "2.2"))


def least(program, command, source, runs):
    times = []
    for _ in range(runs):
        before = resource.getrusage(resource.RUSAGE_CHILDREN)
        subprocess.run([program, command, source], check=True)
        after = resource.getrusage(resource.RUSAGE_CHILDREN)
        times.append(after.ru_utime + after.ru_stime - before.ru_utime - before.ru_stime)
    return min(times)


def main():
    program, command, units, *sources = sys.argv[1:]
    runs = int(os.environ.get("RUNS", "5"))
    last, most = None, 0
    for source in sources:
        size = os.path.getsize(source)
        lexer = least(program, "lex", source, runs)
        spent, behind = lexer, ""
        if os.environ.get("WHOLE"):
            spent = least(program, command, source, runs)
        elif command != "lex":
            spent = least(program, command, source, runs) - lexer
            behind = f" behind {lexer:.3f} s for the tokens"
        line = f"{os.path.basename(source)} {units}, {size} bytes: {spent:.3f} s{behind}, {size / spent / 1e6:.0f} million bytes a second"
        if last is not None:
            line += f", {spent / last:.2f} times as long"
            most = max(most, spent / last)
        print(line, flush=True)
        last = spent
    sys.exit(1 if most > LIMIT else 0)


main()
