#!/usr/bin/env python3
"""Proves and builds the program of crates/ccai, crate by crate, and says how far it is.

    tools/prove_program.py

A crate that was proved stays so, also where the run is broken off: the next one goes on behind it. Tests and
must-fail edits are no part of this; `rt ci` has them. Where a crate fails, the last lines of the tool are shown.
"""
import os
import subprocess
import sys
import time

TOP = os.path.dirname(os.path.dirname(os.path.realpath(__file__)))
PROGRAM = "ccai"
# Lines of code, definitions and proofs that are proved in a second on one processor, as measured over all crates.
LINES_A_SECOND = 20
LAST_LINES = 20


def crates_below(program):
    """The program and the crates that it stands on, each behind those that it names itself."""
    named, found = {}, []
    with open(f"{TOP}/crates.txt", encoding="utf-8") as file:
        for line in file:
            name, colon, below = line.partition("#")[0].partition(":")
            if colon:
                named[name.split()[0]] = below.split()

    def visit(name):
        if name in named and name not in found:
            for below in named[name]:
                visit(below)
            found.append(name)

    visit(program)
    return found


def lines_of(crate):
    """How many lines of code, definitions and proofs a crate has."""
    found = 0
    for part in ("src", "specs", "proofs"):
        for folder, _, files in os.walk(f"{TOP}/crates/{crate}/{part}"):
            for name in files:
                with open(f"{folder}/{name}", "rb") as file:
                    found += file.read().count(b"\n")
    return found


def is_old(crate):
    """Whether a crate has no library yet, or a source that is newer: a guess that only the first line rests on."""
    try:
        built = os.stat(f"{TOP}/crates/{crate}/out/rlib/stamp").st_mtime
    except OSError:
        return True
    for part in ("src", "specs", "proofs"):
        for folder, _, files in os.walk(f"{TOP}/crates/{crate}/{part}"):
            if any(os.stat(f"{folder}/{name}").st_mtime > built for name in files):
                return True
    return False


def told(seconds):
    minutes, rest = divmod(round(seconds), 60)
    return f"{minutes} min {rest} s" if minutes else f"{rest} s"


def say(text):
    print(f"ccai: {text}", file=sys.stderr, flush=True)


def prove(crate, jobs):
    """Proves one crate and builds it: its status, and what the tool said."""
    words = ["rt", "run", "--jobs", jobs, "--"] if crate == PROGRAM else ["rt", "lib", "--jobs", jobs]
    folder = f"{TOP}/crates/{crate}"
    ran = subprocess.run(words, cwd=folder, stdin=subprocess.DEVNULL, stdout=subprocess.PIPE, stderr=subprocess.STDOUT, errors="replace")
    # The program itself ends with a status of its own where it is called without words.
    is_there = ran.returncode == 0 or crate == PROGRAM and os.path.exists(f"{folder}/out/{PROGRAM}")
    return is_there, ran.stdout


def main():
    crates = crates_below(PROGRAM)
    processors = len(os.sched_getaffinity(0))
    seconds = sum(map(lines_of, filter(is_old, crates))) / LINES_A_SECOND
    say(f"the program is proved and built once, in about {told(seconds / min(processors, 2))}; Ctrl-C loses no crate that is done")
    for number, crate in enumerate(crates, 1):
        begun = time.monotonic()
        is_there, said = prove(crate, str(processors))
        if not is_there:
            print("\n".join(said.rstrip("\n").split("\n")[-LAST_LINES:]), file=sys.stderr)
            say(f"{crate} is not proved")
            return 1
        say(f"{number} of {len(crates)} proved: {crate} ({told(time.monotonic() - begun)})")
    return 0


if __name__ == "__main__":
    try:
        sys.exit(main())
    except KeyboardInterrupt:
        say("broken off; the next call goes on behind the last crate that is done")
        sys.exit(130)
