#!/usr/bin/env python3
"""Tells the processor minutes that a run of the gate spends on each crate's proof, tests and edits, most first.

    tools/gate_cost.py [COMMAND ..]     runs COMMAND (`rt ci --anew` where none is given) and then prints the table
    tools/gate_cost.py --attach PID     watches a run that goes on already, from now to its end

The run's processes are read from /proc once a second: the prover's command names its crate, `--test` marks
the proof of tests, and a folder `rt-edit-..` the check that an edit, or the seed of a crate's edits, makes.
What a process used in its last second is not seen; the line `not seen` tells how much that is in all.
"""
import os
import re
import subprocess
import sys
import time

TICKS = os.sysconf("SC_CLK_TCK")
KINDS = ("proof", "tests", "edits")


def text_of(path):
    """The text of a file of /proc, or "" where its process has ended."""
    try:
        with open(path, "rb") as it:
            return it.read().decode(errors="replace")
    except OSError:
        return ""


def stat_of(pid):
    """Of a process its parent, its own processor time and that of the children it has waited for, in seconds, and its start."""
    found = text_of(f"/proc/{pid}/stat").rpartition(")")[2].split()
    if len(found) < 20:
        return None
    own, waited = (sum(int(it) for it in found[at : at + 2]) / TICKS for at in (11, 13))
    return int(found[1]), own, waited, found[19]


def job_of(pid):
    """The crate that a prover's process works on and what for, or None for another process."""
    words = text_of(f"/proc/{pid}/cmdline").split("\0")
    if not words[0].endswith("/rattle") or "--crate-name" not in words:
        return None
    crate = words[words.index("--crate-name") + 1]
    if "--test" in words:
        return crate, "tests"
    try:
        folder = os.readlink(f"/proc/{pid}/cwd")
    except OSError:
        folder = ""
    return crate, "edits" if "/rt-edit-" in folder else "proof"


class Watch:
    """The processes below one process, with what each has used so far."""

    def __init__(self, top):
        self.top, self.jobs, self.used, self.all = top, {}, {}, 0.0

    def look(self):
        """Reads all processes once."""
        found = {int(it): stat_of(it) for it in os.listdir("/proc") if it.isdigit()}
        found = {pid: it for pid, it in found.items() if it}
        if self.top in found:
            self.all = max(self.all, sum(found[self.top][1:3]))
        for pid, (_, own, _, start) in found.items():
            if not self.is_below(pid, found):
                continue
            # (a number may be given to another process once this one has ended)
            name = pid, start
            if name not in self.jobs:
                self.jobs[name] = job_of(pid) or self.job_above(pid, found)
            self.used[name] = own

    def is_below(self, pid, found):
        seen = set()
        while pid in found and pid not in seen and pid != self.top:
            seen.add(pid)
            pid = found[pid][0]
        return pid == self.top

    def job_above(self, pid, found):
        """The job of the nearest process above that has one: a prover may start others."""
        parent = found[pid][0]
        return job_of(parent) if parent in found else None

    def table(self):
        """For each crate its minutes by kind."""
        rows = {}
        for name, seconds in self.used.items():
            crate, kind = self.jobs.get(name) or ("(rt itself)", "proof")
            rows.setdefault(crate, dict.fromkeys(KINDS, 0.0))[kind] += seconds / 60
        return rows


def show(watch, wall):
    rows = watch.table()
    print(f"{'crate':<24}{''.join(f'{it:>8}' for it in KINDS)}{'all':>8}")
    for crate, row in sorted(rows.items(), key=lambda it: -sum(it[1].values())):
        print(f"{crate:<24}{''.join(f'{row[it]:8.1f}' for it in KINDS)}{sum(row.values()):8.1f}")
    sums = [sum(row[it] for row in rows.values()) for it in KINDS]
    print(f"{'in all':<24}{''.join(f'{it:8.1f}' for it in sums)}{sum(sums):8.1f}")
    print(f"{'not seen':<24}{max(0.0, watch.all / 60 - sum(sums)):32.1f}")
    print(f"{'minutes by the clock':<24}{wall / 60:32.1f}", flush=True)


def main():
    words = sys.argv[1:]
    if words in (["-h"], ["--help"]):
        print(__doc__.strip())
        return 0
    begun, child = time.monotonic(), None
    if words[:1] == ["--attach"]:
        if len(words) != 2 or not re.fullmatch(r"[0-9]+", words[1]):
            sys.exit("gate_cost: --attach takes the number of a process")
        watch = Watch(int(words[1]))
        is_running = lambda: os.path.exists(f"/proc/{words[1]}")
    else:
        child = subprocess.Popen(words or ["rt", "ci", "--anew"])
        watch = Watch(child.pid)
        is_running = lambda: child.poll() is None
    while is_running():
        watch.look()
        time.sleep(1)
    show(watch, time.monotonic() - begun)
    return child.returncode if child else 0


if __name__ == "__main__":
    sys.exit(main())
