#!/usr/bin/env python3
"""Where the time of the gate goes: runs it, and prints a table of the processor seconds of each crate.

    python3 bench/gate_times.py [word]..

The words go to `rt ci`: `--anew` proves all from nothing, names of crates prove these and those below them. What the gate
says goes to standard error as it comes, each line with the seconds since the start. Then standard output has a row for each
crate: the processor seconds of its proof, of its tests and of its must-fail edits, and the seconds for which its proof ran;
the last line has the whole, as the system counts it. It looks at the prover's processes twice a second, so each row lacks up
to half a second of each process. Exits as the gate does. It is a measurement and no test.
"""

import collections
import os
import pathlib
import resource
import subprocess
import sys
import threading
import time

TOP = pathlib.Path(__file__).resolve().parent.parent
TICKS = os.sysconf("SC_CLK_TCK")
PAUSE = 0.5
KINDS = ("proof", "tests", "edits")


def stat_of(pid):
    """The parent and the start of a process, and the processor seconds that it took, from its line in /proc."""
    fields = pathlib.Path(f"/proc/{pid}/stat").read_text().rsplit(")", 1)[1].split()
    return int(fields[1]), fields[19], (int(fields[11]) + int(fields[12])) / TICKS


def kind_of(words, folder):
    """What a prover's process is for: a check in a folder of its own is of an edit, or of what edits begin with."""
    if "--test" in words:
        return "tests"
    return "edits" if pathlib.Path(folder).name.startswith("rt-edit-") else "proof"


class Prover:
    """The processes of the prover that a run started, each with what it is for, its processor seconds and its time."""

    def __init__(self, root):
        self.root, self.seen, self.ended = root, {}, threading.Event()

    def watch(self):
        while not self.ended.wait(PAUSE):
            self.look()

    def look(self):
        parents = {}
        for name in filter(str.isdigit, os.listdir("/proc")):
            try:
                parents[int(name)] = stat_of(name)
            except (OSError, IndexError):
                continue
        for pid, (_, start, seconds) in parents.items():
            if self.is_below(pid, parents):
                self.note(pid, start, seconds)

    def is_below(self, pid, parents):
        while pid in parents:
            if pid == self.root:
                return True
            pid = parents[pid][0]
        return False

    def note(self, pid, start, seconds):
        try:
            words = pathlib.Path(f"/proc/{pid}/cmdline").read_text().split("\0")
            folder = os.readlink(f"/proc/{pid}/cwd")
        except OSError:
            return
        if pathlib.Path(words[0]).name == "rattle" and "--crate-name" in words:
            crate = words[words.index("--crate-name") + 1]
            now = time.monotonic()
            first = self.seen.get((pid, start), (None, None, 0, now))[3]
            self.seen[pid, start] = crate, kind_of(words, folder), seconds, first, now

    def table(self):
        """For each crate, the processor seconds by kind, and for how long its proof ran."""
        seconds, spans = collections.defaultdict(collections.Counter), {}
        for crate, kind, took, first, last in self.seen.values():
            seconds[crate][kind] += took
            if kind == "proof":
                begin, end = spans.get(crate, (first, last))
                spans[crate] = min(begin, first), max(end, last)
        return {crate: [*(took[it] for it in KINDS), spans.get(crate, (0, 0))] for crate, took in seconds.items()}


def run_gate(words):
    """Runs the gate, and gives its exit status, its last line and what its provers took."""
    begin = time.monotonic()
    with subprocess.Popen(["rt", "ci", *words], cwd=TOP, stdout=subprocess.PIPE, stderr=subprocess.STDOUT, text=True,
                          env={**os.environ, "PYTHONUNBUFFERED": "1"}) as gate:
        prover = Prover(gate.pid)
        watcher = threading.Thread(target=prover.watch, daemon=True)
        watcher.start()
        last = ""
        for line in gate.stdout:
            print(f"{time.monotonic() - begin:6.0f} {line}", end="", file=sys.stderr, flush=True)
            last = line.strip() or last
        prover.ended.set()
        watcher.join()
    return gate.returncode, last, prover.table()


def main():
    begin = time.monotonic()
    status, last, table = run_gate(sys.argv[1:])
    wall = time.monotonic() - begin
    print(f"| Crate | Edits | {' | '.join(kind.capitalize() for kind in KINDS)} | Together | Its proof ran |")
    print("|---|---|---|---|---|---|---|")
    for crate, (proof, tests, edits, (first, ended)) in sorted(table.items(), key=lambda it: -sum(it[1][:3])):
        count = len(list((TOP / f"crates/{crate}/must-fail").glob("*.edit")))
        print(f"| {crate} | {count} | {proof:.0f} | {tests:.0f} | {edits:.0f} | {proof + tests + edits:.0f} | {ended - first:.0f} |")
    used = resource.getrusage(resource.RUSAGE_CHILDREN)
    minutes = (used.ru_utime + used.ru_stime) / 60
    processors = len(os.sched_getaffinity(0))
    print(f"\n{last}: {minutes:.0f} processor minutes, {wall / 60:.0f} minutes on {processors} processors")
    return status


if __name__ == "__main__":
    sys.exit(main())
