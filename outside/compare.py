#!/usr/bin/env python3
"""Compares the program, as it was last built, with the model beside this file, over random programs and configurations.

    python3 outside/compare.py [HOW MANY] [SEED]

It is a test of the definitions that are proved of the program, by an outside reading of the rules. Reports, dumps and exit
statuses are compared, cycle by cycle and in speculative mode, and with the notes in given interleavings and in pieces. Of drifts
by threads, which differ from run to run, the notes must add up to the intervals that the model has; where they record nothing
the end must be the one cycle by cycle, as of the model itself. It fails where a kind of end, a byte on the console or a kind of
record never came.
"""

import collections
import random
import sys
from typing import NamedTuple

import notes as noted
from drifts import quantum, script
from model import Machine
from program import Wrong, argument, call, script as run_script
from programs import flat, random_code, random_config

TRAPS = ("illegal", "fetch", "target", "misaligned", "outside", "break", "call")
ENDS = ("running", "exit 0", "exit not 0", *(f"trap {name}" for name in TRAPS))
TO_SEE = (*ENDS, "byte on the console", *noted.KINDS, "clash on the console", "interval kept", "interval rolled", "interval bounded")
CHECKED = b"coherence 0\n"
# What is no slack: an interleaving that is given has none.
ANY = 10**9


class Trial(NamedTuple):
    """A program and what it runs on."""

    config: dict
    code: bytes

    def machine(self):
        base = self.config["base"]
        return Machine(self.config, base, [(base, self.code)])

    def with_config(self, **more):
        return self._replace(config={**self.config, **more})

    def call(self, *words):
        options = [word for name, value in self.config.items() for word in (f"--{name}", str(value))]
        return call(["run", *options, *words], flat(self.config["base"], self.code))

    def setting(self, mode, slack):
        config = self.config
        lookahead = min(config["snoop"], config["transfer"])
        return noted.Setting(mode, config["cores"], slack, config["interval"], config["limit"], lookahead)

    def expect(self, report, text, *words):
        """A run puts out this text, with the status of this report."""
        ended = self.call(*words)
        if ended.said() != (noted.status_of(report), text, b""):
            raise Wrong(f"{' '.join(words)}: {ended}; not {text!r}")


def any_steps(rng, cores):
    """Some are of a core that isn't there."""
    for _ in range(rng.choice([0, 5, 40, 200])):
        kind = rng.choice("ttssp")
        yield kind, rng.randrange(cores + 1), rng.choice([1, 1, 2, 3, 8, 40]) if kind == "t" else rng.choice([1, 1, 2])


def steps_in_turn(rng, cores):
    """All cores go on in turn; then one runs to the end, and the others go on by themselves: so lines may break."""
    for _ in range(rng.randrange(60)):
        yield from (step for core in range(cores) for step in [("t", core, 1), ("s", core, 1), ("p", core, 1)])
    ahead = rng.randrange(cores)
    yield "t", ahead, 1000
    others = [core for core in range(cores) if core != ahead]
    for _ in range(rng.randrange(100)):
        yield from (step for core in others for step in [("t", core, 1), ("s", core, 1), ("p", core, 1)])


def steps_nearly_in_turn(rng, cores):
    """Cores go on in bursts; asks are served and posts are taken soon, but some cores take them late: so some overtake others
    that are not in their way."""
    late, burst = rng.sample(range(cores), rng.randrange(cores)), rng.choice([1, 2, 4, 8])
    for _ in range(rng.randrange(20, 120)):
        core = rng.randrange(cores)
        yield from (step for _ in range(rng.randrange(1, burst + 1)) for step in [("t", core, 1), ("s", core, 1)])
        for other in range(cores):
            if rng.random() < (0.2 if other in late else 0.9):
                yield "p", other, rng.choice([1, 2])


def random_steps(rng, cores):
    """Steps, as the command line has them and one by one."""
    items = list(rng.choice([any_steps, steps_in_turn, steps_nearly_in_turn])(rng, cores))
    text = ",".join(f"{kind}{core}x{count}" if count > 1 else f"{kind}{core}" for kind, core, count in items)
    return text, [(kind, core) for kind, core, count in items for _ in range(count)]


def end_of(core):
    if not core.end:
        return "running"
    if core.end[0] == "trap":
        return f"trap {core.end[1]}"
    return "exit not 0" if core.end[2] else "exit 0"


def see_machine(seen, machine):
    seen.update(end_of(core) for core in machine.cores)
    seen["byte on the console"] += bool(machine.console.data)


def see_notes(seen, notes, console):
    """Counts kinds of intervals and records; the console's channel comes after the buses."""
    for note in notes.intervals:
        seen[f"interval {note.kind}"] += 1
        seen.update(note.counts)
        seen["clash on the console"] += sum(line.startswith(b"bus channel %d " % console) for line in note.records)


def compare_lockstep(trial, seen):
    machine = trial.machine()
    machine.run()
    report = machine.report()
    trial.expect(report, report + CHECKED, "--check", "on")
    trial.expect(report, machine.dump(), "--format", "dump")
    see_machine(seen, machine)


def require_exact(trial, machine):
    """The machine of the model ended as it does cycle by cycle."""
    exact = trial.machine()
    while exact.clock < machine.clock:
        exact.cycle()
    if (exact.report(), exact.dump()) != (machine.report(), machine.dump()):
        raise Wrong(f"nothing is recorded of a drift that ended otherwise than lockstep: {machine.report()!r}, not {exact.report()!r}")


def compare_drift(trial, seen, machine, text, mode, *words):
    """A drift that the words give."""
    notes, report = noted.read(text.encode()), machine.report()
    noted.check(notes, trial.setting(mode, ANY), machine.clock)
    if not notes.records():
        require_exact(trial, machine)
    trial.expect(report, report + machine.coherence() + text.encode(), "--mode", mode, *words, "--notes", "on", "--check", "on")
    see_machine(seen, machine)
    see_notes(seen, notes, len(machine.buses))


def compare_script(rng, trial, seen):
    """Mostly two cores, and one interval that ends before they do: so one may run ahead, and lines may break."""
    limit = rng.choice([rng.randrange(20, 300), rng.randrange(20, 300), 3000])
    cores = rng.choice([2, 2, 2, trial.config["cores"]])
    # A run of given steps is of one interval, so its limit is the lesser of both.
    limit = min(limit, rng.choice([20, 100, limit, limit]))
    trial = trial.with_config(cores=cores, interval=limit, limit=limit)
    text, steps = random_steps(rng, cores)
    machine = trial.machine()
    compare_drift(trial, seen, machine, script(machine, steps), "script", *(["--steps", text] if text else []))


def compare_quantum(rng, trial, seen):
    trial = trial.with_config(interval=rng.choice([7, 100, 1000]), limit=rng.choice([500, 1500]))
    cycles = rng.choice([1, 2, 3, 5, 16, 64, 200])
    machine = trial.machine()
    compare_drift(trial, seen, machine, quantum(machine, cycles), "quantum", "--quantum", str(cycles))


def threaded(rng, trial):
    """A trial whose runs by threads don't take long, and its slack."""
    interval = rng.choice([10, 100, 1000])
    trial = trial.with_config(interval=interval, limit=min(20 * interval, 1500))
    return trial, rng.choice([1, 1, 2, 8, 64, 1000])


def compare_speculative(rng, trial, seen):
    """Whatever the drifts were, the report and the memory are those of a run cycle by cycle, and so the intervals too."""
    trial, slack = threaded(rng, trial)
    machine = trial.machine()
    machine.run()
    words, report = ["--mode", "speculative", "--slack", str(slack)], machine.report()
    ended = trial.call(*words, "--check", "on", "--notes", "on")
    told, text = noted.divided(ended.out)
    if (ended.status, told, ended.err) != (noted.status_of(report), report + CHECKED, b""):
        raise Wrong(f"{' '.join(words)}: {ended}; not {report!r}")
    notes = noted.read(text)
    noted.check(notes, trial.setting("speculative", slack), machine.clock)
    see_notes(seen, notes, len(machine.buses))
    trial.expect(report, machine.dump(), *words, "--format", "dump")


def compare_bounded(rng, trial, seen):
    """A drift is the threads' own; but where nothing is recorded of any it ended as a run cycle by cycle."""
    trial, slack = threaded(rng, trial)
    words = ["--mode", "bounded", "--slack", str(slack)]
    ended = trial.call(*words, "--check", "on", "--notes", "on")
    told, text = noted.divided(ended.out)
    if ended.status != noted.status_of(told) or ended.err:
        raise Wrong(f"{' '.join(words)}: {ended}")
    notes, setting = noted.read(text), trial.setting("bounded", slack)
    noted.check(notes, setting, noted.checkpoint(told, setting))
    see_notes(seen, notes, trial.config["buses"])
    if not notes.records():
        machine = trial.machine()
        machine.run()
        if told != machine.report() + CHECKED:
            raise Wrong(f"{' '.join(words)}: {ended}; nothing is recorded, and it isn't {machine.report()!r}")


def compare(rng, seen):
    """A random program, in each mode."""
    config = random_config(rng)
    trial = Trial(config, random_code(rng, config["base"]))
    try:
        compare_lockstep(trial, seen)
        compare_script(rng, trial, seen)
        compare_quantum(rng, trial, seen)
        compare_speculative(rng, trial, seen)
        compare_bounded(rng, trial, seen)
    except Wrong as wrong:
        raise Wrong(f"{wrong}\n{config} {trial.code.hex()}") from wrong


def require_all(seen):
    missed = [name for name in TO_SEE if not seen[name]]
    if missed:
        raise Wrong(f"never met: {', '.join(missed)}")


def main():
    count, rng = argument(1, 200), random.Random(argument(2, 1))
    seen, differences = collections.Counter(), 0
    for _ in range(count):
        try:
            compare(rng, seen)
        except Wrong as wrong:
            differences += 1
            print(f"differs: {wrong}")
    print(f"{count} programs, {differences} differences; met: {', '.join(f'{name} {seen[name]}' for name in TO_SEE)}")
    require_all(seen)
    sys.exit(differences > 0)


if __name__ == "__main__":
    run_script(main)
