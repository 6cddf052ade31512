"""What a report says of how the run ended, and what must be so of the notes behind it, whatever the drifts were."""

import re
from typing import NamedTuple

from program import Status, Wrong

KINDS = ("bus", "map", "line", "reply")
NOTE = re.compile(rb"interval (\d+) (kept|rolled|bounded) (\d+)(?: bus (\d+) map (\d+) line (\d+) reply (\d+))?")
TICKS = re.compile(rb"ticks drift (\d+) replay (\d+)")
OVERTAKEN = re.compile(rb"(bus channel|map line) (\d+) high (\d+)\.(\d+)\.(\d+) low (\d+)\.(\d+)\.(\d+)")
LATE = re.compile(rb"(line|reply) core (\d+) id (\d+)\.(\d+)\.(\d+) due (\d+) clock (\d+)")


class Setting(NamedTuple):
    """What the words of a run say of its notes."""

    mode: str
    cores: int
    slack: int
    interval: int
    limit: int
    lookahead: int = 2  # the lesser of --snoop and --transfer: no post is due sooner


class Note(NamedTuple):
    number: int
    kind: str
    start: int
    cycles: int
    counts: dict
    records: list


class Notes(NamedTuple):
    intervals: list
    drift: int
    replay: int

    def rolled(self):
        return sum(note.kind == "rolled" for note in self.intervals)

    def records(self):
        return sum(len(note.records) for note in self.intervals)


def status_of(report):
    """The exit status that a report in text has; none where it is no report."""
    cores = re.search(rb"^cores (\d+)$", report, re.M)
    if not cores:
        return None
    if re.search(rb"^core \d+ running ", report, re.M):
        return Status.LIMIT
    exits = len(re.findall(rb"^core \d+ exit 0 at ", report, re.M))
    return Status.DONE if exits == int(cores[1]) else Status.OTHER_END


def checkpoint(report, setting):
    """The checkpoint at which a run stopped: the first at which all cores had ended, or the limit."""
    if status_of(report) == Status.LIMIT:
        return setting.limit
    ended = int(re.search(rb"^cycles (\d+)$", report, re.M)[1])
    return min(-(-ended // setting.interval) * setting.interval, setting.limit)


def divided(text):
    """The report and what stands between it and the notes, and the notes: these begin behind the bytes of the console, which
    may hold anything."""
    start = text.rfind(b"\ninterval 0 ") + 1
    if not start:
        raise Wrong(f"no notes in {text!r}")
    return text[:start], text[start:]


def read(text):
    """The notes of a text that has nothing else."""
    *lines, last = text.splitlines()
    intervals, start = [], 0
    for line in lines:
        found = NOTE.fullmatch(line)
        if found:
            number, kind, cycles, *counts = found.groups()
            counts = {name: int(count or 0) for name, count in zip(KINDS, counts)}
            intervals.append(Note(int(number), kind.decode(), start, int(cycles), counts, []))
            start += int(cycles)
        elif intervals:
            intervals[-1].records.append(line)
    ticks = TICKS.fullmatch(last)
    if not ticks:
        raise Wrong(f"no ticks in {text!r}")
    return Notes(intervals, *map(int, ticks.groups()))


def record_kind(note, line, cores):
    """The kind of a record; it tells of asks and posts of the interval, one of which came too late."""
    first, end = note.start, note.start + note.cycles
    if found := OVERTAKEN.fullmatch(line):
        high, low = ([int(part) for part in found.groups()[at : at + 3]] for at in (2, 5))
        holds = high > low and all(first <= cycle < end and core < cores for cycle, core, _ in (high, low))
        kind = found[1].split()[0].decode()
    elif found := LATE.fullmatch(line):
        core, cycle, sender, _, due, clock = map(int, found.groups()[1:])
        holds = core < cores and sender < cores and first <= cycle < due < clock <= end
        kind = found[1].decode()
    else:
        holds = False
    if not holds:
        raise Wrong(f"{line!r} in interval {note.number} of {cores} cores from {first} to {end}")
    return kind


def check_note(note, number, setting):
    """One interval: it is of the mode, as long as an interval is, and has as many records of each kind as it counts."""
    kinds = ("kept", "rolled") if setting.mode == "speculative" else ("bounded",)
    if note.kind not in kinds or note.number != number or note.cycles != min(setting.interval, setting.limit - note.start):
        raise Wrong(f"interval {number}: {note}")
    found = [record_kind(note, line, setting.cores) for line in note.records]
    if any(found.count(kind) != note.counts[kind] for kind in KINDS):
        raise Wrong(f"other records than are counted: {note}")
    if (note.kind == "rolled") > bool(found) or (note.kind == "kept") > (not found):
        raise Wrong(f"it has {len(found)} records: {note}")
    # A core is ahead of the slowest by no more than the slack, and what that sends is due after the lookahead.
    if setting.slack <= setting.lookahead and (note.counts["line"] or note.counts["reply"]):
        raise Wrong(f"a post was late within the lookahead: {note}")


def check(notes, setting, end):
    """The notes of a run that stopped at a checkpoint: its intervals come to that, and its ticks are theirs."""
    for number, note in enumerate(notes.intervals):
        check_note(note, number, setting)
    cycles = sum(note.cycles for note in notes.intervals)
    again = sum(note.cycles for note in notes.intervals if note.kind == "rolled")
    if cycles != end or (notes.drift, notes.replay) != (setting.cores * cycles, setting.cores * again):
        raise Wrong(f"{cycles} cycles to {end}, ticks {notes.drift} and {notes.replay}, {again} again")
