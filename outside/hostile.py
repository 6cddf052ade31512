#!/usr/bin/env python3
"""Feeds the program, as it was last built, words and inputs that are nearly right: changed images and texts, random programs,
random bytes, and options one of which may have a fault.

    python3 outside/hostile.py [MINUTES] [SEED]

Each run ends with a status from 0 to 7 within a minute and within 128 MB, standard error has one line where the status says
so and none else, nothing is written where the input or the words are refused, and the status is that of the report, if that is a
text. A run that doesn't end is killed, and counts as a fault. It fails where in some mode, or by some command, no run was
accepted.
"""

import collections
import random
import struct

import notes as noted
from program import EXAMPLES, NO_MEMORY, REPORTS, Status, Wrong, argument, call, rounds, script
from programs import flat, random_code

IMAGES = [path.read_bytes() for pattern in ("*.slk1", "*.elf", "c/*.elf") for path in sorted(EXAMPLES.glob(pattern))]
TEXTS = [path.read_bytes() for path in sorted(EXAMPLES.glob("*.s"))]
KILOBYTES = 128 * 1024
# How a line of standard error begins, by the status.
BEGINNINGS = {
    Status.WORDS: b"slacksim: words",
    Status.INPUT: b"slacksim: ",
    Status.READ: b"slacksim: read fault",
    Status.WRITE: b"slacksim: write fault",
    Status.MEMORY: b"slacksim: out of memory",
}
SILENT = (Status.WORDS, Status.INPUT, Status.READ, Status.MEMORY)
COMMANDS = ["run"] * 12 + ["gen"] * 4 + ["asm", "asm", "list", "pack"]
# Values of each option that are within its bounds, whatever the other options are.
MACHINE = {
    "cores": [1, 2, 2, 3, 4, 4, 8, 16],
    "sets": [1, 2, 16, 64],
    "ways": [1, 2, 8],
    "buses": [1, 2, 4],
    "snoop": [1, 2, 3],
    "memory-delay": [4, 10, 64],
    "transfer": [1, 3, 64],
    "occupancy": [1, 2, 64],
    "format": ["text", "text", "json", "dump"],
    "notes": ["on", "on", "off"],
    "check": ["on", "off"],
}
PLACE = {"base": [0, 0, 0, 4096, 65536], "memory": [131072, 262144, 1048576, 16777216]}
OPTIONS = {
    "run": {**MACHINE, **PLACE},
    "gen": {**MACHINE, **PLACE, "seed": [0, 1, 7, 4294967295]},
    "list": PLACE,
    "pack": PLACE,
    "asm": {"base": PLACE["base"]},
}
MODES = {
    "lockstep": {},
    "quantum": {"quantum": [0, 1, 2, 3, 16, 200]},
    "bounded": {"slack": [1, 2, 3, 8, 64, 1000]},
    "speculative": {"slack": [1, 2, 3, 8, 64, 1000]},
    "script": {"steps": ["t0", "t0x40", "t1x9,s1,t0x9,s0", "s0,p0,t0x3,s0,p0", "t15x99,s15,p15x2", "t0x99999,s1"]},
}
WRONG_NAMES = ["speed", "core", "cores ", "", "limits", "-", "mode"]
WRONG_VALUES = ["0", "5", "17", "65", "4097", "1000001", "4294967295", "4294967296", "99999999999", "-1", "+1", "0x1", "on ",
                "texts", "script", "t0,", "q0", "t0x0", "t0x100000", ""]


def changed(rng, data, spared=0):
    """The bytes with some behind so many of the first changed, or cut, or with some more behind."""
    data = bytearray(data)
    kind = rng.randrange(10)
    if kind == 0:
        return bytes(data[: rng.randrange(len(data) + 1)])
    if kind == 1:
        return bytes(data) + rng.randbytes(rng.randrange(64))
    for _ in range(rng.choice([1, 1, 2, 8])):
        if len(data) > spared:
            data[rng.randrange(spared, len(data))] = rng.choice([0, 1, 0x7F, 0x80, 0xFF, rng.randrange(256)])
    return bytes(data)


def random_header(rng):
    base, length = rng.choice([0, 4096, 2**32 - 4]), rng.choice([0, 4, 12, 2**32 - 1])
    return b"SLK1" + struct.pack("<III", base, rng.choice([base, base + 2, 0]), length) + rng.randbytes(rng.choice([0, 12, 400]))


def random_image(rng):
    """Mostly code that is near to a program's, behind a header that is right."""
    kind = rng.randrange(20)
    if kind < 8:
        return flat(0, random_code(rng, 0))
    if kind < 12:
        return flat(0, changed(rng, random_code(rng, 0)))
    if kind < 16:
        return changed(rng, rng.choice(IMAGES), 16)
    if kind < 18:
        return changed(rng, rng.choice(IMAGES))
    if kind < 19:
        return random_header(rng)
    return rng.choice([b"", b"SLK1", b"SLK2", b"\x7fELF"]) + rng.randbytes(rng.randrange(200))


def random_input(rng, command):
    if command == "gen":
        return b""
    if command == "asm":
        return changed(rng, rng.choice(TEXTS)) if rng.randrange(4) else rng.choice(TEXTS)
    return random_image(rng)


def pairs_of(rng, options):
    """Some of these options, each with a value."""
    return [(name, rng.choice(options[name])) for name in rng.sample(sorted(options), rng.randrange(min(4, len(options)) + 1))]


def end_of_run(rng, mode):
    """A limit and an interval such that no run takes long: each interval of a drift by threads starts some."""
    if mode in ("bounded", "speculative"):
        return [("limit", rng.choice([1, 100, 300])), ("interval", rng.choice([50, 100, 1000]))]
    return [("limit", rng.choice([1, 100, 3000])), ("interval", rng.choice([1, 100, 1000]))]


def right_pairs(rng, command):
    """Options that the command takes: a mode with its own option in half of the runs."""
    pairs = pairs_of(rng, OPTIONS[command])
    if command in ("run", "gen"):
        modes = [mode for mode in MODES if mode != "script" or command == "run"]
        mode = rng.choice(modes) if rng.randrange(2) else None
        if mode:
            pairs += [("mode", mode), *((name, rng.choice(values)) for name, values in MODES[mode].items())]
        pairs += end_of_run(rng, mode)
    rng.shuffle(pairs)
    return pairs


def with_fault(rng, words):
    """The words with a fault in one of them."""
    kind, place = rng.randrange(6), rng.randrange(len(words))
    if kind == 0:
        return [*words[:place], *words[place + 1 :]]
    if kind == 1:
        return [*words, *words[1:3]]
    if kind == 2:
        return [*words[:place], rng.choice(["walk", "", "run", "--", "0"]), *words[place + 1 :]]
    if kind == 3:
        return [*words, "--" + rng.choice(WRONG_NAMES), rng.choice(WRONG_VALUES)]
    values = range(2, len(words), 2)
    place = rng.choice(values) if values else 0
    return [*words[:place], rng.choice(WRONG_VALUES), *words[place + 1 :]]


def random_call(rng):
    command = rng.choice(COMMANDS)
    words = [command, *(word for name, value in right_pairs(rng, command) for word in (f"--{name}", str(value)))]
    return with_fault(rng, words) if rng.randrange(5) == 0 else words, random_input(rng, command)


def value_of(words, name, default):
    return words[words.index(name) + 1] if name in words else default


def fault(words, ended):
    """What is wrong with how a run ended, if anything is."""
    if ended.hung or ended.status not in list(Status):
        return "no status of the program's"
    beginning = BEGINNINGS.get(ended.status)
    has_line = beginning and ended.err.startswith(beginning) and ended.err.count(b"\n") == 1
    if not has_line and ended.err != (NO_MEMORY if beginning else b""):
        return "another line on standard error"
    if ended.status in SILENT and ended.out:
        return "something is written"
    is_report = ended.status in REPORTS and words[0] in ("run", "gen") and value_of(words, "--format", "text") == "text"
    if is_report and ended.status != noted.status_of(ended.out):
        return "another status than the report's"
    if ended.kilobytes > KILOBYTES:
        return f"it took {ended.kilobytes} KB"
    return None


def see(seen, words, ended):
    """Counts the run by its status, and by its command and mode where it was accepted."""
    seen[f"status {ended.status}"] += 1
    if ended.status in REPORTS:
        mode = value_of(words, "--mode", "lockstep") if words[0] in ("run", "gen") else ""
        seen[f"{words[0]} {mode}".rstrip()] += 1


def try_all(rng, numbers):
    """One run for each number; counts of what was met, and the kilobytes and the seconds that one took at most."""
    seen, kilobytes, seconds = collections.Counter(), 0, 0.0
    for _ in numbers:
        words, data = random_call(rng)
        ended = call(words, data)
        wrong = fault(words, ended)
        if wrong:
            raise Wrong(f"{wrong}: {words} {data.hex()}: {ended}")
        see(seen, words, ended)
        kilobytes, seconds = max(kilobytes, ended.kilobytes), max(seconds, ended.seconds)
    return seen, kilobytes, seconds


def require_all(seen):
    accepted = [f"run {mode}" for mode in MODES] + [f"gen {mode}" for mode in MODES if mode != "script"] + ["asm", "list", "pack"]
    missed = [name for name in accepted if not seen[name]]
    if missed:
        raise Wrong(f"never accepted: {', '.join(missed)}")


def main():
    seen, kilobytes, seconds = try_all(random.Random(argument(2, 1)), rounds(argument(1, 1.0)))
    print(", ".join(f"{name}: {seen[name]}" for name in sorted(seen)))
    print(f"at most {kilobytes} KB and {seconds:.1f} seconds")
    require_all(seen)


if __name__ == "__main__":
    script(main)
