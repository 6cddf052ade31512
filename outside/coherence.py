#!/usr/bin/env python3
"""Asks the program, as it was last built, for broken lines (`--check on`) at the end of the examples and of generated programs,
in each mode.

    python3 outside/coherence.py [SEEDS]

Cycle by cycle, in speculative mode and in exact pieces there is none; else the lines that follow are as many as the first
one says. compare.py beside this file compares them with the model's.
"""

import itertools
import sys

from program import EXAMPLES, argument, call, example, script

NAMES = [path.relative_to(EXAMPLES) for pattern in ("*.slk1", "*.elf", "c/*.elf", "*.s", "studies/*.s") for path in sorted(EXAMPLES.glob(pattern))]
EXACT = [["lockstep"], ["quantum"], *(["speculative", "--slack", str(slack)] for slack in (1, 8, 64, 1000))]
LOOSE = [["quantum", "--quantum", "64"], *(["bounded", "--slack", str(slack)] for slack in (1, 8, 64, 1000)), ["script", "--steps", "t0x400"]]
ENDS = [["--limit", "20000"], ["--limit", "150", "--interval", "50"], ["--limit", "60", "--interval", "60", "--sets", "1", "--ways", "1"]]


def programs(seeds):
    """The words before the mode, and the input."""
    yield from ((["run", "--cores", cores], image) for image in map(example, map(str, NAMES)) for cores in ("1", "2", "5", "16"))
    yield from ((["gen", "--seed", str(seed), "--cores", cores], b"") for seed in range(seeds) for cores in ("2", "7"))


def broken(text):
    """How many lines are said to be broken: none where there is no such line, or they aren't as many as it says."""
    lines = text[text.rindex(b"\ncoherence ") + 1:].splitlines() if b"\ncoherence " in text else [b"coherence none"]
    count = lines[0].removeprefix(b"coherence ")
    return int(count) if count == str(len(lines) - 1).encode() and all(line.startswith(b"broken line ") for line in lines[1:]) else None


def main():
    seeds = argument(1, 20)
    runs = wrong = with_broken = 0
    for (words, data), end, mode in itertools.product(programs(seeds), ENDS, EXACT + LOOSE):
        if words[0] == "gen" and mode[0] == "script":
            continue
        count = broken(call([*words, *end, "--check", "on", "--mode", *mode], data).out)
        runs += 1
        with_broken += bool(count)
        if count is None or count > 0 and mode in EXACT:
            wrong += 1
            print("wrong:", *words, *end, *mode)
    print(f"{runs} runs, {with_broken} with broken lines, {wrong} wrong")
    sys.exit(wrong > 0)


if __name__ == "__main__":
    script(main)
