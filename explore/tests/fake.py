"""A small program in the place of the simulator: it takes a few of its words, and the image says how a run ends.

An image is FAKE and lines of words: `trap ways=4` traps the last core where the point has these words, and so do `limit`,
`code`, `memory` and `kill`, for what the words say; `log FILE` notes each call, `delay SECONDS` makes a run last, and
`parent FILE N` kills the caller in the N-th run, and `change FILE ways=4` adds a comment to this program.
"""

import json
import os
import signal
import sys
import time
from typing import NoReturn

NUMBERS = {"cores": (1, 1, 8), "ways": (4, 1, 8), "snoop": (2, 1, 63), "memory_delay": (10, 1, 64), "limit": (1000000, 1, 100000000), "seed": (1, 0, 9)}


def end(status: int, fault: str = "") -> NoReturn:
    if fault:
        sys.stderr.write(f"slacksim: {fault}\n")
    sys.exit(status)


def options_of(words: list[str]) -> tuple[dict[str, int], list[str]]:
    given: dict[str, str] = {}
    for place in range(1, len(words), 2):
        name, value = words[place].removeprefix("--").replace("-", "_"), words[place + 1]
        if name not in (*NUMBERS, "format", "notes") or (name == "seed") > (words[0] == "gen"):
            end(2, f"words: option at {place}")
        if name in given:
            end(2, f"words: twice at {place}")
        if name in NUMBERS and not value.isdecimal():
            end(2, f"words: number at {place + 1}")
        given[name] = value
    options = {name: int(given.get(name, default)) for name, (default, _, _) in NUMBERS.items()}
    for name, (_, least, most) in NUMBERS.items():
        if not least <= options[name] <= most or name == "memory_delay" and options[name] <= options["snoop"]:
            end(2, f"words: bound {name} given {options[name]}")
    return options, [f"{name}={value}" for name, value in given.items()]


def count(path: str, words: list[str]) -> int:
    """Notes a call, and says how many runs were noted before it."""
    with open(path, "a+") as log:
        log.seek(0)
        before = sum(not it.rstrip().endswith("--limit 1") for it in log)
        log.write(" ".join(words) + "\n")
    return before


def report(options: dict[str, int], ends: list[tuple[str, int]]) -> None:
    cores = [
        {"accesses": 100 * (core + 1), "at": 9, "end": kind, "misses": 40 // options["ways"], "value": value}
        for core, (kind, value) in enumerate(ends)
    ]
    cycles = 1000 // options["cores"] + 100 // options["ways"] + options["memory_delay"]
    print(json.dumps({"buses": [{"asks": 7, "free": 3}], "console": "", "cores": cores, "cycles": cycles}))


def run(words: list[str], lines: list[list[str]]) -> NoReturn:
    options, given = options_of(words)
    ends, status = [("exit", 0)] * options["cores"], 0
    for kind, *rest in lines:
        if kind == "log":
            count(rest[0], words)
        elif options["limit"] == 1:
            continue
        elif kind == "delay":
            time.sleep(float(rest[0]))
        elif kind == "parent" and count(rest[0], words) + 1 == int(rest[1]):
            os.kill(os.getppid(), signal.SIGKILL)
        elif kind == "change" and set(rest[1:]) <= set(given):
            with open(rest[0], "a") as program:
                program.write("# changed\n")
        elif kind == "kill" and set(rest) <= set(given):
            os.kill(os.getpid(), signal.SIGKILL)
        elif kind == "memory" and set(rest) <= set(given):
            end(7, "out of memory")
        elif kind in ("trap", "limit", "code") and set(rest) <= set(given):
            ends[-1], status = {"trap": (("illegal", 12), 1), "limit": (("running", 0), 4), "code": (("exit", 46), 1)}[kind]
    if words[0] == "gen":
        print(f"gen {options['seed']} words 1005")
    report(options, ends)
    end(status)


def main() -> NoReturn:
    words = sys.argv[1:]
    if words[0] == "gen":
        run(words, [])
    data = sys.stdin.read()
    if words[0] == "asm":
        if "bad" in data:
            end(3, "text: line 1 mnemonic")
        print("FAKE " + data.strip())
        end(0)
    options_of(words)
    if not data.startswith("FAKE"):
        end(3, "image: magic" if len(data) > 3 else f"image: short {len(data)} of 4")
    run(words, [line.split() for line in data.splitlines()[1:] if line])


main()
