#!/usr/bin/env python3
"""Compares how the program, as it was last built, reads and writes packed images with a reader of its own.

    python3 outside/formats.py [HOW MANY] [SEED]

For random packed files, with headers whose fields are at and beside their bounds, `pack` must write what is read here, or
refuse the file by the fault that is found here; what it wrote must be packed to itself, and have the same listing. The
examples, packed, must have the same reports as before.
"""

import random
import struct
import sys

from program import EXAMPLES, Status, argument, call, script

IMAGES = sorted([*EXAMPLES.glob("*.slk1"), *EXAMPLES.glob("*.elf"), *EXAMPLES.glob("c/*.elf")])
BASE, MEMORY = 8192, 4096


def packed(entry, segments):
    """The file of an image: its segments as (address, size, bytes)."""
    headers = b"".join(struct.pack("<III", address, len(data), size) for address, size, data in segments)
    return b"SLK2" + struct.pack("<II", entry, len(segments)) + headers + b"".join(data for _, _, data in segments)


def is_in_memory(address, size):
    return BASE <= address and address + size <= BASE + MEMORY


def read(file):
    """The entry and the segments, or the text of the first fault."""
    have = len(file)
    if have < 4:
        return f"short {have} of 4"
    if file[:4] != b"SLK2":
        return "magic"
    if have < 12:
        return f"short {have} of 12"
    entry, count = struct.unpack_from("<II", file, 4)
    if count > 64:
        return "segment 64"
    end = 12 + 12 * count
    if have < end:
        return f"short {have} of {end}"
    segments = []
    for index in range(count):
        address, length, size = struct.unpack_from("<III", file, 12 + 12 * index)
        if length > size:
            return f"segment {index}"
        end += length
        if have < end:
            return f"short {have} of {end}"
        if size == 0:
            continue
        if not is_in_memory(address, size):
            return f"outside {index}"
        for first, other, long in ((i, a, s) for i, a, s, _ in segments):
            if address < other + long and other < address + size:
                return f"overlap {first} {index}"
        segments.append((index, address, size, file[end - length:end]))
    if entry % 4 != 0 or not is_in_memory(entry, 1):
        return f"entry {entry}"
    return entry, [segment[1:] for segment in segments]


def number(rng, *near):
    return rng.choice([0, 1, 2**32 - 1, *(at + by for at in near for by in (-1, 0, 1) if at + by >= 0)])


def random_file(rng):
    """Mostly segments in a row, some of which are apart or empty; then one number or the length may be turned."""
    count = rng.choice([0, 1, 1, 2, 3, 5, 63, 64, 65])
    at, segments = BASE + rng.choice([0, 0, 4, 100]), []
    for _ in range(count):
        size = rng.choice([0, 1, 3, 4, 16, 40])
        segments.append((at, size, rng.randbytes(rng.randrange(size + 1))))
        at += size + rng.choice([0, 0, 0, 0, 0, 0, 1, 7, -1])
    rng.shuffle(segments)
    entry = rng.choice([BASE, BASE, BASE + 4, BASE + MEMORY - 4])
    file = bytearray(packed(entry, segments))
    if count and rng.random() < 0.4:
        place = 12 + 12 * rng.randrange(count) + 4 * rng.randrange(3)
        old = struct.unpack_from("<I", file, place)[0]
        struct.pack_into("<I", file, place, number(rng, BASE, BASE + MEMORY, old) % 2**32)
    if rng.random() < 0.2:
        struct.pack_into("<I", file, 4, number(rng, BASE, BASE + 2, BASE + MEMORY) % 2**32)
    if rng.random() < 0.1:
        struct.pack_into("<I", file, 8, number(rng, count, 64) % 2**32)
    if rng.random() < 0.3:
        file = file[:rng.choice([rng.randrange(13), rng.randrange(len(file) + 1)])]
    return bytes(file) + rng.randbytes(rng.choice([0, 0, 5]))


def said(words, data):
    return call(words, data).said()


def differs(file):
    place = ["--base", str(BASE), "--memory", str(MEMORY)]
    told = read(file)
    ended = said(["pack", *place], file)
    if isinstance(told, str):
        return ended != (Status.INPUT, b"", f"slacksim: image: {told}\n".encode())
    again = packed(*told)
    whole = (Status.DONE, again, b"")
    return ended != whole or said(["pack", *place], again) != whole or said(["list", *place], again) != said(["list", *place], file)


def example_differs(path):
    image = path.read_bytes()
    ended = call(["pack"], image)
    words = (["run"], ["run", "--cores", "2"], ["list"])
    return ended.status != Status.DONE or any(said(each, ended.out) != said(each, image) for each in words)


def main():
    count, rng = argument(1, 2000), random.Random(argument(2, 1))
    differences = refused = 0
    for _ in range(count):
        file = random_file(rng)
        refused += isinstance(read(file), str)
        if differs(file):
            differences += 1
            print(f"differs: {file.hex()}: {read(file)}")
    for path in IMAGES:
        if example_differs(path):
            differences += 1
            print(f"differs: {path.name}")
    print(f"{count} files, {refused} of them refused, and {len(IMAGES)} examples: {differences} differences")
    sys.exit(differences > 0)


if __name__ == "__main__":
    script(main)
