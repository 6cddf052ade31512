"""Random programs, and configurations to run them on."""

import struct

from model import DEFAULTS

# x2 is the end of the stack, x10 the core's number at first, x17 names a service. Beside these x4 and x8 hold addresses of data,
# and x3 the core's number.
REGISTERS = [0, 1, 2, 5, 6, 7, 9, 10, 11, 17]
ALIGNED = [0, 4, 8, 12, 16, 20, 32, 48, 64, 80, -4, -16]
OFFSETS = [*10 * ALIGNED, 1, 2, 6]
OUTSIDE = 0xFFFFF
EBREAK, ECALL, FENCE = 0x00100073, 0x00000073, 0x0FF0000F
PUT, EXIT = 1, 93


def upper_word(opcode, rd, upper):
    return upper << 12 | rd << 7 | opcode


def immediate_word(opcode, funct3, rd, rs1, immediate):
    return (immediate & 0xFFF) << 20 | rs1 << 15 | funct3 << 12 | rd << 7 | opcode


def add_immediate(rd, rs1, immediate):
    return immediate_word(0x13, 0, rd, rs1, immediate)


def registers_word(rng, funct7, funct3):
    rs2, rs1, rd = (rng.choice(REGISTERS) for _ in range(3))
    return funct7 << 25 | rs2 << 20 | rs1 << 15 | funct3 << 12 | rd << 7 | 0x33


def load_word(rng):
    return immediate_word(0x03, rng.choice([0, 1, 2, 2, 2, 4, 5]), rng.choice(REGISTERS), 8, rng.choice(OFFSETS))


def store_word(rng):
    offset = rng.choice(OFFSETS) & 0xFFF
    kind = rng.choice([0, 1, 2, 2, 2])
    return (offset >> 5) << 25 | rng.choice(REGISTERS) << 20 | 8 << 15 | kind << 12 | (offset & 31) << 7 | 0x23


def atomic_word(rng, funct5, rs2):
    return funct5 << 27 | rs2 << 20 | rng.choice([8, 8, 4]) << 15 | 2 << 12 | rng.choice(REGISTERS) << 7 | 0x2F


def branch_word(kind, rs1, rs2, offset):
    upper = (offset >> 12 & 1) << 31 | (offset >> 5 & 63) << 25
    lower = (offset >> 1 & 15) << 8 | (offset >> 11 & 1) << 7
    return upper | rs2 << 20 | rs1 << 15 | kind << 12 | lower | 0x63


def some_branch(rng):
    offset = rng.choice([8, 8, 8, 12, 12, 16, -8, -16])
    return branch_word(rng.choice([0, 1, 4, 5, 6, 7]), rng.choice(REGISTERS), rng.choice(REGISTERS), offset)


def service(rng):
    """A call of a service, mostly that of the console, sometimes with another byte than the core's number."""
    number = rng.choice([PUT] * 19 + [EXIT])
    argument = [add_immediate(10, rng.choice(REGISTERS), rng.randrange(-2048, 2048))] if rng.randrange(2) else []
    return [*argument, add_immediate(17, 0, number), ECALL]


# What ends the core that comes to it, by a trap or by an exit.
ENDS = [
    lambda rng: [EBREAK],
    lambda rng: [rng.getrandbits(32)],
    lambda rng: [add_immediate(17, 0, rng.choice([0, 2, 92])), ECALL],
    lambda rng: [upper_word(0x37, 5, OUTSIDE), immediate_word(0x67, 0, 1, 5, rng.choice([0, 4]))],
    lambda rng: [upper_word(0x37, 5, OUTSIDE), immediate_word(0x03, 2, 6, 5, 0)],
    lambda rng: [immediate_word(0x67, 0, 1, 8, 2)],
    lambda rng: [immediate_word(0x03, 2, 6, 8, rng.choice([1, 2, 3]))],
    lambda rng: [add_immediate(10, 0, rng.randrange(-2048, 2048)), add_immediate(17, 0, EXIT), ECALL],
]


def fragment(rng):
    """One instruction, or a few that belong together."""
    kind = rng.randrange(216)
    if kind < 54:
        return [registers_word(rng, rng.choice([0, 0, 1, 1]), rng.randrange(8))]
    if kind < 74:
        rd, rs1 = rng.choice(REGISTERS), rng.choice(REGISTERS)
        return [immediate_word(0x13, rng.choice([0, 2, 3, 4, 6, 7]), rd, rs1, rng.choice(OFFSETS))]
    if kind < 116:
        return [load_word(rng)]
    if kind < 146:
        return [store_word(rng)]
    if kind < 156:
        return [atomic_word(rng, 2, 0)]
    if kind < 166:
        return [atomic_word(rng, 3, rng.choice(REGISTERS))]
    if kind < 178:
        return [atomic_word(rng, rng.choice([1, 0, 4, 12, 8, 16, 20, 24, 28]), rng.choice(REGISTERS))]
    if kind < 186:
        return [some_branch(rng)]
    if kind < 210:
        return service(rng)
    if kind < 214:
        return [rng.choice([FENCE, registers_word(rng, 0x20, rng.choice([0, 5]))])]
    return rng.choice(ENDS)(rng)


def ends(rng):
    """The first cores end in a way of their own each, and the others exit with 0."""
    words = []
    for end in rng.sample(ENDS, rng.randrange(len(ENDS) + 1)):
        own = end(rng)
        words += [add_immediate(3, 3, -1), branch_word(5, 3, 0, 4 * len(own) + 4), *own]
    return [*words, add_immediate(17, 0, EXIT), add_immediate(10, 0, 0), ECALL]


def random_code(rng, base):
    """A program at a base: it makes two addresses of data, does this and that, and ends."""
    data = (base + 0x4000) >> 12
    addresses = [upper_word(0x37, 8, data), upper_word(0x37, 4, data), add_immediate(4, 4, rng.choice([0, 4, 16, 32]))]
    body = [word for _ in range(rng.randrange(3, rng.choice([30, 120]))) for word in fragment(rng)]
    words = [*addresses, add_immediate(3, 10, 0), *body, *ends(rng)]
    return struct.pack(f"<{len(words)}I", *words)


def flat(base, code):
    """The flat file of a program that begins at its base."""
    return b"SLK1" + struct.pack("<III", base, base, len(code)) + code


def random_config(rng):
    snoop = rng.choice([1, 2, 5])
    return {
        **DEFAULTS,
        "cores": rng.randrange(1, 17),
        "base": rng.choice([0, 4096, 65536]),
        "memory": rng.choice([65536, 131072]),
        "sets": rng.choice([1, 1, 2, 4, 16, 64]),
        "ways": rng.choice([1, 1, 1, 2, 4, 8]),
        "buses": rng.choice([1, 2, 4]),
        "snoop": snoop,
        "memory-delay": snoop + rng.choice([1, 3, 12]),
        "transfer": rng.choice([1, 3, 9]),
        "occupancy": rng.choice([1, 2, 7]),
        "interval": rng.choice([1, 100, 1000]),
        "limit": rng.choice([3000, 5000]),
    }
