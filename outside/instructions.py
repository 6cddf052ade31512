"""The instructions of RV32IMA, read off the RISC-V Unprivileged ISA (20191213), for the model beside this file."""

WORD = 0xFFFFFFFF


class Illegal(Exception):
    """The word is no instruction."""


class BadTarget(Exception):
    """A jump or a taken branch goes to an address that is no multiple of 4."""


def signed(word):
    word &= WORD
    return word - (1 << 32) if word >> 31 else word


class Fields:
    """The fields of an instruction word."""

    def __init__(self, word):
        self.word = word
        self.opcode = word & 0x7F
        self.rd = word >> 7 & 31
        self.funct3 = word >> 12 & 7
        self.rs1 = word >> 15 & 31
        self.rs2 = word >> 20 & 31
        self.funct7 = word >> 25
        top = signed(word)
        self.i_imm = top >> 20
        self.s_imm = (top >> 25) << 5 | self.rd
        self.b_imm = (top >> 31) << 12 | (word >> 7 & 1) << 11 | (word >> 25 & 63) << 5 | (word >> 8 & 15) << 1
        self.j_imm = (top >> 31) << 20 | (word >> 12 & 255) << 12 | (word >> 20 & 1) << 11 | (word >> 21 & 1023) << 1
        self.u_imm = word & 0xFFFFF000


def target(address):
    if address % 4:
        raise BadTarget(address)
    return address


def immediate(f, a):
    """The result of an operation on a register and an immediate."""
    if f.funct3 == 1 and f.funct7 == 0:
        return a << f.rs2
    if f.funct3 == 5 and f.funct7 == 0:
        return a >> f.rs2
    if f.funct3 == 5 and f.funct7 == 0x20:
        return signed(a) >> f.rs2
    results = {
        0: a + f.i_imm,
        2: int(signed(a) < f.i_imm),
        3: int(a < f.i_imm & WORD),
        4: a ^ f.i_imm,
        6: a | f.i_imm,
        7: a & f.i_imm,
    }
    if f.funct3 not in results:
        raise Illegal
    return results[f.funct3]


def divide(a, b):
    """Quotient and remainder, toward zero; by zero all ones and the dividend."""
    if b == 0:
        return -1, a
    quotient = abs(a) // abs(b)
    if (a < 0) != (b < 0):
        quotient = -quotient
    return quotient, a - quotient * b


def product(f, a, b):
    """The result and the cost of an operation of the extension M."""
    if f.funct3 < 4:
        high = [a * b, signed(a) * signed(b) >> 32, signed(a) * b >> 32, a * b >> 32]
        return high[f.funct3], 3
    operands = (signed(a), signed(b)) if f.funct3 in (4, 6) else (a, b)
    quotient, remainder = divide(*operands)
    return (quotient if f.funct3 in (4, 5) else remainder), 16


def registers(f, a, b):
    """The result and the cost of an operation on two registers."""
    if f.funct7 == 1:
        return product(f, a, b)
    if f.funct7 == 0:
        return [
            a + b,
            a << (b & 31),
            int(signed(a) < signed(b)),
            int(a < b),
            a ^ b,
            a >> (b & 31),
            a | b,
            a & b,
        ][f.funct3], 1
    if f.funct7 == 0x20 and f.funct3 == 0:
        return a - b, 1
    if f.funct7 == 0x20 and f.funct3 == 5:
        return signed(a) >> (b & 31), 1
    raise Illegal


def is_taken(f, a, b):
    tests = {
        0: a == b,
        1: a != b,
        4: signed(a) < signed(b),
        5: signed(a) >= signed(b),
        6: a < b,
        7: a >= b,
    }
    if f.funct3 not in tests:
        raise Illegal
    return tests[f.funct3]


LOADS = {0: 1, 1: 2, 2: 4, 4: 1, 5: 2}
STORES = {0: 1, 1: 2, 2: 4}
AMOS = (1, 0, 4, 12, 8, 16, 20, 24, 28)


def access(f, a):
    """The kind, the address and the size of a memory access."""
    if f.opcode == 0x03 and f.funct3 in LOADS:
        return "load", (a + f.i_imm) & WORD, LOADS[f.funct3]
    if f.opcode == 0x23 and f.funct3 in STORES:
        return "store", (a + f.s_imm) & WORD, STORES[f.funct3]
    if f.opcode == 0x2F and f.funct3 == 2:
        funct5 = f.word >> 27
        if funct5 == 2 and f.rs2 == 0:
            return "lr", a, 4
        if funct5 == 3:
            return "sc", a, 4
        if funct5 in AMOS:
            return "amo", a, 4
    raise Illegal


def loaded(f, word, address):
    """What a load gives of the word."""
    part = word >> 8 * (address % 4)
    if f.funct3 in (0, 4):
        part &= 0xFF
        return part - 0x100 if f.funct3 == 0 and part & 0x80 else part
    if f.funct3 in (1, 5):
        part &= 0xFFFF
        return part - 0x10000 if f.funct3 == 1 and part & 0x8000 else part
    return part


def stored(f, word, address, value):
    """The word after a store."""
    mask = {0: 0xFF, 1: 0xFFFF, 2: WORD}[f.funct3]
    shift = 8 * (address % 4)
    return word & ~(mask << shift) | (value & mask) << shift


def swapped(f, old, value):
    """The word after an AMO."""
    return {
        1: value,
        0: old + value,
        4: old ^ value,
        12: old & value,
        8: old | value,
        16: min(old, value, key=signed),
        20: max(old, value, key=signed),
        24: min(old, value),
        28: max(old, value),
    }[f.word >> 27] & WORD
