#!/usr/bin/env python3
"""Makes of a module with a 64-bit memory and table one with 32-bit ones, which every browser runs.

usage: narrow.py IN.wasm OUT.wasm

Each address, which the code computes in 64 bits, is cut to 32 in front of the instruction that uses it. Nothing else is
changed. A memory of at most 2^32 bytes has no address from 2^32 on, so an access within the memory stays the same one.
An instruction, a section or a form of one that this doesn't know ends it with an error.
"""

import sys

I32, I64, F32, F64 = 0x7F, 0x7E, 0x7D, 0x7C
# Instructions that are put in: wrap and extend between 32 and 64 bits, and get and set of a local.
WRAP, EXTEND_SIGNED, EXTEND, GET, SET = b"\xa7", b"\xac", b"\xad", b"\x20", b"\x21"
LOADS = range(0x28, 0x36)
# Each store with the type of what it stores.
STORES = {0x36: I32, 0x37: I64, 0x38: F32, 0x39: F64, 0x3A: I32, 0x3B: I32, 0x3C: I64, 0x3D: I64, 0x3E: I64}
MEMORY_SIZE, MEMORY_GROW, CALL_INDIRECT, BRANCH_TABLE, SELECT, PREFIXED = 0x3F, 0x40, 0x11, 0x0E, 0x1C, 0xFC
MEMORY_COPY, MEMORY_FILL = 10, 11
# Instructions by what follows them: one number, bytes of a constant, or nothing.
ONE_NUMBER = {0x02, 0x03, 0x04, 0x0C, 0x0D, 0x10, 0x20, 0x21, 0x22, 0x23, 0x24, 0x41, 0x42, 0xD2}
BYTES = {0x43: 4, 0x44: 8, 0xD0: 1}
ALONE = {0x00, 0x01, 0x05, 0x0B, 0x0F, 0x1A, 0x1B, 0xD1, *range(0x45, 0xC5)}
# Sections by their numbers.
TYPES, IMPORTS, FUNCTIONS, TABLES, MEMORIES, EXPORTS, ELEMENTS, CODE, DATA = 1, 2, 3, 4, 5, 7, 9, 10, 11


def number(n):
    """The LEB128 form of a number."""
    out = bytearray()
    while n > 127:
        out.append(n & 127 | 128)
        n >>= 7
    out.append(n)
    return bytes(out)


def signed(n):
    """The signed LEB128 form of a number that isn't negative."""
    out = bytearray()
    while n > 63:
        out.append(n & 127 | 128)
        n >>= 7
    out.append(n)
    return bytes(out)


def in_range(n):
    if n >= 1 << 32:
        sys.exit(f"the offset {n} has more than 32 bits")
    return n


class Reader:
    """The bytes of a part of a module, from a place on."""

    def __init__(self, data, at=0):
        self.data, self.at = data, at

    def byte(self):
        self.at += 1
        return self.data[self.at - 1]

    def number(self):
        n, shift = 0, 0
        while True:
            byte = self.byte()
            n |= (byte & 127) << shift
            shift += 7
            if byte < 128:
                return n

    def numbers(self):
        """As many numbers as the first one says."""
        return [self.number() for _ in range(self.number())]

    def bytes(self, n):
        self.at += n
        return self.data[self.at - n : self.at]

    def skip_number(self):
        while self.byte() >= 128:
            pass


def limits(reader):
    """Reads limits, and returns them for 32 bits."""
    flags = reader.byte()
    if flags & ~5:
        sys.exit(f"limits with flags {flags}")
    low = reader.number()
    if not flags & 1:
        return b"\0" + number(low)
    return b"\1" + number(low) + number(min(reader.number(), 65536))


def start(reader):
    """Reads where a segment starts, as `i64.const N end`, and returns the same in 32 bits."""
    if reader.byte() != 0x42:
        sys.exit("a segment starts at no constant")
    n = in_range(reader.number())
    if n >= 1 << 31 or reader.byte() != 0x0B:
        sys.exit("a segment starts at no constant below 2^31")
    return b"\x41" + signed(n) + b"\x0b"


class Body:
    """A function's body, and the same for a 32-bit memory as far as it was read."""

    def __init__(self, data, params):
        self.reader = Reader(data)
        self.groups = [(self.reader.number(), self.reader.byte()) for _ in range(self.reader.number())]
        self.spare = params + sum(n for n, _ in self.groups)
        # The locals that are put in: what each is for, with its type.
        self.own = {}
        self.out, self.kept = bytearray(), self.reader.at

    def local(self, use, kind):
        """A local of the function's own, as a number."""
        self.own.setdefault(use, (len(self.own), kind))
        return number(self.spare + self.own[use][0])

    def copy(self, to=None):
        """Copies what was read and not copied yet, up to a place."""
        to = self.reader.at if to is None else to
        self.out += self.reader.data[self.kept : to]
        self.kept = to

    def narrowed(self):
        while self.reader.at < len(self.reader.data):
            self.instruction()
        self.copy()
        groups = self.groups + [(1, kind) for _, kind in self.own.values()]
        head = b"".join(number(n) + bytes([kind]) for n, kind in groups)
        return number(len(groups)) + head + bytes(self.out)

    def instruction(self):
        """Reads an instruction, and puts the cuts in front of it that it needs."""
        reader, first = self.reader, self.reader.at
        op = reader.byte()
        if op in LOADS or op in STORES:
            self.access(op, first)
        elif op == MEMORY_SIZE:
            reader.skip_number()
            self.copy()
            self.out += EXTEND
        elif op == MEMORY_GROW:
            self.copy(first)
            self.out += WRAP
            reader.skip_number()
            self.copy()
            self.out += EXTEND_SIGNED
        elif op == CALL_INDIRECT:
            self.copy(first)
            self.out += WRAP
            reader.skip_number()
            reader.skip_number()
        elif op == PREFIXED:
            self.prefixed(first)
        elif op in ONE_NUMBER:
            reader.skip_number()
        elif op == BRANCH_TABLE:
            for _ in range(reader.number() + 1):
                reader.skip_number()
        elif op == SELECT:
            reader.bytes(reader.number())
        elif op in BYTES:
            reader.bytes(BYTES[op])
        elif op not in ALONE:
            sys.exit(f"the instruction {op:02X}")

    def access(self, op, first):
        """A load or a store. What is stored lies above the address, and is put aside for the cut."""
        self.copy(first)
        if op in STORES:
            it = self.local(STORES[op], STORES[op])
            self.out += SET + it + WRAP + GET + it
        else:
            self.out += WRAP
        align, offset = self.reader.number(), self.reader.number()
        self.out += bytes([op]) + number(align) + number(in_range(offset))
        self.kept = self.reader.at

    def prefixed(self, first):
        """A copy or a fill, or a conversion of a float."""
        kind = self.reader.number()
        if kind in (MEMORY_COPY, MEMORY_FILL):
            self.copy(first)
            is_copy = kind == MEMORY_COPY
            middle, length = self.local(*((I64, I64) if is_copy else (I32, I32))), self.local("length", I64)
            self.out += SET + length + SET + middle + WRAP + GET + middle
            self.out += WRAP * is_copy + GET + length + WRAP
            for _ in range(2 if is_copy else 1):
                self.reader.skip_number()
        elif kind > 7:
            sys.exit(f"the instruction FC {kind}")


def segments(reader, contents):
    """Reads segments, and returns them with starts of 32 bits; `contents` reads what one holds."""
    n = reader.number()
    out = bytearray(number(n))
    for _ in range(n):
        if reader.number() != 0:
            sys.exit("a segment of another form")
        out += b"\0" + start(reader) + contents(reader)
    return bytes(out)


def listed(reader):
    numbers = reader.numbers()
    return number(len(numbers)) + b"".join(map(number, numbers))


def counted(reader):
    n = reader.number()
    return number(n) + reader.bytes(n)


def narrow(module):
    """A module for a 32-bit memory."""
    reader = Reader(module, 8)
    out, params, types = bytearray(module[:8]), [], []
    while reader.at < len(module):
        kind = reader.byte()
        data = counted_bytes(reader)
        section = Reader(data)
        if kind == TYPES:
            params = list(parameters(section))
        elif kind == IMPORTS and section.number() != 0:
            sys.exit("the module imports something")
        elif kind == FUNCTIONS:
            types = section.numbers()
        elif kind in (TABLES, MEMORIES):
            n = section.number()
            # A table has the type of its elements in front.
            data = number(n) + b"".join(section.bytes(int(kind == TABLES)) + limits(section) for _ in range(n))
        elif kind == ELEMENTS:
            data = segments(section, listed)
        elif kind == CODE:
            n = section.number()
            bodies = [Body(counted_bytes(section), params[types[i]]).narrowed() for i in range(n)]
            data = number(n) + b"".join(number(len(it)) + it for it in bodies)
        elif kind == DATA:
            data = segments(section, counted)
        out += bytes([kind]) + number(len(data)) + data
    return bytes(out)


def counted_bytes(reader):
    return reader.bytes(reader.number())


def parameters(reader):
    """How many parameters each type of a function has."""
    for _ in range(reader.number()):
        reader.byte()
        n = reader.number()
        reader.bytes(n)
        reader.bytes(reader.number())
        yield n


def main(source, target):
    with open(source, "rb") as file:
        made = narrow(file.read())
    with open(target, "wb") as file:
        file.write(made)


if __name__ == "__main__":
    main(*sys.argv[1:])
