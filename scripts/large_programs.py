#!/usr/bin/env python3
"""Writes programs of nearly 16 MiB of class files, the most that is taken, each of which is made of one thing alone and whose main returns at once.

    scripts/large_programs.py FOLDER

Each program is a folder of class files, of which M.class has the main. scripts/measure_memory runs each.
"""
import os
import sys
from itertools import count

from hostile_programs import NULL, POP, File
from hostile_shapes import PUBLIC_STATIC, RETURN, code, member, u2, u4

MOST_BYTES = 16_777_216
MOST_FILES = 4_096
LONGEST = 65_535
MOST_LOCALS = 2_048
MOST_HANDLERS = 1_024
MOST_OF_A_CLASS = 65_000
OBJECT = b"java/lang/Object"
NOP, ZERO, IF_NULL, CALL_STATIC, LOOKUP, LDC_WIDE, THROW = b"\0", b"\x03", b"\xc6", b"\xb8", b"\xab", b"\x13", b"\xbf"


class Large(File):
    """A class file that knows about how large it is, with a main where it is M."""

    def __init__(self, place):
        super().__init__(b"M" if place == 0 else b"C%d" % place)
        self.size = 200
        if place == 0:
            self.main()

    def static(self, name, array, **counts):
        made = member(PUBLIC_STATIC, self.pool.text(name), self.nothing, code(self.code_name, array, **counts))
        self.methods.append(made)
        self.size += len(made) + len(name) + 3


def filled(fill, size=MOST_BYTES // 4):
    """Files that are filled one by one, each to nearly so many bytes, as long as there is room."""
    left = MOST_BYTES
    for place in range(MOST_FILES):
        file = Large(place)
        fill(file, min(size, left) - 200)
        spelled = file.spelled()
        if len(spelled) > left or len(spelled) < size // 4:
            return
        yield file.name, spelled
        left -= len(spelled)


def methods_of(file, size, name, array, **counts):
    """Methods of this code, as many as find room."""
    for place in count():
        if file.size + len(array) + 60 > size or place == MOST_OF_A_CLASS:
            return
        file.static(b"%s%x" % (name, place), array, **counts)


def classes():
    """4,096 classes of 4 KiB, each with fields, texts that are loaded, and methods that call one another."""

    def fill(file, size):
        for place in range(8):
            file.fields.append(member(PUBLIC_STATIC, file.pool.text(b"field%d" % place), file.pool.text(b"I")))
        calls = file.pool.method(file.this_class, file.pool.pair(file.pool.text(b"method0"), file.nothing))
        text = file.pool.add(b"\x08" + u2(file.pool.text(b"a text of a usual length")))
        array = (CALL_STATIC + u2(calls) + LDC_WIDE + u2(text) + POP) * 10 + RETURN
        methods_of(file, size, b"method", array)

    return filled(fill, MOST_BYTES // MOST_FILES)


def small_methods():
    """Methods that return, as many as find room."""
    return filled(lambda file, size: methods_of(file, size, b"m", RETURN), 2_400_000)


def long_methods():
    """Methods of 65,535 instructions that do nothing."""
    return filled(lambda file, size: methods_of(file, size, b"m", NOP * (LONGEST - 1) + RETURN))


def many_locals():
    """The same, of which the first has 2,048 locals, whose kinds the checker keeps for each instruction."""
    array = NOP * (LONGEST - 1) + RETURN

    def fill(file, size):
        if file.name == b"M":
            file.static(b"w", array, max_locals=MOST_LOCALS)
        methods_of(file, size, b"m", array)

    return filled(fill)


def branches():
    """Long methods of jumps that each end a block."""
    array = (NULL + IF_NULL + u2(3)) * 16_383 + RETURN
    return filled(lambda file, size: methods_of(file, size, b"m", array))


def switches():
    """Long methods of one lookupswitch with 8,000 cases."""
    cases = 8_000
    end = u4(8 * cases + 11)
    array = ZERO + LOOKUP + b"\0\0" + end + u4(cases) + b"".join(u4(case) + end for case in range(cases)) + RETURN
    return filled(lambda file, size: methods_of(file, size, b"m", array))


def handlers():
    """Small methods with 1,024 entries in their exception tables."""
    table = u2(MOST_HANDLERS) + (u2(0) + u2(1) + u2(2) + u2(0)) * MOST_HANDLERS
    array = NOP + RETURN + THROW
    return filled(lambda file, size: methods_of(file, size - 8 * MOST_HANDLERS, b"m", array, handlers=table))


def texts(length, most):
    """Texts of this length that are loaded, each once."""

    def fill(file, size):
        loads = b""
        for place in range(min(most, (size - 300) // (length + 14))):
            text = file.pool.add(b"\x08" + u2(file.pool.text(b"%0*x" % (length, place))))
            loads += LDC_WIDE + u2(text) + POP
        for start in range(0, len(loads), LONGEST // 4 * 4):
            file.static(b"m%d" % start, loads[start : start + LONGEST // 4 * 4 - 4] + RETURN)

    return filled(fill, min(MOST_BYTES // 4, most * (length + 14)))


def short_texts():
    """Texts of five characters, each loaded once."""
    return texts(5, 32_000)


def long_texts():
    """Texts of 250 characters, each loaded once."""
    return texts(250, 32_000)


def entries():
    """Entries that name one class, of three bytes each."""

    def fill(file, size):
        name = file.pool.text(OBJECT)
        for _ in range(MOST_OF_A_CLASS):
            file.pool.add(b"\x07" + u2(name))

    return filled(fill, 3 * MOST_OF_A_CLASS)


def fields():
    """Static fields, as many as find room."""

    def fill(file, size):
        kind = file.pool.text(b"I")
        for place in range(min(MOST_OF_A_CLASS, (size - 300) // 16)):
            file.fields.append(member(PUBLIC_STATIC, file.pool.text(b"%x" % place), kind))

    return filled(fill, 16 * MOST_OF_A_CLASS)


PROGRAMS = [classes, small_methods, long_methods, many_locals, branches, switches, handlers, short_texts, long_texts, entries, fields]


def write(program, folder):
    """Writes such a program into a folder, and tells its files."""
    os.makedirs(folder, exist_ok=True)
    paths = []
    for name, spelled in program():
        paths.append(os.path.join(folder, name.decode() + ".class"))
        with open(paths[-1], "wb") as out:
            out.write(spelled)
    return paths


if __name__ == "__main__":
    for each in PROGRAMS:
        write(each, os.path.join(sys.argv[1], each.__name__))
