#!/usr/bin/env python3
"""Writes programs of one method that is long, or hostile to a stack checker: paths that lead back and let what is known of
the local variables rise step by step; or in which much is freed.

    scripts/hostile_methods.py FOLDER

Each program is a folder of class files, of which M.class has the main. scripts/measure times `freeme` on each.
"""
import os
import sys

from hostile_shapes import Pool, class_file, code, member, u2

LONGEST = 65_535
ENTRIES = 1_024
PUBLIC_STATIC = 0x0009
NOP, NULL, ZERO, POP, RETURN = b"\0", b"\x01", b"\x03", b"\x57", b"\xb1"
LOAD_ARGUMENTS, CAST, IF_NULL, GO_TO, STORE_INT, STORE = b"\x2a", b"\xc0", b"\xc6", b"\xa7", b"\x36", b"\x3a"
WIDE_LOAD, WIDE_STORE = b"\xc4\x19", b"\xc4\x3a"
NEW_INTS = b"\xbc\x0a"


def program(max_locals, array, chain=0, max_stack=1, handlers=b"\0\0"):
    """M with a main of this code, and a chain of classes, the lowest one first, of which class c is entry 9 + 2c of M's pool."""
    names = [b"C%d" % place for place in range(chain)]
    files = [(b"M", b"java/lang/Object")] + list(zip(names, names[1:] + [b"java/lang/Object"]))
    for name, superclass in files:
        pool = Pool()
        this_class, above = pool.class_named(name), pool.class_named(superclass)
        methods = []
        if name == b"M":
            main, arguments, code_name = pool.text(b"main"), pool.text(b"([Ljava/lang/String;)V"), pool.text(b"Code")
            for other in names:
                pool.class_named(other)
            methods = [member(PUBLIC_STATIC, main, arguments, code(code_name, array, max_stack, max_locals, handlers))]
        yield name, class_file(pool, this_class, above, methods)


def straight():
    """64 KiB of code without a branch that writes 99 locals."""
    pieces = [ZERO + STORE_INT + bytes([1 + place % 99]) for place in range((LONGEST - 1) // 3)]
    return program(100, b"".join(pieces) + RETURN)


def nops():
    """65,535 instructions, of which all but the last do nothing, and 1 local."""
    return program(1, NOP * (LONGEST - 1) + RETURN)


def wide():
    """The same with 200 locals."""
    return program(200, NOP * (LONGEST - 1) + RETURN)


def forgetting():
    """4,500 paths back to one place, each with a null in another of 99 locals than the last."""
    array = NOP
    for place in range(4_500):
        array += NULL + STORE + bytes([1 + place % 99]) + LOAD_ARGUMENTS + IF_NULL + u2((1 - len(array) - 4) % 65_536)
    return program(100, array + RETURN)


def moved(last, chain, filled):
    """A loop that moves each of so many locals into the next one, entered with each class of a chain in the first local. Where it
    is filled, each turn puts all of them on the stack before, and takes them off."""
    array = b"".join(NULL + WIDE_STORE + u2(local) for local in range(1, last + 1)) + NOP
    head = len(array) - 1
    if filled:
        array += b"".join(WIDE_LOAD + u2(local) for local in range(1, last + 1)) + POP * last
    for local in range(last, 1, -1):
        array += WIDE_LOAD + u2(local - 1) + WIDE_STORE + u2(local)
    for place in range(chain):
        there = len(array) + 15
        array += LOAD_ARGUMENTS + IF_NULL + u2(14) + NULL + CAST + u2(9 + 2 * place) + WIDE_STORE + u2(1)
        array += GO_TO + u2((head - (there - 3)) % 65_536)
    return program(last + 1, array + GO_TO + u2((head - len(array)) % 65_536), chain, last if filled else 1)


def shifting():
    """A loop that moves each of 100 locals into the next one, entered with 30 classes of a chain in the first local."""
    return moved(100, 30, False)


def refilling():
    """The same of 400 locals and 20 classes, that puts all of them on the stack in each turn."""
    return moved(400, 20, True)


def climbing():
    """The same of 300 locals and 300 classes, without the stack."""
    return moved(300, 300, False)


def guarded(items, locals_count, span_of):
    """So many nops with so many locals, under 1,024 entries of the exception table with handlers of their own, each over its span."""
    entries = b""
    for place in range(ENTRIES):
        start, end = span_of(place)
        entries += u2(start) + u2(end) + u2(items + 1 + 2 * place) + u2(0)
    return program(locals_count, NOP * items + RETURN + (POP + RETURN) * ENTRIES, handlers=u2(ENTRIES) + entries)


def covered():
    """60,000 items with 200 locals, all of them under each of 1,024 entries."""
    return guarded(60_000, 200, lambda place: (0, 60_000))


def nested():
    """The same with 1,024 entries inside one another."""
    return guarded(60_000, 200, lambda place: (place * 29, 60_000 - place * 29))


def holding():
    """1,000 arrays, each of which is made and popped, and so has a holder and a place, before 39,000 items that do nothing."""
    return program(1, (ZERO + NEW_INTS + POP) * 1_000 + NOP * 39_000 + RETURN)


PROGRAMS = [straight, nops, wide, forgetting, shifting, refilling, climbing, covered, nested, holding]


def main():
    for shape in PROGRAMS:
        folder = os.path.join(sys.argv[1], shape.__name__)
        os.makedirs(folder, exist_ok=True)
        for name, bytes_of_class in shape():
            with open(os.path.join(folder, name.decode() + ".class"), "wb") as out:
                out.write(bytes_of_class)


if __name__ == "__main__":
    main()
