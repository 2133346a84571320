#!/usr/bin/env python3
"""Writes class files whose shape is hostile to a reader: each is well-formed, and makes a reader slow that goes over a
text, over all methods or over all entries again for each use.

    scripts/hostile_shapes.py FOLDER

scripts/measure times `freeme` on each.
"""
import os
import struct
import sys


def u2(number):
    return struct.pack(">H", number)


def u4(number):
    return struct.pack(">I", number)


class Pool:
    """A constant pool that is being made."""

    def __init__(self):
        self.entries = []

    def add(self, entry):
        self.entries.append(entry)
        return len(self.entries)

    def text(self, text):
        return self.add(b"\x01" + u2(len(text)) + text)

    def class_named(self, text):
        return self.add(b"\x07" + u2(self.text(text)))

    def pair(self, name, descriptor):
        return self.add(b"\x0c" + u2(name) + u2(descriptor))

    def method(self, owner, pair):
        return self.add(b"\x0a" + u2(owner) + u2(pair))

    def spelled(self):
        return u2(len(self.entries) + 1) + b"".join(self.entries)


def attribute(name, body):
    return u2(name) + u4(len(body)) + body


def code(pool_name, array, max_stack=2, max_locals=2, handlers=b"\0\0", attributes=b"\0\0"):
    return attribute(pool_name, u2(max_stack) + u2(max_locals) + u4(len(array)) + array + handlers + attributes)


def member(flags, name, descriptor, *attributes):
    return u2(flags) + u2(name) + u2(descriptor) + u2(len(attributes)) + b"".join(attributes)


def class_file(pool, this_class, superclass, methods, flags=0x21):
    return b"".join([
        b"\xca\xfe\xba\xbe", u2(0), u2(49), pool.spelled(), u2(flags), u2(this_class), u2(superclass), u2(0), u2(0),
        u2(len(methods)), b"".join(methods), u2(0),
    ])


def start():
    pool = Pool()
    this_class = pool.class_named(b"M")
    superclass = pool.class_named(b"java/lang/Object")
    code_name = pool.text(b"Code")
    nothing = pool.text(b"()V")
    return pool, this_class, superclass, code_name, nothing


PUBLIC_STATIC = 0x0009
ABSTRACT = 0x0401
RETURN = b"\xb1"


def calls_of_the_last_method():
    """8 MiB of calls of the last of 20,000 methods."""
    pool, this_class, superclass, code_name, nothing = start()
    names = [pool.text(b"m%d" % i) for i in range(20_000)]
    call = pool.method(this_class, pool.pair(names[-1], nothing))
    body = code(code_name, (b"\xb8" + u2(call)) * 21_844 + RETURN)
    small = code(code_name, RETURN)
    methods = [member(PUBLIC_STATIC, name, nothing, body if i < 116 else small) for i, name in enumerate(names)]
    return class_file(pool, this_class, superclass, methods)


def calls_by_a_long_name():
    """One method with a name of 64 KiB, which calls itself all over."""
    pool, this_class, superclass, code_name, nothing = start()
    name = pool.text(b"n" * 65_535)
    call = pool.method(this_class, pool.pair(name, nothing))
    body = code(code_name, (b"\xb8" + u2(call)) * 21_844 + RETURN)
    return class_file(pool, this_class, superclass, [member(PUBLIC_STATIC, name, nothing, body)])


def entries_of_two_long_texts():
    """65,500 entries that name two texts of 64 KiB each."""
    pool, this_class, superclass, code_name, nothing = start()
    name = pool.text(b"n" * 65_535)
    descriptor = pool.text(b"(" + b"L" + b"c" * 65_530 + b";" + b")V")
    while len(pool.entries) < 65_500:
        pool.pair(name, descriptor)
    body = code(code_name, RETURN)
    return class_file(pool, this_class, superclass, [member(PUBLIC_STATIC, pool.text(b"main"), nothing, body)])


def methods_of_one_long_name():
    """65,000 methods with one name of 64 KiB, each with a descriptor of its own."""
    pool, this_class, superclass, _, _ = start()
    name = pool.text(b"n" * 65_535)
    methods = [member(ABSTRACT, name, pool.text(b"(Lc%d;)V" % i)) for i in range(65_000)]
    return class_file(pool, this_class, superclass, methods, flags=0x0421)


def methods_of_two_long_descriptors():
    """65,000 methods that share two descriptors of 64 KiB."""
    pool, this_class, superclass, _, _ = start()
    descriptors = [pool.text(b"(L" + letter * 65_530 + b";)V") for letter in (b"c", b"d")]
    methods = [member(ABSTRACT, pool.text(b"m%d" % i), descriptors[i % 2]) for i in range(65_000)]
    return class_file(pool, this_class, superclass, methods, flags=0x0421)


def items_that_name_a_long_class():
    """6 MiB of `instanceof` of two arrays whose class has a name of 64 KiB."""
    pool, this_class, superclass, code_name, nothing = start()
    arrays = [pool.class_named(b"[L" + letter * 65_530 + b";") for letter in (b"c", b"d")]
    array = (b"\x01\xc1" + u2(arrays[0]) + b"W\x01\xc1" + u2(arrays[1]) + b"W") * 6_553 + RETURN
    body = code(code_name, array)
    methods = [member(PUBLIC_STATIC, pool.text(b"m%d" % i), nothing, body) for i in range(96)]
    return class_file(pool, this_class, superclass, methods)


def lines_and_handlers():
    """A method with 65,535 handlers, and 8 MiB of line numbers."""
    pool, this_class, superclass, code_name, nothing = start()
    lines_name = pool.text(b"LineNumberTable")
    array = b"\0" * 65_534 + RETURN
    lines = attribute(lines_name, u2(65_535) + b"".join(u2(i % 65_535) + u2(1) for i in range(65_535)))
    handlers = u2(65_535) + b"".join(u2(i % 65_000) + u2(65_535) + u2(65_534 - i % 60_000) + u2(0) for i in range(65_535))
    bodies = [code(code_name, array, attributes=u2(28) + lines * 28), code(code_name, array, handlers=handlers)]
    methods = [member(PUBLIC_STATIC, pool.text(b"m%d" % i), nothing, body) for i, body in enumerate(bodies)]
    return class_file(pool, this_class, superclass, methods)


def plain_code():
    """8 MiB of instructions of one byte."""
    pool, this_class, superclass, code_name, nothing = start()
    body = code(code_name, b"\0" * 65_534 + RETURN)
    methods = [member(PUBLIC_STATIC, pool.text(b"m%d" % i), nothing, body) for i in range(127)]
    return class_file(pool, this_class, superclass, methods)


SHAPES = [
    calls_of_the_last_method, calls_by_a_long_name, entries_of_two_long_texts, methods_of_one_long_name,
    methods_of_two_long_descriptors, items_that_name_a_long_class, lines_and_handlers, plain_code,
]


def main():
    folder = sys.argv[1]
    os.makedirs(folder, exist_ok=True)
    for shape in SHAPES:
        with open(os.path.join(folder, shape.__name__ + ".class"), "wb") as file:
            file.write(shape())


if __name__ == "__main__":
    main()
