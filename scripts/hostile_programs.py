#!/usr/bin/env python3
"""Writes programs whose classes are hostile to a linker: each makes one slow that goes over the superclasses, the
interfaces or the abstract methods of a class again for each use.

    scripts/hostile_programs.py FOLDER

Each program is a folder of class files, of which M.class has the main. scripts/measure times `freeme` on each.
"""
import os
import sys

from hostile_shapes import ABSTRACT, PUBLIC_STATIC, RETURN, Pool, code, member, u2

PUBLIC = 0x0001
CLASS = 0x0021
INTERFACE = 0x0601
NULL = b"\x01"
GET_STATIC = b"\xb2"
CALL_VIRTUAL = b"\xb6"
POP = b"\x57"


class File:
    """A class file that is being made."""

    def __init__(self, name, superclass=b"java/lang/Object", interfaces=(), flags=CLASS):
        self.name = name
        self.flags = flags
        self.pool = Pool()
        self.this_class = self.pool.class_named(name)
        self.superclass = self.pool.class_named(superclass)
        self.interfaces = [self.pool.class_named(interface) for interface in interfaces]
        self.fields = []
        self.methods = []
        self.code_name = self.pool.text(b"Code")
        self.nothing = self.pool.text(b"()V")

    def method(self, flags, name, array=RETURN):
        attributes = [] if flags == ABSTRACT else [code(self.code_name, array)]
        self.methods.append(member(flags, self.pool.text(name), self.nothing, *attributes))

    def main(self, array=RETURN):
        arguments = self.pool.text(b"([Ljava/lang/String;)V")
        self.methods.append(member(PUBLIC_STATIC, self.pool.text(b"main"), arguments, code(self.code_name, array)))

    def spelled(self):
        lists = [(self.interfaces, u2), (self.fields, bytes), (self.methods, bytes)]
        counted = b"".join(u2(len(members)) + b"".join(map(put, members)) for members, put in lists)
        head = u2(self.flags) + u2(self.this_class) + u2(self.superclass)
        return b"\xca\xfe\xba\xbe\0\0\0\x31" + self.pool.spelled() + head + counted + u2(0)


def chain():
    """4,095 classes, each the superclass of the one before, and M below them."""
    names = [b"C%d" % place for place in range(4_095)] + [b"java/lang/Object"]
    lowest = File(b"M", names[0])
    lowest.main()
    return [lowest] + [File(name, above) for name, above in zip(names, names[1:])]


def levels():
    """60 levels of two interfaces, each of which extends both of the next level."""
    names = [(b"L%d" % level, b"R%d" % level) for level in range(60)] + [()]
    lowest = File(b"M", interfaces=names[0])
    lowest.main()
    return [lowest] + [File(name, interfaces=above, flags=INTERFACE) for pair, above in zip(names, names[1:]) for name in pair]


def wide():
    """One interface R that extends 2,000 others, and a chain of 2,000 classes that each list it."""
    others = [b"I%d" % place for place in range(2_000)]
    files = [File(b"R", interfaces=others, flags=INTERFACE)]
    files += [File(other, flags=INTERFACE) for other in others]
    names = [b"C%d" % place for place in range(2_000)] + [b"java/lang/Object"]
    return files + [File(name, above, [b"R"]) for name, above in zip(names, names[1:])]


def fields_through_interfaces():
    """Such a chain, and 100 uses of a static field of its uppermost class, whose name an interface has for a field too."""
    files = wide()
    holder = files[-1]
    holder.fields.append(member(PUBLIC_STATIC, holder.pool.text(b"x"), holder.pool.text(b"I")))
    hidden = File(b"H", flags=INTERFACE)
    hidden.fields.append(member(0x0019, hidden.pool.text(b"x"), hidden.pool.text(b"I")))
    lowest = File(b"M")
    owner = lowest.pool.class_named(b"C0")
    pair = lowest.pool.pair(lowest.pool.text(b"x"), lowest.pool.text(b"I"))
    uses = [lowest.pool.add(b"\x09" + u2(owner) + u2(pair)) for _ in range(100)]
    lowest.main(b"".join(GET_STATIC + u2(use) + POP for use in uses) + RETURN)
    return [lowest, hidden] + files


def methods_through_interfaces():
    """13,000 calls of a method that the last of 4,000 interfaces declares."""
    others = [b"I%d" % place for place in range(4_000)]
    files = [File(other, flags=INTERFACE) for other in others]
    files[-1].method(ABSTRACT, b"m")
    owner = File(b"C", interfaces=others, flags=CLASS | 0x0400)
    lowest = File(b"M")
    named = lowest.pool.class_named(b"C")
    pair = lowest.pool.pair(lowest.pool.text(b"m"), lowest.nothing)
    uses = [lowest.pool.method(named, pair) for _ in range(13_000)]
    lowest.main(b"".join(NULL + CALL_VIRTUAL + u2(use) for use in uses) + RETURN)
    return [lowest, owner] + files


def left_over():
    """An interface of 60,000 methods, a class that has them, and 400 classes below it that list the interface."""
    names = [b"m%x" % place for place in range(60_000)]
    interface = File(b"I", flags=INTERFACE)
    full = File(b"F", interfaces=[b"I"])
    for name in names:
        interface.method(ABSTRACT, name)
        full.method(PUBLIC, name)
    lowest = File(b"M")
    lowest.main()
    return [lowest, interface, full] + [File(b"C%d" % place, b"F") for place in range(400)]


def late_interfaces():
    """A chain of 300 interfaces, and 1,800 classes that each list 300 others before the lowest of the chain."""
    chained = [b"I%d" % place for place in range(300)]
    others = [b"O%d" % place for place in range(300)]
    lowest = File(b"M")
    lowest.main()
    files = [lowest] + [File(other, flags=INTERFACE) for other in others]
    files += [File(name, interfaces=[above], flags=INTERFACE) for name, above in zip(chained, chained[1:])]
    files.append(File(chained[-1], flags=INTERFACE))
    return files + [File(b"C%d" % place, interfaces=others + chained[:1]) for place in range(1_800)]


def listed_chains():
    """A chain of 1,000 interfaces, and 300 classes that each list all of them, the uppermost first."""
    chained = [b"I%d" % place for place in range(1_000)]
    lowest = File(b"M")
    lowest.main()
    files = [lowest, File(chained[-1], flags=INTERFACE)]
    files += [File(name, interfaces=[above], flags=INTERFACE) for name, above in zip(chained, chained[1:])]
    return files + [File(b"C%d" % place, interfaces=chained[::-1]) for place in range(300)]


def shared_names():
    """1,000 interfaces of the same 60 methods, and 1,000 classes that have them and list none."""
    names = [b"m%d" % place for place in range(60)]
    lowest = File(b"M")
    lowest.main()
    files = [lowest]
    for place in range(1_000):
        interface = File(b"I%d" % place, flags=INTERFACE)
        full = File(b"C%d" % place)
        for name in names:
            interface.method(ABSTRACT, name)
            full.method(PUBLIC, name)
        files += [interface, full]
    return files


def declared_again():
    """A class with 30 methods, 1,500 abstract classes below it that declare them again, and a class below each that has them."""
    names = [b"m%d" % place for place in range(30)]
    lowest = File(b"M")
    lowest.main()
    upper = File(b"U")
    files = [lowest, upper]
    for name in names:
        upper.method(PUBLIC, name)
    for place in range(1_500):
        again = File(b"A%d" % place, b"U", flags=CLASS | 0x0400)
        full = File(b"C%d" % place, again.name)
        for name in names:
            again.method(ABSTRACT, name)
            full.method(PUBLIC, name)
        files += [again, full]
    return files


def asked_of_each():
    """1,000 interfaces of the same 60 methods, one that extends all of them, and 1,000 classes that list it and name each method."""
    names = [b"m%d" % place for place in range(60)]
    lowest = File(b"M")
    lowest.main()
    others = [b"I%d" % place for place in range(1_000)]
    files = [lowest, File(b"R", interfaces=others, flags=INTERFACE)]
    for other in others:
        interface = File(other, flags=INTERFACE)
        for name in names:
            interface.method(ABSTRACT, name)
        files.append(interface)
    for place in range(1_000):
        file = File(b"C%d" % place, interfaces=[b"R"], flags=CLASS | 0x0400)
        for name in names:
            file.pool.method(file.this_class, file.pool.pair(file.pool.text(name), file.nothing))
        files.append(file)
    return files


def long_texts():
    """16 MB: a class and its superclass, each with 65,000 texts that differ in their last characters alone."""
    upper = File(b"C")
    lowest = File(b"M", b"C")
    lowest.main()
    for file, letter in [(upper, b"c"), (lowest, b"m")]:
        for place in range(65_000):
            file.pool.text(letter * 120 + b"%05x" % place)
    return [lowest, upper]


PROGRAMS = [
    chain,
    levels,
    fields_through_interfaces,
    methods_through_interfaces,
    left_over,
    late_interfaces,
    listed_chains,
    shared_names,
    declared_again,
    asked_of_each,
    long_texts,
]


def main():
    for program in PROGRAMS:
        folder = os.path.join(sys.argv[1], program.__name__)
        os.makedirs(folder, exist_ok=True)
        for file in program():
            with open(os.path.join(folder, file.name.decode() + ".class"), "wb") as out:
                out.write(file.spelled())


if __name__ == "__main__":
    main()
