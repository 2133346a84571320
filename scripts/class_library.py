"""Which class files of lib/classes a program needs: those that its class files name, directly or not.

A class file names what is in its constant pool: classes (JVMS 4.4.1), and those in the descriptors of its fields, methods and calls. A class file that
completes a built-in class (lib/completes) goes with a program only where a member that it declares is named, or the program itself names an interface
that it lists; that of Class also where the program itself has a class literal or calls getClass, since what prints an object calls its toString.

    scripts/class_library.py FOLDER    takes the members of built-in classes out of the class files of lib/completes in the folder
"""

import re
import struct
import sys
from functools import cache
from pathlib import Path

from mutated_classes import BYTES

LIBRARY = Path(__file__).resolve().parent.parent / "lib"
CLASSES = LIBRARY / "classes"
COMPLETING = {file.relative_to(LIBRARY / "completes").with_suffix("").as_posix() for file in (LIBRARY / "completes").rglob("*.java")}
SEALED = {"java/lang/String", "java/lang/StringBuilder", "java/lang/StringBuffer", "java/lang/System", "java/io/PrintStream", "java/lang/Class"}
ACC_NATIVE, CONSTRUCTOR = 0x0100, "<init>"
UTF8, INTEGER, FLOAT, LONG, DOUBLE, CLASS, STRING, FIELD, METHOD, INTERFACE, NAME_AND_TYPE, HANDLE, METHOD_TYPE, INVOKE_DYNAMIC = (
    1, 3, 4, 5, 6, 7, 8, 9, 10, 11, 12, 15, 16, 18,
)
# The bytes of each entry behind its tag (JVMS 4.4), but for a Utf8's.
LENGTHS = {
    INTEGER: 4, FLOAT: 4, LONG: 8, DOUBLE: 8, CLASS: 2, STRING: 2, FIELD: 4, METHOD: 4, INTERFACE: 4, NAME_AND_TYPE: 4, HANDLE: 3, METHOD_TYPE: 2,
    INVOKE_DYNAMIC: 4,
}
MAGIC, POOL_AT = 0xCAFEBABE, 10
LDC, LDC_W, IINC, TABLESWITCH, LOOKUPSWITCH, WIDE = 18, 19, 132, 170, 171, 196
OF_LITERALS, GET_CLASS = "java/lang/Class", (None, "getClass", "()Ljava/lang/Class;")


def read_pool(data):
    """The constant pool, an index's tag with its bytes, and where it ends."""
    entries, at, index = {}, POOL_AT, 1
    count = struct.unpack_from(">H", data, 8)[0]
    while index < count:
        tag = data[at]
        length = 2 + struct.unpack_from(">H", data, at + 1)[0] if tag == UTF8 else LENGTHS[tag]
        entries[index] = tag, data[at + 1 : at + 1 + length]
        at += 1 + length
        index += 2 if tag in (LONG, DOUBLE) else 1
    return entries, at


def texts_of(pool):
    """The texts of a constant pool by index."""
    return {index: body[2:].decode(errors="replace") for index, (tag, body) in pool.items() if tag == UTF8}


def members_of(data, at):
    """Where the fields and then the methods begin of a class file whose class has its flags at a place, and of each where it begins and ends."""
    at += 6
    at += 2 + 2 * struct.unpack_from(">H", data, at)[0]
    for _ in range(2):
        first, members = at, []
        at += 2
        for _ in range(struct.unpack_from(">H", data, first)[0]):
            begin = at
            attributes = struct.unpack_from(">4H", data, at)[3]
            at += 8
            for _ in range(attributes):
                at += 6 + struct.unpack_from(">I", data, at + 2)[0]
            members.append((begin, at))
        yield first, members


def descriptors_of_members(data, at):
    """The indices of the descriptors of declared fields and methods, whose class has its flags at a place."""
    for _, members in members_of(data, at):
        for begin, _ in members:
            yield struct.unpack_from(">3H", data, begin)[2]


def is_built_in(name, flags, member, descriptor):
    """Whether a class of lib/completes declares a member for the compiler only, as it is built in: a native method, or a constructor of the table."""
    texts = set() if name == "java/lang/StringBuilder" else {"(Ljava/lang/String;)V"}
    return bool(flags & ACC_NATIVE) or member == CONSTRUCTOR and descriptor in {"()V", *texts}


def without_built_ins(data, name):
    """A class file of lib/completes without the members that are built in."""
    pool, end = read_pool(data)
    texts = texts_of(pool)
    _, (first, methods) = members_of(data, end)
    kept = []
    for begin, after in methods:
        flags, member, descriptor = struct.unpack_from(">3H", data, begin)
        if not is_built_in(name, flags, texts[member], texts[descriptor]):
            kept.append(data[begin:after])
    last = methods[-1][1] if methods else first + 2
    return data[:first] + struct.pack(">H", len(kept)) + b"".join(kept) + data[last:]


@cache
def completed_by(name):
    """What the class file that completes a built-in class declares: its interfaces, and its methods by the class by which they may be named."""
    data = (CLASSES / f"{name}.class").read_bytes()
    pool, end = read_pool(data)
    texts = texts_of(pool)
    count = struct.unpack_from(">H", data, end + 6)[0]
    interfaces = [texts[struct.unpack(">H", pool[index][1])[0]] for index in struct.unpack_from(f">{count}H", data, end + 8)]
    _, (_, methods) = members_of(data, end)
    declared = set()
    for begin, _ in methods:
        _, member, descriptor = (texts.get(index) for index in struct.unpack_from(">3H", data, begin))
        is_inherited = member != CONSTRUCTOR and name not in SEALED
        declared.add((None if is_inherited else name, member, descriptor))
    return set(interfaces) - {"java/io/Serializable"}, declared


@cache
def members_named(file):
    """The methods that a class file names, each with and without the class by which it does; none where it isn't one or can't be read."""
    try:
        pool, _ = read_pool(file.read_bytes())
        texts = texts_of(pool)
        found = set()
        for tag, body in pool.values():
            if tag in (METHOD, INTERFACE):
                owner, pair = struct.unpack(">HH", body)
                member, descriptor = (texts[index] for index in struct.unpack(">HH", pool[pair][1]))
                found |= {(texts[struct.unpack(">H", pool[owner][1])[0]], member, descriptor), (None, member, descriptor)}
        return found
    except (OSError, struct.error, IndexError, KeyError):
        return set()


@cache
def names_in(file):
    """The classes that a class file names, its own too, or none where it isn't one or can't be read: freeme says what is wrong with it."""
    try:
        data = file.read_bytes()
        if struct.unpack_from(">I", data)[0] != MAGIC:
            return set()
        pool, end = read_pool(data)
        texts = texts_of(pool)
        types = [texts[struct.unpack(">H", body)[0]] for tag, body in pool.values() if tag == CLASS]
        found = {name for name in types if not name.startswith("[")}
        types += [texts[struct.unpack(">HH", body)[1]] for tag, body in pool.values() if tag == NAME_AND_TYPE]
        types += [texts[index] for index in descriptors_of_members(data, end)]
    except (OSError, struct.error, IndexError, KeyError):
        return set()
    return found.union(*(re.findall(r"L([^;]+);", text) for text in types))


def length_at(code, at):
    """How many bytes the instruction at a place of a code array has (JVMS 6.5)."""
    padded = 4 - at % 4
    if code[at] == TABLESWITCH:
        low, high = struct.unpack_from(">2i", code, at + padded + 4)
        return padded + 12 + 4 * max(0, high - low + 1)
    if code[at] == LOOKUPSWITCH:
        return padded + 8 + 8 * max(0, struct.unpack_from(">i", code, at + padded + 4)[0])
    if code[at] == WIDE:
        return 6 if code[at + 1] == IINC else 4
    return BYTES[code[at]]


def constants_loaded(code):
    """The indices that the ldc and ldc_w of a code array name."""
    at = 0
    while at < len(code):
        if code[at] == LDC:
            yield code[at + 1]
        elif code[at] == LDC_W:
            yield struct.unpack_from(">H", code, at + 1)[0]
        at += length_at(code, at)


def codes_of(data):
    """The code arrays of a class file (JVMS 4.7.3)."""
    pool, end = read_pool(data)
    texts = texts_of(pool)
    _, (_, methods) = members_of(data, end)
    for begin, _ in methods:
        at = begin + 8
        for _ in range(struct.unpack_from(">H", data, begin + 6)[0]):
            name, length = struct.unpack_from(">HI", data, at)
            if texts[name] == "Code":
                yield data[at + 14 : at + 14 + struct.unpack_from(">I", data, at + 10)[0]]
            at += 6 + length


@cache
def has_literals(file):
    """Whether a class file has class literals, or calls getClass; not where it isn't one or can't be read."""
    if GET_CLASS in members_named(file):
        return True
    try:
        data = file.read_bytes()
        pool, _ = read_pool(data)
        return any(pool[index][0] == CLASS for code in codes_of(data) for index in constants_loaded(code))
    except (OSError, struct.error, IndexError, KeyError):
        return False


def own_name(file):
    """The name of the class of a class file, or none where it isn't one or can't be read."""
    try:
        data = file.read_bytes()
        pool, end = read_pool(data)
        name = struct.unpack(">H", pool[struct.unpack_from(">H", data, end + 2)[0]][1])[0]
        return pool[name][1][2:].decode(errors="replace")
    except (OSError, struct.error, IndexError, KeyError):
        return None


def needed(files):
    """The class files of the library that a program of these class files needs beside them, in the order of their names."""
    taken, fresh, given = set(), list(files), {own_name(file) for file in files}
    waiting = {name: completed_by(name) for name in COMPLETING if name not in given}
    own = set().union(*map(names_in, files))
    names, members = set(), set()
    if any(map(has_literals, files)) and waiting.pop(OF_LITERALS, None):
        names.add(OF_LITERALS)
    while fresh:
        file = fresh.pop()
        names |= names_in(file)
        members |= members_named(file)
        wanted = {name for name in names if name not in waiting and name not in given}
        for name, (interfaces, declared) in list(waiting.items()):
            if name in names and interfaces & own or declared & members:
                del waiting[name]
                wanted.add(name)
        for name in wanted:
            other = CLASSES / f"{name}.class"
            if other not in taken and other.is_file():
                taken.add(other)
                fresh.append(other)
    return sorted(taken)


def main():
    for name in sorted(COMPLETING):
        file = Path(sys.argv[1]) / f"{name}.class"
        file.write_bytes(without_built_ins(file.read_bytes(), name))


if __name__ == "__main__":
    main()
