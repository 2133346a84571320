"""Forms of methods that are hostile to the checker and to the analysis, for scripts/growth.

Each is a function from a class file that is being made and a number of bytes to a method of about as much code, at most 65,000 bytes: the code,
the words of its stack, its locals, and the entries of its exception table. Counts that a class file limits grow with the code up to their limits.
"""

from hostile_shapes import u2, u4

MOST_CODE = 65_000
MOST_LOCALS, MOST_WORDS, MOST_ENTRIES = 2_048, 1_024, 1_024
ARGUMENTS = 255
NOP, NULL, ZERO, POP, RETURN = b"\0", b"\x01", b"\x03", b"\x57", b"\xb1"
NEW_INTS, CAST, CALL_STATIC, CALL_VIRTUAL = b"\xbc\x0a", b"\xc0", b"\xb8", b"\xb6"
IF_NULL, GO_TO, GO_TO_WIDE = b"\xc6", b"\xa7", b"\xc8"
LOAD, STORE, STORE_INT = 0x19, 0x3A, 0x36
NO_ENTRIES = b"\0\0"
# How far a jump of two bytes reaches back, and what is inserted for an array that is made and popped and whose holder is local 1.
REACH, INSERTED = 32_768, 8
WIDENED = 5


def of_local(opcode, local):
    """An instruction of a local."""
    return bytes([opcode, local]) if local < 256 else b"\xc4" + bytes([opcode]) + u2(local)


def go_to(at, target):
    return GO_TO_WIDE + u4((target - at) % 2**32)


def entries_of(spans):
    return u2(len(spans)) + b"".join(u2(start) + u2(end) + u2(handler) + u2(0) for start, end, handler in spans)


def filled(start, end, size):
    """The start, as many instructions that do nothing as there is room for, and the end."""
    return start + NOP * max(size - len(start) - len(end), 0) + end


def guarded(start, end, size, count, leaves=b""):
    """The same where the instructions between them have so many entries of the exception table, each with a handler of its own that goes to the end. They
    go there too, or leave the method so."""
    handlers = 6 * count
    nops = max(size - len(start) - 5 - handlers - len(end), 1)
    after = len(start) + nops
    first = after + 5
    target = first + handlers
    array = start + NOP * nops + (leaves.ljust(5, NOP) if leaves else go_to(after, target))
    for place in range(count):
        array += POP + go_to(len(array) + 1, target)
    return array + end, entries_of([(len(start), after, first + 6 * place) for place in range(count)])


# ---- the checker

def deep(file, size):
    """2,048 locals, and 1,023 references on the stack of most instructions."""
    words = min(MOST_WORDS - 1, size // 2)
    return filled(NULL * words, RETURN, size), MOST_WORDS, MOST_LOCALS, NO_ENTRIES


def deep_ints(file, size):
    """The same of ints, which the analysis doesn't look at."""
    words = min(MOST_WORDS - 1, size // 2)
    return filled(ZERO * words, RETURN, size), MOST_WORDS, MOST_LOCALS, NO_ENTRIES


def deep_guarded(file, size):
    """2,048 locals, and 1,000 words on the stack of most instructions, which have 1,024 entries of the exception table."""
    array, entries = guarded(NULL * min(1_000, size // 8), RETURN, size, min(MOST_ENTRIES, size // 16), RETURN)
    return array, MOST_WORDS, MOST_LOCALS, entries


def climbing(file, size):
    """A loop that moves each of its locals into the next one, entered with each class of a chain in the first local; as many locals as classes."""
    count = min(size // 37, MOST_LOCALS - 2)
    array = b"".join(NULL + of_local(STORE, local) for local in range(1, count + 1))
    head = len(array)
    array += NOP + b"".join(of_local(LOAD, local - 1) + of_local(STORE, local) for local in range(count, 1, -1))
    for place in range(count):
        enter = NULL + CAST + u2(file.class_entry(b"C%d" % place)) + of_local(STORE, 1)
        array += of_local(LOAD, 0) + IF_NULL + u2(3 + len(enter) + 5) + enter
        array += go_to(len(array), head)
    return array + go_to(len(array), head), 1, count + 1, NO_ENTRIES


def risen(file, size):
    """A loop in which each of 2,047 locals and of 1,000 words of the stack is found to be another one at its end."""
    locals_count, words = min(MOST_LOCALS - 1, size // 20), min(1_000, size // 40)
    start = b"".join(NULL + of_local(STORE, local) for local in range(1, locals_count + 1)) + NULL * words
    end = POP * words + of_local(LOAD, 0) * words + b"".join(ZERO + of_local(STORE_INT, local) for local in range(1, locals_count + 1))
    array = filled(start, end, size - 5)
    return array + go_to(len(array), len(start)), MOST_WORDS, locals_count + 1, NO_ENTRIES


# ---- sites and their places

def held(file, size):
    """1,000 arrays that are held at all of the instructions, which have 1,024 entries of the exception table."""
    arrays = min(1_000, size // 32)
    start = b"".join(ZERO + NEW_INTS + of_local(STORE, local) for local in range(1, arrays + 1))
    end = b"".join(of_local(LOAD, local) + POP for local in range(1, arrays + 1)) + RETURN
    array, entries = guarded(start, end, size, min(MOST_ENTRIES, size // 16))
    return array, 2, arrays + 1, entries


def dying(file, size):
    """Arrays that all die at each of the ways out of a method: 1,500 of them and 6,500 ways in 64 KiB."""
    arrays, ways = size // 43, size // 10
    start = b"".join(ZERO + NEW_INTS + of_local(STORE, local) for local in range(1, arrays + 1))
    way = of_local(LOAD, 0) + IF_NULL + u2(4) + RETURN
    end = b"".join(of_local(LOAD, local) + POP for local in range(1, arrays + 1)) + RETURN
    room = (size - len(start) - len(end)) // len(way)
    return start + way * min(ways, room) + end, 2, arrays + 1, NO_ENTRIES


def reversed_blocks(file, size):
    """Blocks that each make an array, the first one last: each goes to the one before it."""
    body = of_local(LOAD, 1) + POP + ZERO + NEW_INTS + of_local(STORE, 1)
    last = of_local(LOAD, 1) + POP + RETURN
    block = len(body) + 3
    start = NULL + of_local(STORE, 1)
    first = len(start) + 5
    count = min((size - first - len(last)) // block, MOST_LOCALS - 2)
    begins = [first + len(last) + (count - place) * block for place in range(1, count + 1)] + [first]
    array = start + go_to(len(start), begins[0]) + last
    for place in range(count, 0, -1):
        array += body + GO_TO + u2((begins[place] - (len(array) + len(body))) % 65_536)
    return array, 2, 2, NO_ENTRIES


def ladder(file, size):
    """Blocks that each make an array and may go back to the one before it."""
    array, before, count = NULL + of_local(STORE, 1), 3, 0
    while len(array) < size - 16 and count < MOST_LOCALS - 2:
        at = len(array)
        array += ZERO + NEW_INTS + of_local(STORE, 1) + of_local(LOAD, 1)
        array += IF_NULL + u2((before - len(array)) % 65_536)
        before, count = at, count + 1
    return array + of_local(LOAD, 1) + POP + RETURN, 2, 2, NO_ENTRIES


def crossing(file, size):
    """Blocks that each make an array, of which the first half goes to the second and back, so that all jumps cross."""
    body = of_local(LOAD, 1) + POP + ZERO + NEW_INTS + of_local(STORE, 1)
    block, start = len(body) + 5, NULL + of_local(STORE, 1)
    half = min((size - len(start) - 4) // block, MOST_LOCALS - 2) // 2
    end = len(start) + 2 * half * block
    array = start
    for place in range(2 * half):
        after = place + half if place < half else place - half + 1
        target = end if after == half and place >= half else len(start) + after * block
        array += body + go_to(len(array) + len(body), target)
    return array + of_local(LOAD, 1) + POP + RETURN, 2, 2, NO_ENTRIES


# ---- calls

def wide_calls(file, size):
    """Static calls of 255 arguments."""
    call = NULL * ARGUMENTS + CALL_STATIC + u2(file.call_entry(b"W", b"w", ARGUMENTS))
    return call * max(size // len(call), 1) + RETURN, ARGUMENTS, 1, NO_ENTRIES


# ---- layout

def widening(file, size):
    """Jumps back each of which gets too far when the one before did, and the first one by what is inserted for an array."""
    jump = of_local(LOAD, 0) + IF_NULL
    apart = len(jump) + 2
    count = min(3_000, (size - REACH - 200) // (2 * apart + WIDENED)) if size > REACH + 1_000 else 1
    targets = NOP * (count * (apart + WIDENED))
    array = targets + ZERO + NEW_INTS + POP
    array += NOP * (REACH - len(array))
    for place in range(count):
        # the jump is at its limit once what is inserted and all jumps before it but one are there
        reach = REACH - INSERTED - WIDENED * place + 1
        at = len(array) + len(jump) - 1
        array += jump + u2((-reach) % 65_536)
        assert 0 <= at - reach < len(targets), (place, at - reach, len(targets))
    return array + RETURN, 1, 1, NO_ENTRIES


def unreached(file, size):
    """Instructions that can't be reached, which have 1,024 entries of the exception table."""
    count = min(MOST_ENTRIES, size // 16)
    array = filled(RETURN, RETURN, size)
    return array, 1, 1, entries_of([(1, len(array) - 1, len(array) - 1)] * count)


FORMS = [deep, deep_ints, deep_guarded, climbing, risen, held, dying, reversed_blocks, ladder, crossing, wide_calls, widening, unreached]
