"""Pairs of an original class file and a written one, each changed in one place, some with what an audit has to answer of each.

The written class files are those of freeme, which frees each holder at all its places. So what is inserted, as it is read off them here, tells
where a holder may hold something and its class isn't in use: where it is freed. A change of the first sort fails one part of what makes an insertion safe, by an
argument that is given with it; one of the second sort is made anywhere, and what an audit has to answer of it is for audited_parts.py to tell. Code is laid
out again after each change, so that its branches and tables follow.
"""

import random
import struct
from contextlib import suppress
from dataclasses import dataclass, field, replace

# How many bytes follow the tag of each entry of a constant pool but a text.
ENTRY_SIZES = {3: 4, 4: 4, 5: 8, 6: 8, 7: 2, 8: 2, 9: 4, 10: 4, 11: 4, 12: 4, 15: 3, 16: 2, 18: 4}
ACONST_NULL, ALOAD, ASTORE, DUP, INVOKESTATIC, GOTO, GOTO_W, NOP = 1, 25, 58, 89, 184, 167, 200, 0
TABLESWITCH, LOOKUPSWITCH, WIDE, IINC = 170, 171, 196, 132
BRANCHES = (*range(153, 169), 198, 199)
# How many bytes an instruction has after its opcode (JVMS 6.5); none of those with a switch or wide.
OPERANDS = {1: (16, 18, *range(21, 26), *range(54, 59), 169, 188), 3: (197,), 4: (185, 186, 200, 201)}
OPERANDS[2] = (17, 19, 20, 132, *range(153, 169), *range(178, 185), 187, 189, 192, 193, 198, 199)
SIZES = {code: size for size, codes in OPERANDS.items() for code in codes}
MAX_CODE_LENGTH = 65_535
MAX_LOCALS = 2048
# The test that holds where another one doesn't (JVMS 6.5): each is beside its opposite.
OPPOSITES = {a: a + 1 for a in (153, 155, 157, 159, 161, 163, 165, 198)} | {a: a - 1 for a in (154, 156, 158, 160, 162, 164, 166, 199)}
CLASSES, ITEMS, HOLDERS, USES, FREES, LAYOUT = range(1, 7)


@dataclass(eq=False)
class Item:
    """An instruction: its opcode, the operands that aren't targets, and the items to which it leads, by identity."""

    opcode: int
    operands: bytes = b""
    targets: list = field(default_factory=list)
    at: int = 0
    padding: bytes = b""

    def size(self, at):
        if self.opcode in (TABLESWITCH, LOOKUPSWITCH):
            return 1 + -(at + 1) % 4 + 4 + len(self.operands) + 4 * (len(self.targets) - 1)
        if self.targets:
            return 5 if self.opcode in (GOTO_W, 201) else 3
        return 1 + len(self.operands)

    def bytes(self):
        distances = [target.at - self.at for target in self.targets]
        if self.opcode == TABLESWITCH:
            padding = self.padded()
            return bytes([self.opcode]) + padding + struct.pack(">i", distances[0]) + self.operands + b"".join(struct.pack(">i", d) for d in distances[1:])
        if self.opcode == LOOKUPSWITCH:
            padding = self.padded()
            keys = [self.operands[4 + 4 * k : 8 + 4 * k] for k in range(len(distances) - 1)]
            pairs = b"".join(key + struct.pack(">i", d) for key, d in zip(keys, distances[1:]))
            return bytes([self.opcode]) + padding + struct.pack(">i", distances[0]) + self.operands[:4] + pairs
        if self.targets:
            return bytes([self.opcode]) + struct.pack(">i" if self.opcode in (GOTO_W, 201) else ">h", distances[0])
        return bytes([self.opcode]) + self.operands

    def padded(self):
        """The padding of a switch where it is laid out: as much of its own as there is room for, and then zeros."""
        size = -(self.at + 1) % 4
        return (self.padding + bytes(size))[:size]

    def local(self, short, wide):
        """The local that an instruction loads or stores, if it is one of this kind: `short` is the opcode with the local in it, from 0 on."""
        if short <= self.opcode < short + 4:
            return self.opcode - short
        if self.opcode == wide:
            return self.operands[0]
        if self.opcode == WIDE and self.operands[0] == wide:
            return struct.unpack(">H", self.operands[1:])[0]
        return None

    def stored(self):
        return self.local(75, ASTORE)

    def loaded(self):
        return self.local(42, ALOAD)


def stores(local):
    """An astore as it is laid out: the shortest one (JVMS 6.5.astore)."""
    if local < 4:
        return Item(75 + local)
    return Item(ASTORE, bytes([local])) if local < 256 else Item(WIDE, struct.pack(">BH", ASTORE, local))


def loads(local):
    """An aload as it is laid out: the shortest one (JVMS 6.5.aload)."""
    if local < 4:
        return Item(42 + local)
    return Item(ALOAD, bytes([local])) if local < 256 else Item(WIDE, struct.pack(">BH", ALOAD, local))


class Reader:
    def __init__(self, file):
        self.file, self.at = file, 0

    def take(self, count):
        self.at += count
        return self.file[self.at - count : self.at]

    def number(self, size):
        return int.from_bytes(self.take(size), "big")


class End:
    """The end of a code, as a place that a table names."""

    def __init__(self):
        self.at = 0


class Code:
    """A Code attribute, with the items that its tables name in place of offsets (JVMS 4.7.3)."""

    def __init__(self, body, texts):
        read = Reader(body)
        self.max_stack, self.max_locals = read.number(2), read.number(2)
        self.items, self.end = items_of(read.take(read.number(4)))
        places = {item.at: item for item in self.items} | {self.end.at: self.end}
        self.handlers = [[*(places[read.number(2)] for _ in range(3)), read.number(2)] for _ in range(read.number(2))]
        self.attributes = []
        for _ in range(read.number(2)):
            name, own = read.number(2), read.take(read.number(4))
            text = texts.get(name)
            if text == b"LineNumberTable":
                rows = struct.iter_unpack(">HH", own[2:])
                self.attributes.append([name, text, [[places[start], line] for start, line in rows]])
            elif text in (b"LocalVariableTable", b"LocalVariableTypeTable"):
                rows = struct.iter_unpack(">HHHHH", own[2:])
                self.attributes.append([name, text, [[places[start], places[start + size], *rest] for start, size, *rest in rows]])
            else:
                self.attributes.append([name, None, own])

    def lay_out(self):
        at = 0
        for item in self.items:
            item.at = at
            at += item.size(at)
        self.end.at = at

    def body(self):
        self.lay_out()
        code = b"".join(item.bytes() for item in self.items)
        out = struct.pack(">HHI", self.max_stack, self.max_locals, len(code)) + code + struct.pack(">H", len(self.handlers))
        for start, end, handler, kind in self.handlers:
            out += struct.pack(">HHHH", start.at, end.at, handler.at, kind)
        out += struct.pack(">H", len(self.attributes))
        for name, text, own in self.attributes:
            if text == b"LineNumberTable":
                own = struct.pack(">H", len(own)) + b"".join(struct.pack(">HH", place.at, line) for place, line in own)
            elif text:
                own = struct.pack(">H", len(own)) + b"".join(struct.pack(">HHHHH", a.at, b.at - a.at, *rest) for a, b, *rest in own)
            out += struct.pack(">HI", name, len(own)) + own
        return out

    def name(self, old, new):
        """Lets all that names an item name another one in its place."""
        for item in self.items:
            item.targets = [new if target is old else target for target in item.targets]
        self.handlers = [[*(new if place is old else place for place in row[:3]), row[3]] for row in self.handlers]
        for attribute in self.attributes:
            if attribute[1]:
                attribute[2] = [[new if cell is old else cell for cell in row] for row in attribute[2]]

    def drop(self, first, count):
        """Drops items, so that what names one of them names what follows."""
        dropped = self.items[first : first + count]
        del self.items[first : first + count]
        for item in dropped:
            self.name(item, self.items[first] if first < len(self.items) else self.end)

    def put(self, place, items):
        """Inserts items, so that what names the item at the place names the first of them."""
        if items:
            self.name(self.items[place], items[0])
            self.items[place:place] = items


def items_of(code):
    """The items of a code, and its end."""
    read, items, ends = Reader(code), [], []
    while read.at < len(code):
        start, opcode = read.at, read.number(1)
        targets, padding = [], b""
        if opcode in (TABLESWITCH, LOOKUPSWITCH):
            padding = read.take(-read.at % 4)
            targets = [struct.unpack(">i", read.take(4))[0]]
            if opcode == TABLESWITCH:
                operands = read.take(8)
                low, high = struct.unpack(">ii", operands)
                targets += [struct.unpack(">i", read.take(4))[0] for _ in range(high - low + 1)]
            else:
                operands = read.take(4)
                for _ in range(struct.unpack(">i", operands[:4])[0]):
                    operands += read.take(4)
                    targets.append(struct.unpack(">i", read.take(4))[0])
        elif opcode == WIDE:
            operands = read.take(1)
            operands += read.take(4 if operands[0] == IINC else 2)
        elif opcode in BRANCHES or opcode in (GOTO_W, 201):
            size = 4 if opcode in (GOTO_W, 201) else 2
            operands, targets = b"", [int.from_bytes(read.take(size), "big", signed=True)]
        else:
            operands = read.take(SIZES.get(opcode, 0))
        items.append(Item(opcode, operands, [start + target for target in targets], start, padding))
    end = End()
    end.at = len(code)
    places = {item.at: item for item in items}
    for item in items:
        item.targets = [places[target] for target in item.targets]
    return items, end


class ClassFile:
    """A class file, whole (JVMS 4.1): its pool and its members as bytes, but for the codes of its methods."""

    def __init__(self, file):
        read = Reader(file)
        self.head = read.take(8)
        self.count, self.texts, self.pool = read.number(2), {}, b""
        index, start = 1, read.at
        self.entries = {}
        while index < self.count:
            tag = read.number(1)
            if tag == 1:
                self.texts[index] = read.take(read.number(2))
            else:
                self.entries[index] = (tag, read.take(ENTRY_SIZES[tag]))
            index += 2 if tag in (5, 6) else 1
        self.pool = file[start : read.at]
        start = read.at
        read.take(6)
        read.take(2 * read.number(2))
        for _ in range(read.number(2)):
            read.take(6)
            self.skip_attributes(read)
        self.middle = file[start : read.at]
        self.methods = []
        for _ in range(read.number(2)):
            flags, name, descriptor = read.number(2), read.number(2), read.number(2)
            attributes = []
            for _ in range(read.number(2)):
                own, body = read.number(2), read.take(read.number(4))
                attributes.append([own, Code(body, self.texts) if self.texts.get(own) == b"Code" else body])
            self.methods.append([flags, name, descriptor, attributes])
        self.rest = file[read.at :]

    def skip_attributes(self, read):
        for _ in range(read.number(2)):
            read.take(2)
            read.take(read.number(4))

    def bytes(self):
        out = self.head + struct.pack(">H", self.count) + self.pool + self.middle + struct.pack(">H", len(self.methods))
        for flags, name, descriptor, attributes in self.methods:
            out += struct.pack(">HHHH", flags, name, descriptor, len(attributes))
            for own, body in attributes:
                body = body.body() if isinstance(body, Code) else body
                out += struct.pack(">HI", own, len(body)) + body
        return out + self.rest

    def text(self, index):
        return self.texts[index].decode("latin-1")

    def class_at(self, index):
        """The name of a class by its index, and None of 0."""
        return self.text(struct.unpack(">H", self.entries[index][1])[0]) if index else None

    def member_at(self, index):
        """The class, the name and the descriptor of a member by its index."""
        owner, named = struct.unpack(">HH", self.entries[index][1])
        name, descriptor = struct.unpack(">HH", self.entries[named][1])
        return self.class_at(owner), self.text(name), self.text(descriptor)

    def name(self):
        index = struct.unpack(">H", self.middle[2:4])[0]
        return self.text(struct.unpack(">H", self.entries[index][1])[0])

    def codes(self):
        """Of each method that has code: its place, its name as it is printed, and its code."""
        for place, (_, name, descriptor, attributes) in enumerate(self.methods):
            for _, body in attributes:
                if isinstance(body, Code):
                    yield place, f"{self.name()}.{self.text(name)}{self.text(descriptor)}", body

    def is_free(self, index):
        """Whether an index names FreeMe.free."""
        tag, own = self.entries.get(index, (0, b""))
        if tag != 10:
            return False
        owner, named = struct.unpack(">HH", own)
        name = struct.unpack(">HH", self.entries[named][1])[0]
        return self.texts[struct.unpack(">H", self.entries[owner][1])[0]] == b"FreeMe" and self.texts[name] == b"free"


# ---- what is inserted


@dataclass
class Inserted:
    """What is inserted into a method's code: how many holders are null at the start; and of each free and of each store its holder and its place."""

    holders: int
    frees: list
    takes: list


def inserted(file, old, new):
    first, items, at = old.max_locals, new.items, 0
    while at + 1 < len(items) and items[at].opcode == ACONST_NULL and (items[at + 1].stored() or 0) >= first:
        at += 2
    found = Inserted(at // 2, [], [])
    for place in range(at, len(items)):
        item = items[place]
        if item.opcode == INVOKESTATIC and file.is_free(struct.unpack(">H", item.operands)[0]):
            found.frees.append((items[place - 1].loaded() - first, place - 1))
        if item.opcode == DUP and place + 1 < len(items) and (items[place + 1].stored() or 0) >= first:
            found.takes.append((items[place + 1].stored() - first, place))
    return found


# ---- one change in a method

FREE_ITEMS, TAKE_ITEMS, NULL_ITEMS = 4, 2, 2


def dropped(file, old, new, found):
    """A free that has to be there is left out: its holder may hold something there, and its class isn't in use."""
    for _, place in found.frees:
        yield lambda code, place=place: code.drop(place, FREE_ITEMS), FREES


def doubled(file, old, new, found):
    """A free is done twice before one item, which is no shape of what is inserted."""
    for _, place in found.frees:
        yield lambda code, place=place: code.put(place, copies(code.items[place : place + FREE_ITEMS])), ITEMS


def uncleared(file, old, new, found):
    """A holder isn't null again after it was freed, which is no shape of what is inserted."""
    for _, place in found.frees:
        yield lambda code, place=place: code.drop(place + 2, NULL_ITEMS), ITEMS


def moved(file, old, new, found):
    """A free comes before the item that alone leads to its own: its class is in use there, since else it would be freed there."""
    own = own_items(new, found)
    for _, place in found.frees:
        before = [k for k in own if k < place]
        after = next(k for k in own if k >= place)
        if len(before) < 2 or not leads_alone(new, before[-1], after, place) or is_taken(found, before[-1]):
            continue
        yield lambda code, place=place, to=before[-1]: move(code, place, to), USES


def freed_untaken(file, old, new, found):
    """A local is freed that takes no object, the one behind all holders."""
    more = old.max_locals + found.holders
    for _, place in found.frees[:1] if more < MAX_LOCALS else []:
        own = [loads(more), *copies(new.items[place + 1 : place + 3]), stores(more)]
        yield lambda code, place=place, own=own: put_more(code, place, own), USES


def shared(file, old, new, found):
    """Two holders become one: it takes the objects of two sites, and the other one those of none."""
    for holder, place in found.takes:
        if found.holders > 1:
            other = old.max_locals + (0 if holder else 1)
            yield lambda code, place=place, other=other: replaced(code, place + 1, stores(other)), HOLDERS


def untaken(file, old, new, found):
    """A holder takes no object."""
    for _, place in found.takes:
        yield lambda code, place=place: code.drop(place, TAKE_ITEMS), HOLDERS


def taken_elsewhere(file, old, new, found):
    """A holder takes what is on top of the stack before its site, whose item is no site."""
    own = own_items(new, found)
    for _, place in found.takes:
        site = max(k for k in own if k < place)
        earlier = [k for k in own if k < site]
        if earlier and new.items[earlier[-1]].opcode in range(2, 9):
            yield lambda code, place=place, to=site: take(code, place, to), HOLDERS


def unstarted(file, old, new, found):
    """A holder isn't null at the start."""
    for holder in range(found.holders):
        yield lambda code, holder=holder: code.drop(NULL_ITEMS * holder, NULL_ITEMS), HOLDERS


def restarted(file, old, new, found):
    """A holder is null twice at the start."""
    yield lambda code: code.put(0, [Item(ACONST_NULL), stores(old.max_locals)]), HOLDERS


def skipped(file, old, new, found):
    """An item more that isn't inserted by anyone."""
    own = own_items(new, found)
    for place in own[:: max(1, len(own) // 3)]:
        yield lambda code, place=place: code.put(place, [Item(NOP)]), ITEMS


def other_constant(file, old, new, found):
    """An old item is another one: an iconst of another number."""
    for place in own_items(new, found):
        if new.items[place].opcode in range(2, 9):
            yield lambda code, place=place: replaced(code, place, Item(8 if code.items[place].opcode != 8 else 7)), ITEMS


def other_spelling(file, old, new, found):
    """A load of one byte is spelled with two."""
    for place in own_items(new, found):
        if 26 <= new.items[place].opcode < 46:
            kind, local = divmod(new.items[place].opcode - 26, 4)
            yield lambda code, place=place, item=(21 + kind, local): replaced(code, place, Item(item[0], bytes([item[1]]))), LAYOUT
            break


def other_target(file, old, new, found):
    """A branch leads to where its target itself is, past what is inserted before it."""
    for place, item in enumerate(new.items):
        for free, at in found.frees:
            if item.targets and new.items[at] in item.targets:
                yield lambda code, place=place, at=at: retarget(code, place, at, at + FREE_ITEMS), ITEMS


def widened(file, old, new, found):
    """A conditional branch becomes the opposite one with a goto behind it, though its target is in reach."""
    near = [place for place, item in enumerate(new.items[:-1]) if item.opcode in OPPOSITES and new.items[place + 1].opcode != GOTO_W]
    for place in near[:1]:
        for opcode in (GOTO, GOTO_W):
            yield lambda code, place=place, opcode=opcode: widen_at(code, place, opcode), LAYOUT


def other_numbers(file, old, new, found):
    """A word of stack or a local more than there is need of."""
    yield lambda code: setattr(code, "max_stack", code.max_stack + 1), LAYOUT
    yield lambda code: setattr(code, "max_locals", code.max_locals + 1), LAYOUT


def other_tables(file, old, new, found):
    """A row of a table begins one item later, or earlier where it begins at the last item."""
    for row in range(len(new.handlers)):
        yield lambda code, row=row: shift(code, code.handlers[row]), LAYOUT
    for number, (_, text, own) in enumerate(new.attributes):
        for row in range(len(own) if text else 0):
            yield lambda code, number=number, row=row: shift(code, code.attributes[number][2][row]), LAYOUT


CHANGES = (dropped, doubled, uncleared, moved, freed_untaken, shared, untaken, taken_elsewhere, unstarted, restarted, skipped, other_constant, other_target)
CHANGES += (widened, other_spelling, other_numbers, other_tables)


def copies(items):
    return [replace(item, targets=list(item.targets)) for item in items]


def own_items(new, found):
    """The places of the items that aren't inserted. Nothing is widened in the code of these pairs."""
    others = set(range(NULL_ITEMS * found.holders))
    others |= {place + k for _, place in found.frees for k in range(FREE_ITEMS)}
    others |= {place + k for _, place in found.takes for k in range(TAKE_ITEMS)}
    return [place for place in range(len(new.items)) if place not in others]


def is_taken(found, place):
    """Whether a holder takes the object of the item at a place."""
    return any(at == place + 1 for _, at in found.takes)


def leads_alone(new, before, after, place):
    """Whether control comes to an item, and to what is inserted before it, from the item before it alone."""
    named = {id(target) for item in new.items for target in item.targets} | {id(row[2]) for row in new.handlers}
    falls = new.items[before].opcode not in (GOTO, GOTO_W, TABLESWITCH, LOOKUPSWITCH, *range(172, 178), 191)
    return falls and not any(id(new.items[k]) in named for k in range(before + 1, after + 1))


def move(code, place, to):
    own = copies(code.items[place : place + FREE_ITEMS])
    code.drop(place, FREE_ITEMS)
    code.put(to, own)


def take(code, place, to):
    own = copies(code.items[place : place + TAKE_ITEMS])
    code.drop(place, TAKE_ITEMS)
    code.put(to, own)


def put_more(code, place, items):
    code.put(place, items)
    code.max_locals += 1


def widen_at(code, place, opcode):
    item, past = code.items[place], code.items[place + 1]
    code.items.insert(place + 1, Item(opcode, targets=item.targets))
    item.opcode, item.targets = OPPOSITES[item.opcode], [past]


def replaced(code, place, item):
    code.name(code.items[place], item)
    code.items[place] = item


def retarget(code, place, at, to):
    item = code.items[place]
    item.targets = [code.items[to] if target is code.items[at] else target for target in item.targets]


def shift(code, row):
    place = code.items.index(row[0])
    row[0] = code.items[place + 1 if place + 1 < len(code.items) else place - 1]


# ---- one change anywhere in a method: it may fail any part, or none


def freed_anywhere(file, old, new, found, chance):
    """A free comes before another item, chosen by chance."""
    for _, place in some(found.frees, chance):
        to = chance.choice(own_items(new, found))
        if not place <= to <= place + FREE_ITEMS:
            yield lambda code, place=place, to=to: move(code, place, to if to < place else to - FREE_ITEMS)


def freed_more(file, old, new, found, chance):
    """A holder is freed before one item more."""
    for _, place in some(found.frees, chance):
        to = chance.choice(own_items(new, found))
        yield lambda code, place=place, to=to: code.put(to, copies(code.items[place : place + FREE_ITEMS]))


def exchanged(file, old, new, found, chance):
    """Two frees before one item are exchanged."""
    places = [place for _, place in found.frees]
    for place in places:
        if place + FREE_ITEMS in places:
            yield lambda code, place=place: exchange(code, place)


def taken_anywhere(file, old, new, found, chance):
    """A holder takes what is on top of the stack behind another item."""
    own = own_items(new, found)
    for _, place in some(found.takes, chance):
        to = chance.choice(own[1:] or own)
        if not place <= to <= place + TAKE_ITEMS:
            yield lambda code, place=place, to=to: take(code, place, to if to < place else to - TAKE_ITEMS)


def renumbered(file, old, new, found, chance):
    """Two holders are exchanged wherever they take an object or are freed."""
    if found.holders > 1:
        yield lambda code: renumber(code, found, old.max_locals, old.max_locals + 1)


def held_more(file, old, new, found, chance):
    """A holder more, which takes no object."""
    more = old.max_locals + found.holders
    yield lambda code: hold_more(code, NULL_ITEMS * found.holders, more)


def undone(file, old, new, found, chance):
    """The method is as it was."""
    yield lambda code: code.__dict__.update(old.__dict__)


def other_way(file, old, new, found, chance):
    """A branch leads to the item behind its target."""
    for place, item in enumerate(new.items):
        at = new.items.index(item.targets[0]) if item.targets and item.opcode in BRANCHES else len(new.items)
        if at + 1 < len(new.items):
            yield lambda code, place=place, at=at: setattr(code.items[place], "targets", [code.items[at + 1]])
            return


def other_handler(file, old, new, found, chance):
    """A handler begins at the item behind its own."""
    for row, (_, _, handler, _) in enumerate(new.handlers[:3]):
        at = new.items.index(handler)
        if at + 1 < len(new.items):
            yield lambda code, row=row, at=at: code.handlers[row].__setitem__(2, code.items[at + 1])


def row_less(file, old, new, found, chance):
    """A row of a table less."""
    for row in range(min(3, len(new.handlers))):
        yield lambda code, row=row: code.handlers.pop(row)
    for number, (_, text, own) in enumerate(new.attributes):
        if text and own:
            yield lambda code, number=number: code.attributes[number][2].pop()


ANYWHERE = (freed_anywhere, freed_more, exchanged, taken_anywhere, renumbered, held_more, undone, other_way, other_handler, row_less)
SOME = 4


def some(places, chance):
    return chance.sample(places, min(SOME, len(places)))


def exchange(code, place):
    own = copies(code.items[place : place + 2 * FREE_ITEMS])
    code.drop(place, 2 * FREE_ITEMS)
    code.put(place, own[FREE_ITEMS:] + own[:FREE_ITEMS])


def renumber(code, found, one, other):
    other_of = {one: other, other: one}
    for place in [k for _, at in found.takes for k in (at + 1,)] + [k for _, at in found.frees for k in (at, at + 3)]:
        item = code.items[place]
        if item.loaded() in other_of:
            replaced(code, place, loads(other_of[item.loaded()]))
        elif item.stored() in other_of:
            replaced(code, place, stores(other_of[item.stored()]))


def hold_more(code, place, local):
    own = [Item(ACONST_NULL), stores(local)]
    code.items[place:place] = own
    code.max_locals += 1


# ---- one change in a class


def one_entry_more(file):
    """An entry more in the pool, which has room for it."""
    if file.count < 65_535:
        file.pool += struct.pack(">BH", 1, 4) + b"more"
        file.count += 1


def other_version(file):
    """Another version: 48.0, or 50.0."""
    file.head = file.head[:4] + struct.pack(">HH", 0, 48)


def final_method(file):
    """A method is final, or no more."""
    file.methods[0][0] ^= 0x10


def strict_method(file):
    """A method is synthetic, or no more."""
    file.methods[-1][0] ^= 0x1000


CLASS_CHANGES = (one_entry_more, other_version, final_method, strict_method)


# ---- pairs


def edited(written, place, edit):
    """A written class file with one of its codes changed, or None where a branch would have to be widened, a range of a handler gets empty, or the code gets
    longer than a class file may have it (JVMS 4.7.3)."""
    file = ClassFile(written)
    code = next(code for number, _, code in file.codes() if number == place)
    edit(code)
    with suppress(struct.error):
        changed = file.bytes()
        if code.end.at <= MAX_CODE_LENGTH and all(start.at < end.at for start, end, *_ in code.handlers):
            return changed
    return None


def pairs_of(original, written, seed=1):
    """Of the bytes of an original class file and those that freeme wrote of it: what is changed, the changed bytes, and the name and the part that an audit
    has to refuse, or None where that isn't argued."""
    old, new = ClassFile(original), ClassFile(written)
    if original == written:
        return
    for change in CLASS_CHANGES:
        file = ClassFile(written)
        change(file)
        if file.bytes() != written:
            yield change.__name__, file.bytes(), (file.name(), CLASSES)
    for (place, name, before), (_, _, after) in zip(old.codes(), new.codes()):
        if before.max_locals == after.max_locals:
            continue
        found, chance = inserted(new, before, after), random.Random(seed)
        edits = [(change, edit, (name, part)) for change in CHANGES for edit, part in change(new, before, after, found)]
        edits += [(change, edit, None) for change in ANYWHERE for edit in change(new, before, after, found, chance)]
        for change, edit, due in edits:
            changed = edited(written, place, edit)
            if changed and changed != written:
                yield change.__name__, changed, due
