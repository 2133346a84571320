"""What an audit has to answer of class files and those that somebody wrote for them, by the six parts of a safe insertion as docs/MANUAL.md has them.

Nothing here is taken from the programs: the classes are read (audited_pairs.py), what is inserted is seen by its locals and its calls,
the objects and where they are in use are worked out anew (program_facts.py), and the code is laid out anew from what was read as inserted.
"""

import struct
from dataclasses import dataclass, field

from audited_pairs import ACONST_NULL, BRANCHES, CLASSES, DUP, FREES, GOTO, GOTO_W, HOLDERS, INVOKESTATIC, ITEMS, LAYOUT, MAX_LOCALS, OPPOSITES, USES, WIDE
from audited_pairs import ClassFile, Item, loads, stores
from program_facts import Facts, access, may_hold

VERSION = struct.pack(">HH", 0, 49)
TEXT, CLASS, NAME_AND_TYPE, METHOD = 1, 7, 12, 10
OF_TABLES = (b"LineNumberTable", b"LocalVariableTable", b"LocalVariableTypeTable")


def meaning(item):
    """An instruction without its targets, in whatever form it is spelled."""
    took = access(item)
    if took:
        return took
    opcode, operands = item.opcode, item.operands
    if 2 <= opcode <= 8 or opcode in (16, 17):
        return "int", opcode - 3 if opcode <= 8 else int.from_bytes(operands, "big", signed=True)
    if opcode in (18, 19, 20):
        return "constant", int.from_bytes(operands, "big")
    if opcode == 132:
        return "increment", operands[0], int.from_bytes(operands[1:], "big", signed=True)
    if opcode == WIDE:
        return "increment", *struct.unpack(">Hh", operands[1:])
    return (GOTO,) if opcode in (GOTO, GOTO_W) else (opcode, operands)


# ---- what is inserted


class Unread(Exception):
    """Items that aren't the old ones with what may be inserted."""


@dataclass
class Plan:
    """What is inserted into a method: the holders that are null at its start; before which old item which are freed, and behind which one takes its object."""

    start: list = field(default_factory=list)
    before: list = field(default_factory=list)
    after: list = field(default_factory=list)


class Reading:
    """New items of a method, read beside its old ones from the first on."""

    def __init__(self, file, old, new):
        self.file, self.first, self.old, self.new, self.at = file, old.max_locals, old.items, new.items, 0
        self.plan, self.anchors, self.kept = Plan(), [], []

    def holder(self, ahead, is_load):
        """The local that a reference is loaded from or stored into by the item so far ahead, where that is a new one."""
        place = self.at + ahead
        took = access(self.new[place]) if place < len(self.new) else None
        return took[1] if took and took[0] == is_load and took[2] == "A" and took[1] >= self.first else None

    def opcode(self, ahead):
        place = self.at + ahead
        return self.new[place].opcode if place < len(self.new) else None

    def is_free(self, ahead):
        return self.opcode(ahead) == INVOKESTATIC and self.file.is_free(struct.unpack(">H", self.new[self.at + ahead].operands)[0])

    def nulled(self, ahead):
        return self.holder(ahead + 1, False) if self.opcode(ahead) == ACONST_NULL else None

    def read(self):
        while (holder := self.nulled(0)) is not None:
            self.plan.start.append(holder)
            self.at += 2
        for number, item in enumerate(self.old):
            self.anchors.append(self.at)
            freed = []
            while (holder := self.holder(0, True)) is not None:
                if not self.is_free(1) or self.nulled(2) != holder or holder in freed:
                    raise Unread
                freed.append(holder)
                self.at += 4
            self.keep(item)
            self.plan.before += [(number, holder) for holder in freed]
            if self.opcode(0) == DUP and (holder := self.holder(1, False)) is not None:
                self.plan.after.append((number, holder))
                self.at += 2
        if self.at != len(self.new):
            raise Unread
        if any(holder >= MAX_LOCALS for holder in [*self.plan.start, *(holder for _, holder in self.plan.before + self.plan.after)]):
            raise Unread
        self.check_targets()
        return self.plan

    def keep(self, item):
        if self.at >= len(self.new):
            raise Unread
        new = self.new[self.at]
        if item.opcode in OPPOSITES and new.opcode == OPPOSITES[item.opcode] and self.opcode(1) in (GOTO, GOTO_W):
            self.kept.append((item, new, self.new[self.at + 1]))
            self.at += 2
        elif meaning(item) == meaning(new) and len(item.targets) == len(new.targets):
            self.kept.append((item, new, None))
            self.at += 1
        else:
            raise Unread

    def check_targets(self):
        """Each branch leads to what is inserted before the item that the old one leads to, or to it itself; the test of a widened one past its goto, or to it where
        no item follows."""
        number = {id(item): place for place, item in enumerate(self.old)}
        place_of = {id(item): place for place, item in enumerate(self.new)}
        for item, new, wide in self.kept:
            due = [self.new[self.anchors[number[id(target)]]] for target in item.targets]
            if wide is not None:
                past = self.new[place_of[id(wide)] + 1 :][:1] or [wide]
                if new.targets != past or wide.targets != due:
                    raise Unread
            elif new.targets != due:
                raise Unread


# ---- the pool


class Pool:
    """A pool as a list of entries, each a tag and its bytes, from index 1 on; the second half of a long is None."""

    def __init__(self, file):
        self.entries = [None] * file.count
        for index, text in file.texts.items():
            self.entries[index] = (TEXT, text)
        for index, entry in file.entries.items():
            self.entries[index] = entry

    def content(self, index):
        """An entry with the texts that it leads to in place of its indices."""
        tag, own = self.entries[index] or (None, None)
        if tag == TEXT:
            return tag, own
        if tag == CLASS:
            return tag, self.content(struct.unpack(">H", own)[0])
        if tag in (NAME_AND_TYPE, METHOD):
            return tag, *(self.content(at) for at in struct.unpack(">HH", own))
        return None

    def find_or_add(self, content, entry):
        for index in range(1, len(self.entries)):
            if self.entries[index] and self.entries[index][0] == content[0] and self.content(index) == content:
                return index
        self.entries.append((content[0], entry))
        return len(self.entries) - 1


def pool_with_free(file):
    """A file's pool with the six entries of FreeMe.free, those that it lacks behind it, and the index of the method."""
    pool = Pool(file)

    def two(*indices):
        return struct.pack(f">{len(indices)}H", *indices)

    name, of_name = (TEXT, b"FreeMe"), pool.find_or_add((TEXT, b"FreeMe"), b"FreeMe")
    owner, of_owner = (CLASS, name), pool.find_or_add((CLASS, name), two(of_name))
    free, of_free = (TEXT, b"free"), pool.find_or_add((TEXT, b"free"), b"free")
    kind, of_kind = (TEXT, b"(Ljava/lang/Object;)V"), pool.find_or_add((TEXT, b"(Ljava/lang/Object;)V"), b"(Ljava/lang/Object;)V")
    pair, of_pair = (NAME_AND_TYPE, free, kind), pool.find_or_add((NAME_AND_TYPE, free, kind), two(of_free, of_kind))
    return pool, pool.find_or_add((METHOD, owner, pair), two(of_owner, of_pair))


# ---- layout


def laid_out(file, place, plan, free):
    """The body of the Code attribute of a method of a class file with this plan: holders from max_locals on, frees by the method of this index."""
    code = next(body for number, _, body in file.codes() if number == place)
    old = list(code.items)
    new = [item for holder in plan.start for item in (Item(ACONST_NULL), stores(holder))]
    for number, item in enumerate(old):
        inserted = []
        for at, holder in plan.before:
            if at == number:
                inserted += [loads(holder), Item(INVOKESTATIC, struct.pack(">H", free)), Item(ACONST_NULL), stores(holder)]
        if inserted:
            code.name(item, inserted[0])
        new += [*inserted, item]
        for at, holder in plan.after:
            if at == number:
                new += [Item(DUP), stores(holder)]
    code.items = new
    code.max_stack, code.max_locals = code.max_stack + 1, code.max_locals + len(plan.start)
    code.attributes = [row for row in code.attributes if row[1] in OF_TABLES]
    widen(code)
    return code.body()


def widen(code):
    """Makes branches wide whose targets are out of reach, in rounds over the whole code, until there are none."""
    while True:
        code.lay_out()
        far = [item for item in code.items if item.opcode in BRANCHES and item.targets and not -32768 <= item.targets[0].at - item.at < 32768]
        if not far:
            return
        for item in far:
            if item.opcode == GOTO:
                item.opcode = GOTO_W
                continue
            at = next(k for k, one in enumerate(code.items) if one is item)
            wide = Item(GOTO_W, targets=item.targets)
            past = code.items[at + 1] if at + 1 < len(code.items) else wide
            item.opcode, item.targets = OPPOSITES[item.opcode], [past]
            code.items.insert(at + 1, wide)


# ---- the parts


class Original:
    """Class files as they are read, with what is known of their methods."""

    def __init__(self, files):
        self.files = [ClassFile(file) for file in files]
        self.bytes, self.known = files, {}
        facts = Facts(self.files)
        self.analysed = {(analysed.file.name(), analysed.method.place): analysed for analysed in facts.methods}

    def verdict(self, written):
        """What an audit of these class files, in the order of the originals, has to answer: None where they are safe, or the name and the part that it refuses."""
        judged = [self.judged(place, new) for place, new in enumerate(written)]
        return next((due for due in judged if due and due[1] == CLASSES), None) or next(filter(None, judged), None)

    def judged(self, place, written):
        """The same of one class."""
        if (place, written) not in self.known:
            self.known[place, written] = None if written == self.bytes[place] else self.judged_anew(self.files[place], ClassFile(written))
        return self.known[place, written]

    def judged_anew(self, old, new):
        if not is_class_kept(old, new):
            return old.name(), CLASSES
        for (place, name, before), (_, _, after) in zip(old.codes(), new.codes()):
            part = self.part(old, new, place, before, after) if before.body() != after.body() else None
            if part:
                return name, part
        return None

    def part(self, old, new, place, before, after):
        """The least part that a method fails which isn't as it was, or None."""
        try:
            plan = Reading(new, before, after).read()
        except Unread:
            return ITEMS
        analysed = self.analysed[old.name(), place]
        if not are_holders(before, plan, analysed):
            return HOLDERS
        sites = {holder: site for site, holder in plan.after}
        for item, holder in plan.before:
            if holder not in sites or analysed.captured[sites[holder]] in analysed.used.get(item, ()):
                return USES
        for holder, site in sites.items():
            for item in may_hold(analysed, site):
                if analysed.captured[site] not in analysed.used[item] and (item, holder) not in plan.before:
                    return FREES
        body = laid_out(ClassFile(self.bytes[self.files.index(old)]), place, plan, pool_with_free(old)[1])
        return None if body == after.body() else LAYOUT


def are_holders(before, plan, analysed):
    """Whether there are holders, the locals from the old max_locals on, all null at the start in rising order, which alone take objects, each those of one captured
    site."""
    due = [before.max_locals + k for k in range(len(plan.start))]
    taken = [holder for _, holder in plan.after]
    if not plan.start or plan.start != due or sorted(taken) != due:
        return False
    return all(site in analysed.captured for site, _ in plan.after)


def is_class_kept(old, new):
    """Whether a class is the given one but for code, and has the version and the pool that it has to have."""
    if old.middle != new.middle or old.rest != new.rest or len(old.methods) != len(new.methods):
        return False
    is_changed = False
    for before, after in zip(old.methods, new.methods):
        if before[:3] != after[:3] or [name for name, _ in before[3]] != [name for name, _ in after[3]]:
            return False
        for (_, one), (_, other) in zip(before[3], after[3]):
            if hasattr(one, "body") != hasattr(other, "body"):
                return False
            if hasattr(one, "body"):
                is_changed |= one.body() != other.body()
            elif one != other:
                return False
    pool = pool_with_free(old)[0] if is_changed else Pool(old)
    head = old.head[:4] + (VERSION if is_changed else old.head[4:])
    return new.head == head and Pool(new).entries == pool.entries
