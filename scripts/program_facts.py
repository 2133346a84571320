"""What an insertion into a program is judged by, worked out from its class files alone: which objects of which instructions nothing else reaches, where
they are in use, and where a local that holds one may hold something.

This is written after the rules that docs/MANUAL.md gives (what is freed) and the instruction chapter (JVMS 6.5), and shares nothing with the programs: what
they work out by lists of work is repeated here until nothing changes. It takes typed programs without class files that complete built-in classes, and
gives up by Unread where it meets anything else. For small programs: it takes a second for a few thousand instructions.
"""

import re
import struct
from collections import defaultdict

OBJECT = "java/lang/Object"
GLOBAL, RETURN = ("global",), ("return",)
ACC_PRIVATE, ACC_STATIC, ACC_INTERFACE, ACC_ABSTRACT = 0x2, 0x8, 0x200, 0x400
GOTOS, SWITCHES, RETURNS, ATHROW = (167, 200), (170, 171), range(172, 178), 191
CALLS = VIRTUAL, SPECIAL, STATIC, OF_INTERFACE = 182, 183, 184, 185
INT, LONG, SECOND, REFERENCE, NULL, TOP, THIS = "I", "J", "j", "A", "N", "T", "this"


class Unread(Exception):
    """What this doesn't read: a class file that completes a built-in class, or a member that it doesn't know."""


# ---- built-in classes: the superclass of each, and of each method which of its ends are linked (R: its result; 0: its receiver or first argument)

THROWABLES = {
    "Exception": "Throwable", "Error": "Throwable", "RuntimeException": "Exception", "java/io/IOException": "Exception",
    "CloneNotSupportedException": "Exception", "LinkageError": "Error", "IncompatibleClassChangeError": "LinkageError",
    "ArrayIndexOutOfBoundsException": "IndexOutOfBoundsException", "StringIndexOutOfBoundsException": "IndexOutOfBoundsException",
}
RUNTIME = "Arithmetic ArrayStore ClassCast IndexOutOfBounds NegativeArraySize NullPointer IllegalArgument IllegalState UnsupportedOperation"
THROWABLES |= {f"{name}Exception": "RuntimeException" for name in RUNTIME.split()}


def in_lang(name):
    return name if "/" in name or name == "FreeMe" else f"java/lang/{name}"


SUPERCLASSES = {in_lang(name): in_lang(above) for name, above in THROWABLES.items()}
PLAIN = "String StringBuilder StringBuffer System java/io/PrintStream java/io/InputStream Throwable FreeMe Class Cloneable java/io/Serializable"
SUPERCLASSES |= {in_lang(name): OBJECT for name in PLAIN.split()}
INTERFACES = ("java/lang/Cloneable", "java/io/Serializable")
TEXT = "Ljava/lang/String;"
METHODS = {
    OBJECT: {"<init>()V": (), "hashCode()I": (), "equals(Ljava/lang/Object;)Z": (), f"toString(){TEXT}": (), "getClass()Ljava/lang/Class;": (("R", "G"),),
             "clone()Ljava/lang/Object;": (("R", 0),)},
    "java/lang/String": {
        "length()I": (), "charAt(I)C": (), "equals(Ljava/lang/Object;)Z": (), "hashCode()I": (), f"compareTo({TEXT})I": (), f"toString(){TEXT}": (("R", 0),),
        f"substring(II){TEXT}": (), **{f"valueOf({kind}){TEXT}": () for kind in ("I", "J", "C", "Z", "[C")},
    },
    "java/lang/System": {"exit(I)V": ()},
    "java/io/PrintStream": {f"{name}({kind})V": () for name in ("print", "println") for kind in ("I", "J", "C", "Z", TEXT)} | {"println()V": ()},
    "java/io/InputStream": {"read()I": ()},
    "java/lang/Throwable": {f"getMessage(){TEXT}": (("R", 0),), f"toString(){TEXT}": ()},
    "java/lang/Class": {f"getName(){TEXT}": ()},
    "FreeMe": {},
}
for _name in ("java/lang/StringBuilder", "java/lang/StringBuffer"):
    METHODS[_name] = {f"append({kind})L{_name};": (("R", 0),) for kind in ("I", "J", "C", "Z", TEXT)}
    METHODS[_name] |= {"<init>()V": (), "length()I": (), f"toString(){TEXT}": (), "charAt(I)C": (), "setLength(I)V": ()}
METHODS["java/lang/StringBuffer"][f"<init>({TEXT})V"] = ()
for _name in [in_lang(name) for name in ("Throwable", *THROWABLES)]:
    METHODS.setdefault(_name, {}).update({"<init>()V": (), f"<init>({TEXT})V": ((0, 1),)})
STATIC_BUILT_IN = ("valueOf", "exit")


# ---- descriptors (JVMS 4.3)


def words_of(descriptor):
    """The kinds of the words of a descriptor's arguments and of its result, in order."""
    arguments, result = re.fullmatch(r"\((.*)\)(.*)", descriptor).groups()
    kinds = [word for kind in re.findall(r"\[*(?:L[^;]*;|.)", arguments) for word in kind_of(kind)]
    return kinds, [] if result == "V" else kind_of(result)


def kind_of(descriptor):
    """The words of a value of a type."""
    if descriptor[0] in "L[":
        return [REFERENCE]
    return [LONG, SECOND] if descriptor == "J" else [INT]


# ---- classes


class Method:
    def __init__(self, owner, flags, name, descriptor, code=None, links=()):
        self.owner, self.flags, self.name, self.descriptor, self.code = owner, flags, name, descriptor, code
        self.links, self.is_static = set(), bool(flags & ACC_STATIC)
        arguments, self.result = words_of(descriptor)
        self.words = ([] if self.is_static else [REFERENCE]) + arguments
        for one, other in links:
            self.links.add(frozenset((self.end(one), self.end(other))))

    def end(self, letter):
        return {"R": RETURN, "G": GLOBAL}.get(letter, ("parameter", letter))

    def ends(self):
        """The ends that can be linked: reference parameters by their local, what is returned, and what all can reach."""
        parameters = [("parameter", word) for word, kind in enumerate(self.words) if kind == REFERENCE]
        return [*parameters, *([RETURN] if self.result == [REFERENCE] else []), GLOBAL]


class Class:
    def __init__(self, name, above, interfaces, flags):
        self.name, self.above, self.interfaces, self.flags, self.methods = name, above, interfaces, flags, {}


class Linked:
    """Classes with their methods, as far as calls ask for them."""

    def __init__(self, files):
        self.classes = {OBJECT: Class(OBJECT, None, [], 0)}
        for name, above in SUPERCLASSES.items():
            self.classes[name] = Class(name, above, [], ACC_INTERFACE | ACC_ABSTRACT if name in INTERFACES else 0)
        for name, methods in METHODS.items():
            for text, links in methods.items():
                member, _, descriptor = text.partition("(")
                flags = ACC_STATIC if member in STATIC_BUILT_IN else 0
                self.classes[name].methods[text] = Method(name, flags, member, "(" + descriptor, links=links)
        self.coded = []
        for file in files:
            self.add(file)
        self.below = defaultdict(set)
        for name in self.classes:
            for above in self.types_above(name):
                self.below[above].add(name)
        self.found = {}

    def add(self, file):
        flags, _, above, count = struct.unpack(">4H", file.middle[:8])
        interfaces = [file.class_at(index) for index in struct.unpack(f">{count}H", file.middle[8 : 8 + 2 * count])]
        name = file.name()
        if name in self.classes:
            raise Unread(f"a class file of {name}")
        own = self.classes[name] = Class(name, file.class_at(above), interfaces, flags)
        for place, (flags, named, described, attributes) in enumerate(file.methods):
            code = next((body for _, body in attributes if hasattr(body, "items")), None)
            method = Method(name, flags, file.text(named), file.text(described), code)
            method.file, method.place = file, place
            own.methods[method.name + method.descriptor] = method
            if code:
                self.coded.append(method)

    def types_above(self, name):
        """A class with all classes and interfaces above it."""
        found, ahead = set(), [name]
        while ahead:
            one = ahead.pop()
            if one not in found:
                if one not in self.classes:
                    raise Unread(f"the class {one}")
                found.add(one)
                own = self.classes[one]
                ahead += [*([own.above] if own.above else []), *own.interfaces]
        return found

    def resolved(self, name, member):
        """The method that a use names: up the superclasses, and then in the interfaces."""
        chain = []
        while name:
            if name not in self.classes:
                raise Unread(f"the class {name}")
            chain.append(name)
            name = self.classes[name].above
        for one in [*chain, *sorted({type_above for one in chain for type_above in self.types_above(one)})]:
            if member in self.classes[one].methods:
                return self.classes[one].methods[member]
        raise Unread(f"the method {chain[0]}.{member}")

    def selected(self, name, resolved):
        """The method that a call of a resolved one selects for an object of a class (JVMS 5.4.6): where that is private it alone."""
        member = resolved.name + resolved.descriptor
        if resolved.flags & ACC_PRIVATE:
            return resolved
        while name:
            method = self.classes[name].methods.get(member)
            if method and not method.flags & (ACC_PRIVATE | ACC_STATIC):
                return method
            name = self.classes[name].above
        return None

    def targets(self, opcode, name, member, caller):
        """The methods that a call may lead to."""
        key = (opcode, name, member, caller.owner)
        if key not in self.found:
            self.found[key] = self.targets_of(*key)
        return self.found[key]

    def targets_of(self, opcode, name, member, caller):
        is_array = name[0] == "["
        resolved = self.resolved(OBJECT if is_array else name, member)
        if opcode == STATIC:
            return [resolved]
        if opcode == SPECIAL:
            above = self.classes[caller].above
            is_above = name != caller and name in self.types_above(caller)
            return [self.resolved(above, member)] if resolved.name != "<init>" and is_above else [resolved]
        found = {}
        for one in () if is_array else self.below[name]:
            if not self.classes[one].flags & (ACC_ABSTRACT | ACC_INTERFACE):
                method = self.selected(one, resolved)
                if method and not method.flags & ACC_ABSTRACT:
                    found[id(method)] = method
        if is_array or name in (OBJECT, *INTERFACES):
            method = self.selected(OBJECT, resolved)
            if method:
                found[id(method)] = method
        return list(found.values())


# ---- what instructions do with the stack: what they take, and then what they give, by opcode

EFFECTS = {}


def effects(text):
    for line in text.split(","):
        codes, effect = line.strip().split(" ")
        first, _, last = codes.partition("-")
        for code in range(int(first), int(last or first) + 1):
            EFFECTS[code] = tuple([kind for kind in part.replace("J", "Jj")] for part in effect.split(">"))


effects("0 >, 1 >N, 2-8 >I, 9-10 >J, 16-17 >I, 20 >J, 46 AI>I, 47 AI>J, 50 AI>A, 51-53 AI>I, 79 AII>, 80 AIJ>, 83 AIA>, 84-86 AII>, 87 X>, 88 XX>")
effects("96 II>I, 97 JJ>J, 100 II>I, 101 JJ>J, 104 II>I, 105 JJ>J, 108 II>I, 109 JJ>J, 112 II>I, 113 JJ>J, 116 I>I, 117 J>J, 120 II>I, 121 JI>J, 122 II>I")
effects("123 JI>J, 124 II>I, 125 JI>J, 126 II>I, 127 JJ>J, 128 II>I, 129 JJ>J, 130 II>I, 131 JJ>J, 133 I>J, 136 J>I, 145-147 I>I, 148 JJ>I")
effects("153-158 I>, 159-164 II>, 165-166 AA>, 167 >, 170-171 I>, 172 I>, 173 J>, 176 A>, 177 >, 188-189 I>A, 190 A>I, 191 A>, 192 A>A, 193 A>I, 198-199 A>, 200 >")
# Of the instructions that copy or swap: how many words they take, and which of these they give, from the lowest on.
COPIES = {89: (1, [0, 0]), 90: (2, [1, 0, 1]), 91: (3, [2, 0, 1, 2]), 92: (2, [0, 1, 0, 1]), 93: (3, [1, 2, 0, 1, 2]), 94: (4, [2, 3, 0, 1, 2, 3]), 95: (2, [1, 0])}
LOADS = {21: INT, 22: LONG, 25: REFERENCE}
STORES = {54: INT, 55: LONG, 58: REFERENCE}


def local_of(item, short, wide):
    """The local of an instruction of this kind: `short` is the first opcode with the local in it, `wide` the one with an operand."""
    if short <= item.opcode < short + 4:
        return item.opcode - short
    if item.opcode == wide:
        return item.operands[0]
    if item.opcode == 196 and item.operands[0] == wide:
        return struct.unpack(">H", item.operands[1:3])[0]
    return None


def access(item):
    """Whether an instruction loads a local, the local, and its kind; or None."""
    for is_load, rows, first in ((True, LOADS, 26), (False, STORES, 59)):
        for number, (wide, kind) in enumerate(rows.items()):
            short = first + 4 * (number if number < 2 else 4)
            local = local_of(item, short, wide)
            if local is not None:
                return is_load, local, kind
    return None


# ---- one method: its edges, its states, and the nodes that it joins


class Analysed:
    """A method's instructions with the states before them: of a state the words of the stack and the locals, each a kind, or ("new", item)."""

    def __init__(self, linked, method):
        self.linked, self.method, self.code, self.file = linked, method, method.code, method.file
        self.items = self.code.items
        self.number = {id(item): place for place, item in enumerate(self.items)} | {id(self.code.end): len(self.items)}
        self.states, self.gives = {}, {}
        self.normal = [self.normal_of(place) for place in range(len(self.items))]
        self.handlers = [self.handlers_of(place) for place in range(len(self.items))]
        self.type()
        self.live = self.live_locals()

    def normal_of(self, place):
        item = self.items[place]
        targets = [self.number[id(target)] for target in item.targets]
        ends = item.opcode in (*GOTOS, *SWITCHES, *RETURNS, ATHROW)
        return sorted({*targets, *([] if ends else [place + 1])})

    def handlers_of(self, place):
        number = self.number
        return sorted({number[id(row[2])] for row in self.code.handlers if number[id(row[0])] <= place < number[id(row[1])]})

    def member(self, place):
        """Of a use of a member: its class, name and descriptor."""
        return self.file.member_at(struct.unpack(">H", self.items[place].operands[:2])[0])

    def type(self):
        words = list(self.method.words)
        if self.method.name == "<init>":
            words[0] = THIS
        self.states[0] = ([], words + [TOP] * (self.code.max_locals - len(words)))
        ahead = [0]
        while ahead:
            place = ahead.pop()
            stack, words = self.step(place)
            for to in self.normal[place]:
                self.join(to, stack, words, ahead)
            for to in self.handlers[place]:
                self.join(to, [REFERENCE], self.states[place][1], ahead)

    def join(self, to, stack, words, ahead):
        if to >= len(self.items):
            raise Unread("a method that goes past its end")
        if to not in self.states:
            self.states[to] = (list(stack), list(words))
            ahead.append(to)
            return
        old = self.states[to]
        if len(old[0]) != len(stack):
            raise Unread("a method that isn't typed")
        new = ([joined(a, b) for a, b in zip(old[0], stack)], [joined(a, b) for a, b in zip(old[1], words)])
        if new != old:
            self.states[to] = new
            ahead.append(to)

    def step(self, place):
        """The state behind an instruction; where each word that it gives comes from is kept beside it."""
        item, (stack, words) = self.items[place], self.states[place]
        stack, words, opcode = list(stack), list(words), item.opcode
        took = access(item)
        if took:
            is_load, local, kind = took
            if is_load:
                return stack + ([LONG, SECOND] if kind == LONG else [words[local]]), words
            size = 2 if kind == LONG else 1
            value, stack = stack[-size:], stack[:-size]
            if local and words[local - 1] == LONG:
                words[local - 1] = TOP
            after = local + size
            if after < len(words) and words[after] == SECOND:
                words[after] = TOP
            words[local:after] = value
            return stack, words
        if opcode in COPIES:
            count, given = COPIES[opcode]
            value = stack[-count:]
            return stack[:-count] + [value[k] for k in given], words
        if opcode in (18, 19):
            index = item.operands[0] if opcode == 18 else struct.unpack(">H", item.operands)[0]
            return stack + [INT if self.file.entries[index][0] == 3 else REFERENCE], words
        if opcode == 132 or opcode == 196:
            return stack, words
        if opcode in (178, 179, 180, 181):
            value = kind_of(self.member(place)[2])
            count = (0 if opcode in (178, 179) else 1) + (len(value) if opcode in (179, 181) else 0)
            stack = stack[: len(stack) - count]
            return stack + (value if opcode in (178, 180) else []), words
        if opcode in CALLS:
            return self.called(place, stack, words)
        if opcode == 187:
            mine = ("new", place)
            return stack + [mine], [TOP if word == mine else word for word in words]
        if opcode == 197:
            return stack[: len(stack) - item.operands[2]] + [REFERENCE], words
        if opcode not in EFFECTS:
            raise Unread(f"the instruction {opcode}")
        takes, given = EFFECTS[opcode]
        return stack[: len(stack) - len(takes)] + given, words

    def called(self, place, stack, words):
        _, name, descriptor = self.member(place)
        arguments, result = words_of(descriptor)
        count = len(arguments) + (self.items[place].opcode != STATIC)
        receiver = stack[len(stack) - count] if self.items[place].opcode == SPECIAL else None
        stack = stack[: len(stack) - count] + result
        if name == "<init>":
            stack = [REFERENCE if word == receiver else word for word in stack]
            words = [REFERENCE if word == receiver else word for word in words]
        return stack, words

    def live_locals(self):
        """Of each instruction the locals that some way from it loads as a reference before it stores over them."""
        live = [set() for _ in self.items]
        does = [access(item) for item in self.items]
        changed = True
        while changed:
            changed = False
            for place in range(len(self.items) - 1, -1, -1):
                new = set().union(*(live[to] for to in self.normal[place] + self.handlers[place] if to < len(live)))
                if does[place] and not does[place][0]:
                    new -= {does[place][1], *([does[place][1] + 1] if does[place][2] == LONG else [])}
                if does[place] and does[place][0] and does[place][2] == REFERENCE:
                    new.add(does[place][1])
                if new != live[place]:
                    live[place], changed = new, True
        return live

    # -- nodes and pairs

    def is_node(self, place, depth):
        return self.states[place][0][depth] not in (INT, LONG, SECOND, TOP)

    def pairs(self):
        for place in self.states:
            stack, item = self.states[place][0], self.items[place]
            size, opcode, took = len(stack), item.opcode, access(item)
            for to in self.handlers[place]:
                yield ("slot", to, 0), GLOBAL
            takes = self.taken(place)
            for to in self.normal[place]:
                for depth in range(size - takes):
                    yield ("slot", place, depth), ("slot", to, depth)
                pushed = ("slot", to, size - takes)
                if took and took[2] == REFERENCE and took[0]:
                    yield ("local", took[1]), pushed
                if opcode in COPIES:
                    for k, source in enumerate(COPIES[opcode][1]):
                        yield ("slot", place, size - takes + source), ("slot", to, size - takes + k)
                if opcode == 192 or opcode == 50 or opcode == 180 and kind_of(self.member(place)[2]) == [REFERENCE]:
                    yield ("slot", place, size - takes), pushed
                if opcode == 178 and kind_of(self.member(place)[2]) == [REFERENCE]:
                    yield pushed, GLOBAL
            if took and took[2] == REFERENCE and not took[0]:
                yield ("slot", place, size - 1), ("local", took[1])
            if opcode == 181 and kind_of(self.member(place)[2]) == [REFERENCE]:
                yield ("slot", place, size - 2), ("slot", place, size - 1)
            if opcode == 83:
                yield ("slot", place, size - 3), ("slot", place, size - 1)
            if opcode == 179 and kind_of(self.member(place)[2]) == [REFERENCE] or opcode == ATHROW:
                yield ("slot", place, size - 1), GLOBAL
            if opcode == 176:
                yield ("slot", place, size - 1), RETURN

    def taken(self, place):
        """How many words an instruction takes off the stack."""
        before, item = self.states[place][0], self.items[place]
        if item.opcode in COPIES:
            return COPIES[item.opcode][0]
        took = access(item)
        if took:
            return 0 if took[0] else 2 if took[2] == LONG else 1
        if item.opcode in CALLS:
            arguments, _ = words_of(self.member(place)[2])
            return len(arguments) + (item.opcode != STATIC)
        if item.opcode in (178, 179, 180, 181):
            size = len(kind_of(self.member(place)[2]))
            return {178: 0, 179: size, 180: 1, 181: 1 + size}[item.opcode]
        if item.opcode == 197:
            return item.operands[2]
        return len(EFFECTS[item.opcode][0]) if item.opcode in EFFECTS else 0

    def calls(self):
        """Of each call its place, its targets, and the node of each of their ends."""
        for place in self.states:
            if self.items[place].opcode in CALLS:
                name, member, descriptor = self.member(place)
                below = len(self.states[place][0]) - self.taken(place)
                to = self.normal[place][0]
                targets = self.linked.targets(self.items[place].opcode, name, member + descriptor, self.method)
                yield place, targets, lambda end, place=place, to=to, below=below: (
                    ("slot", place, below + end[1]) if end[0] == "parameter" else ("slot", to, below) if end == RETURN else end
                )


def joined(one, other):
    if one == other:
        return one
    return REFERENCE if {one, other} <= {REFERENCE, NULL} else TOP


# ---- classes of nodes, by what methods link


class Sets:
    """Disjoint sets of nodes."""

    def __init__(self):
        self.above = {}

    def of(self, node):
        while (above := self.above.get(node, node)) != node:
            self.above[node] = self.above.get(above, above)
            node = above
        return node

    def join(self, one, other):
        self.above[self.of(one)] = self.of(other)


def sets_of(analysed):
    """The classes of a method's nodes, by what its calls link as far as that is known."""
    sets = Sets()
    for one, other in analysed.pairs():
        sets.join(one, other)
    for _, targets, node in analysed.calls():
        for target in targets:
            for link in target.links:
                if len(link) == 2:
                    sets.join(*(node(end) for end in link))
    return sets


def local_node(end):
    return ("local", end[1]) if end[0] == "parameter" else end


class Facts:
    """Of each method that has code: its instructions with their states, and by the classes of its nodes what is captured, in use, and may be held."""

    def __init__(self, files):
        linked = Linked(files)
        self.methods = [Analysed(linked, method) for method in linked.coded]
        changed = True
        while changed:
            changed = False
            for analysed in self.methods:
                sets, ends = sets_of(analysed), analysed.method.ends()
                links = {frozenset((a, b)) for a in ends for b in ends if a != b and sets.of(local_node(a)) == sets.of(local_node(b))}
                if links != analysed.method.links:
                    analysed.method.links, changed = links, True
        for analysed in self.methods:
            analysed.sets = sets_of(analysed)
            analysed.used = self.used(analysed)
            analysed.captured = self.captured(analysed)

    def used(self, analysed):
        """Of each instruction that can be reached the classes that are in use there."""
        used = {}
        for place, (stack, _) in analysed.states.items():
            nodes = [("slot", place, depth) for depth in range(len(stack)) if analysed.is_node(place, depth)]
            nodes += [("local", local) for local in analysed.live[place]]
            used[place] = {analysed.sets.of(node) for node in nodes}
        return used

    def captured(self, analysed):
        """Of each instruction whose objects only the method reaches, and only while it runs: their class."""
        outside = {analysed.sets.of(local_node(end)) for end in [*analysed.method.ends(), RETURN]}
        sites = {}
        for place, targets, node in analysed.calls():
            stack = analysed.states[place][0]
            if analysed.member(place)[1] == "<init>":
                at = len(stack) - analysed.taken(place)
                if at and stack[at][0] == "new" and stack[at] == stack[at - 1]:
                    sites[place] = ("slot", analysed.normal[place][0], at - 1)
            elif words_of(analysed.member(place)[2])[1] == [REFERENCE] and targets:
                if not any(RETURN in link and len(link) == 2 for target in targets for link in target.links):
                    sites[place] = node(RETURN)
        for place, (stack, _) in analysed.states.items():
            if analysed.items[place].opcode in (188, 189, 197):
                sites[place] = ("slot", place + 1, len(stack) - analysed.taken(place))
        return {place: analysed.sets.of(node) for place, node in sites.items() if analysed.sets.of(node) not in outside}


def may_hold(analysed, site):
    """The instructions at which a local that takes the object of a captured site may hold something."""
    own, found, ahead = analysed.captured[site], set(), [site + 1]
    while ahead:
        place = ahead.pop()
        if place in found:
            continue
        found.add(place)
        if own in analysed.used[place]:
            ahead += analysed.normal[place] + analysed.handlers[place]
    return found
