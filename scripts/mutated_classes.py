"""Class files with something changed: the bytes of good ones, each changed in one of several ways, the same ones each time.

The ways: `bytes` puts other bytes at up to four places, `cut` leaves out a piece or the rest, `doubled` repeats a piece, `length` changes
a length or a count, `tag` changes the tag of an entry of the constant pool or the index that follows it, and `code` puts an instruction
of the same length, or another operand. Three of eight are changed in the last way, since most of the others make a file that no reader takes.
"""

from random import Random

# How many bytes follow the tag of each entry of a constant pool but a text.
SIZES = {3: 4, 4: 4, 5: 8, 6: 8, 7: 2, 8: 2, 9: 4, 10: 4, 11: 4, 12: 4, 15: 3, 16: 2, 18: 4}
# How many bytes each instruction has, by its opcode; 0 where that differs from one to the next (switches and wide).
LONGER = {2: (16, 18, *range(21, 26), *range(54, 59), 169, 188), 4: (197,), 5: (185, 186, 200, 201), 0: (170, 171, 196)}
LONGER[3] = (17, 19, 20, 132, *range(153, 169), *range(178, 185), 187, 189, 192, 193, 198, 199)
BYTES = [next((size for size, codes in LONGER.items() if code in codes), 1) for code in range(202)]
LENGTHS = (0, 1, 2, 255, 256, 65_534, 65_535)
LONG_LENGTHS = (0, 1, 65_536, 2**31 - 1, 2**31, 2**32 - 1)


class Places:
    """Where a well-formed class file has its tags, its lengths of two and of four bytes, and its instructions, as offsets."""

    def __init__(self, file):
        self.file, self.at = file, 8
        self.tags, self.shorts, self.longs, self.instructions, self.texts = [], [], [], [], {}
        self.constants()
        self.at += 6
        self.skip(2)
        for _ in range(2):
            for _ in range(self.count()):
                self.at += 6
                self.attributes()
        self.attributes()
        assert self.at == len(file), "isn't a well-formed class file"

    def number(self, size):
        return int.from_bytes(self.file[self.at : self.at + size], "big")

    def count(self):
        self.shorts.append(self.at)
        self.at += 2
        return int.from_bytes(self.file[self.at - 2 : self.at], "big")

    def skip(self, size):
        """Goes past a table whose entries have this size."""
        entries = self.count()
        self.at += size * entries

    def constants(self):
        index, end = 1, self.count()
        while index < end:
            tag = self.number(1)
            self.tags.append(self.at)
            self.at += 1
            if tag == 1:
                length = self.count()
                self.texts[index] = self.file[self.at : self.at + length]
                self.at += length
            else:
                self.at += SIZES[tag]
            index += 2 if tag in (5, 6) else 1

    def attributes(self):
        for _ in range(self.count()):
            name = self.texts.get(self.number(2))
            self.longs.append(self.at + 2)
            self.at += 2
            length = self.number(4)
            self.at += 4
            if name == b"Code":
                self.code()
            else:
                self.at += length

    def code(self):
        """Goes past a Code attribute, whose max_stack and max_locals count as lengths."""
        self.shorts += [self.at, self.at + 2]
        self.longs.append(self.at + 4)
        self.at += 4
        length = self.number(4)
        self.at += 4
        at, end = self.at, self.at + length
        while at < end and BYTES[self.file[at]]:
            # Instructions behind a switch aren't looked for.
            self.instructions.append(at)
            at += BYTES[self.file[at]]
        self.at = end
        self.skip(8)
        self.attributes()


def put(file, at, piece):
    return file[:at] + piece + file[at + len(piece) :]


def with_bytes(random, file, places):
    for _ in range(random.randint(1, 4)):
        file = put(file, random.randrange(len(file)), bytes([random.randrange(256)]))
    return file


def cut(random, file, places):
    begin = random.randrange(len(file))
    return file[:begin] + (file[begin + random.randint(1, 16) :] if random.random() < 0.5 else b"")


def doubled(random, file, places):
    begin = random.randrange(len(file))
    end = min(len(file), begin + random.randint(1, 64))
    return file[:end] + file[begin:]


def with_length(random, file, places):
    is_long = random.random() < 0.4 and bool(places.longs)
    at, size = (random.choice(places.longs), 4) if is_long else (random.choice(places.shorts), 2)
    was = int.from_bytes(file[at : at + size], "big")
    length = random.choice([was - 1, was + 1, *(LONG_LENGTHS if is_long else LENGTHS)])
    return put(file, at, (length % 2 ** (8 * size)).to_bytes(size, "big"))


def with_tag(random, file, places):
    at = random.choice(places.tags)
    if random.random() < 0.5:
        return put(file, at, bytes([random.choice([*SIZES, 1, 0, 2, 255])]))
    return put(file, at + 1, random.randrange(len(places.tags) + 2).to_bytes(2, "big"))


def with_code(random, file, places):
    if not places.instructions:
        return with_bytes(random, file, places)
    at = random.choice(places.instructions)
    opcode, size = file[at], BYTES[file[at]]
    if size > 1 and random.random() < 0.3:
        return put(file, at + random.randrange(1, size), bytes([random.randrange(256)]))
    others = [other for other in range(202) if BYTES[other] == size and other != opcode]
    near = [other for other in others if abs(other - opcode) <= 4]
    return put(file, at, bytes([random.choice(near if near and random.random() < 0.7 else others)]))


WAYS = {"bytes": with_bytes, "cut": cut, "doubled": doubled, "length": with_length, "tag": with_tag, "code": with_code}


def mutated(files, count, seed):
    """This many changed files, each as its way, the index of the file in `files` that it was made from, and its bytes."""
    random, places = Random(seed), [Places(file) for file in files]
    for number in range(count):
        way = [*WAYS, "code", "code"][number % (len(WAYS) + 2)]
        index = random.randrange(len(files))
        yield way, index, WAYS[way](random, files[index], places[index])
