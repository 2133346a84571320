#!/usr/bin/env python3
"""Writes classes/Instructions.class: a method for each case of an instruction, which prints its name and what comes of it.

    src/make.py

A compiler writes few of these as they stand here: stack moves over longs and pairs, wide forms, long jumps, and
instructions at places where only the machine's rules tell what comes. The classes have the version 49.0, so each Java
virtual machine checks them as this project does. `java -cp classes Instructions` gives expected.out.
"""

import struct
from pathlib import Path

OPCODES = """
0 nop 1 aconst_null 2 iconst_m1 3 iconst_0 4 iconst_1 5 iconst_2 6 iconst_3 7 iconst_4 8 iconst_5 9 lconst_0 10 lconst_1 16 bipush
17 sipush 18 ldc 19 ldc_w 20 ldc2_w 21 iload 22 lload 25 aload 26 iload_0 27 iload_1 28 iload_2 29 iload_3 30 lload_0 31 lload_1
32 lload_2 33 lload_3 42 aload_0 43 aload_1 44 aload_2 45 aload_3 46 iaload 47 laload 50 aaload 51 baload 52 caload 53 saload
54 istore 55 lstore 58 astore 59 istore_0 60 istore_1 61 istore_2 62 istore_3 63 lstore_0 64 lstore_1 65 lstore_2 66 lstore_3
75 astore_0 76 astore_1 77 astore_2 78 astore_3 79 iastore 80 lastore 83 aastore 84 bastore 85 castore 86 sastore 87 pop 88 pop2
89 dup 90 dup_x1 91 dup_x2 92 dup2 93 dup2_x1 94 dup2_x2 95 swap 96 iadd 97 ladd 100 isub 101 lsub 104 imul 105 lmul 108 idiv
109 ldiv 112 irem 113 lrem 116 ineg 117 lneg 120 ishl 121 lshl 122 ishr 123 lshr 124 iushr 125 lushr 126 iand 127 land 128 ior
129 lor 130 ixor 131 lxor 132 iinc 133 i2l 136 l2i 145 i2b 146 i2c 147 i2s 148 lcmp 153 ifeq 154 ifne 155 iflt 156 ifge 157 ifgt
158 ifle 159 if_icmpeq 160 if_icmpne 161 if_icmplt 162 if_icmpge 163 if_icmpgt 164 if_icmple 165 if_acmpeq 166 if_acmpne 167 goto
170 tableswitch 171 lookupswitch 172 ireturn 173 lreturn 176 areturn 177 return 178 getstatic 179 putstatic 180 getfield
181 putfield 182 invokevirtual 183 invokespecial 184 invokestatic 185 invokeinterface 187 new 188 newarray 189 anewarray
190 arraylength 191 athrow 192 checkcast 193 instanceof 196 wide 197 multianewarray 198 ifnull 199 ifnonnull 200 goto_w
""".split()
CODE = {name: int(number) for number, name in zip(OPCODES[::2], OPCODES[1::2])}
LOCALS = {"iload", "lload", "aload", "istore", "lstore", "astore"}
JUMPS = {name for name in CODE if name.startswith("if")} | {"goto"}
FIELDS = {"getstatic", "putstatic", "getfield", "putfield"}
TYPES = {"new", "anewarray", "checkcast", "instanceof"}
ELEMENTS = {"boolean": 4, "char": 5, "byte": 8, "short": 9, "int": 10, "long": 11}
VERSION = 49
STACK, LOCAL_WORDS = 12, 300


def u2(number):
    return struct.pack(">H", number & 0xFFFF)


class Class:
    """A class file that is being put together: pool, fields, methods."""

    def __init__(self, name, above="java/lang/Object", flags=0x21, interfaces=()):
        self.name, self.pool, self.numbers, self.fields, self.methods = name, [None], {}, [], []
        self.head = u2(flags) + u2(self.of_class(name)) + u2(self.of_class(above))
        self.head += u2(len(interfaces)) + b"".join(u2(self.of_class(i)) for i in interfaces)

    def entry(self, bytes_, wide=False):
        if bytes_ not in self.numbers:
            self.numbers[bytes_] = len(self.pool)
            self.pool += [bytes_, None] if wide else [bytes_]
        return self.numbers[bytes_]

    def utf8(self, text):
        spelled = text.encode("utf-8").replace(b"\0", b"\xc0\x80")
        return self.entry(b"\1" + u2(len(spelled)) + spelled)

    def of_class(self, name):
        return self.entry(b"\7" + u2(self.utf8(name)))

    def constant(self, value):
        if isinstance(value, str):
            return self.entry(b"\x08" + u2(self.utf8(value)))
        return self.entry(b"\3" + struct.pack(">i", value))

    def long(self, value):
        return self.entry(b"\5" + struct.pack(">q", value), wide=True)

    def member(self, tag, owner, name, descriptor):
        pair = self.entry(b"\x0c" + u2(self.utf8(name)) + u2(self.utf8(descriptor)))
        return self.entry(bytes([tag]) + u2(self.of_class(owner)) + u2(pair))

    def field(self, flags, name, descriptor):
        self.fields.append(u2(flags) + u2(self.utf8(name)) + u2(self.utf8(descriptor)) + u2(0))

    def method(self, flags, name, descriptor, text=None):
        code = b""
        if text is not None:
            bytes_, handlers = Assembler(self, text).done()
            table = u2(len(handlers)) + b"".join(handlers)
            body = u2(STACK) + u2(LOCAL_WORDS) + struct.pack(">I", len(bytes_)) + bytes_ + table + u2(0)
            code = u2(self.utf8("Code")) + struct.pack(">I", len(body)) + body
        self.methods.append(u2(flags) + u2(self.utf8(name)) + u2(self.utf8(descriptor)) + u2(bool(code)) + code)

    def write(self, folder):
        pool = u2(len(self.pool)) + b"".join(entry for entry in self.pool if entry)
        rest = self.head + u2(len(self.fields)) + b"".join(self.fields) + u2(len(self.methods)) + b"".join(self.methods)
        (folder / f"{self.name}.class").write_bytes(struct.pack(">IHH", 0xCAFEBABE, 0, VERSION) + pool + rest + u2(0))


class Assembler:
    """Instructions of a text: one in each part between bars, `LABEL:` before it, `catch FROM TO HANDLER TYPE`."""

    def __init__(self, owner, text):
        self.owner, self.bytes, self.labels, self.open, self.handlers = owner, bytearray(), {}, [], []
        for part in text.split("|"):
            words = part.split()
            while words and words[0].endswith(":"):
                self.labels[words.pop(0)[:-1]] = len(self.bytes)
            if words:
                self.one(*words)

    def jump(self, label, size):
        self.open.append((len(self.bytes), self.start, label, size))
        self.bytes += bytes(size)

    def one(self, name, *words):
        self.start = len(self.bytes)
        if name == "catch":
            self.handlers.append(words)
            return
        if name == "wide":
            number = CODE[words[0]]
            self.bytes += bytes([CODE["wide"], number]) + b"".join(u2(int(w)) for w in words[1:])
            return
        self.bytes.append(CODE[name])
        owner = self.owner
        if name in ("bipush",) or name in LOCALS:
            self.bytes.append(int(words[0]) & 0xFF)
        elif name == "sipush":
            self.bytes += u2(int(words[0]))
        elif name in ("ldc", "ldc_w"):
            text = " ".join(words)
            index = owner.constant(text[1:-1] if text.startswith("'") else int(text))
            self.bytes += bytes([index]) if name == "ldc" else u2(index)
        elif name == "ldc2_w":
            self.bytes += u2(owner.long(int(words[0])))
        elif name == "iinc":
            self.bytes += bytes([int(words[0]), int(words[1]) & 0xFF])
        elif name in JUMPS:
            self.jump(words[0], 2)
        elif name == "goto_w":
            self.jump(words[0], 4)
        elif name in FIELDS:
            self.bytes += u2(owner.member(9, *words))
        elif name.startswith("invoke"):
            self.bytes += u2(owner.member(11 if name == "invokeinterface" else 10, *words[:3]))
            if name == "invokeinterface":
                self.bytes += bytes([int(words[3]), 0])
        elif name in TYPES:
            self.bytes += u2(owner.of_class(words[0]))
        elif name == "newarray":
            self.bytes.append(ELEMENTS[words[0]])
        elif name == "multianewarray":
            self.bytes += u2(owner.of_class(words[0])) + bytes([int(words[1])])
        elif name == "tableswitch":
            self.bytes += bytes(-len(self.bytes) % 4)
            low, labels = int(words[0]), words[2:]
            self.jump(words[1], 4)
            self.bytes += struct.pack(">ii", low, low + len(labels) - 1)
            for label in labels:
                self.jump(label, 4)
        elif name == "lookupswitch":
            self.bytes += bytes(-len(self.bytes) % 4)
            self.jump(words[0], 4)
            self.bytes += struct.pack(">i", len(words[1:]))
            for word in words[1:]:
                key, label = word.split("=")
                self.bytes += struct.pack(">i", int(key))
                self.jump(label, 4)

    def done(self):
        for at, start, label, size in self.open:
            self.bytes[at : at + size] = struct.pack(">h" if size == 2 else ">i", self.labels[label] - start)
        table = []
        for start, end, handler, kind in self.handlers:
            caught = 0 if kind == "any" else self.owner.of_class(kind)
            table.append(b"".join(u2(self.labels[label]) for label in (start, end, handler)) + u2(caught))
        return bytes(self.bytes), table


OUT = "getstatic java/lang/System out Ljava/io/PrintStream;"
SELF = "Instructions"
CASES = []


def case(name, text, kind):
    """A case: what stands on the stack after the text is printed after the name. kind is I, J, C, Z or text."""
    CASES.append((name, text, "Ljava/lang/String;" if kind == "text" else kind))


def push(value):
    return f"ldc_w {value}"


def push_long(value):
    return f"ldc2_w {value}"


INTS = (7, -3, 0, 2147483647, -2147483648, 33)
LONGS = (7, -3, 9223372036854775807, -9223372036854775808, 4294967299)
for number in (-1, 0, 1, 2, 3, 4, 5):
    case(f"iconst_{number}", "iconst_m1" if number < 0 else f"iconst_{number}", "I")
for number in (0, 1):
    case(f"lconst_{number}", f"lconst_{number}", "J")
for number in (-128, 127):
    case(f"bipush {number}", f"bipush {number}", "I")
for number in (-32768, 32767):
    case(f"sipush {number}", f"sipush {number}", "I")
case("nop", "iconst_3| nop| nop", "I")
case("ldc", "ldc 123456789", "I")
case("ldc text", "ldc 'a text'", "text")
case("ldc_w", "ldc_w -123456789", "I")
case("ldc_w text", "ldc_w 'another text'", "text")
case("ldc2_w", "ldc2_w -1234567890123456789", "J")
case("ldc twice the same", "ldc 'same'| ldc_w 'same'| if_acmpeq Y| iconst_0| goto N| Y: iconst_1| N: nop", "Z")
for op in ("iadd", "isub", "imul", "iand", "ior", "ixor", "ishl", "ishr", "iushr"):
    for a in INTS:
        case(f"{op} {a} 33", f"{push(a)}| {push(33)}| {op}", "I")
    case(f"{op} min -1", f"{push(-2147483648)}| iconst_m1| {op}", "I")
for op in ("idiv", "irem"):
    for a in INTS:
        for b in (2, -3, -1):
            case(f"{op} {a} {b}", f"{push(a)}| {push(b)}| {op}", "I")
for op in ("ladd", "lsub", "lmul", "land", "lor", "lxor"):
    for a in LONGS:
        case(f"{op} {a}", f"{push_long(a)}| {push_long(-4294967297)}| {op}", "J")
for op in ("ldiv", "lrem"):
    for a in LONGS:
        for b in (2, -3, -1):
            case(f"{op} {a} {b}", f"{push_long(a)}| {push_long(b)}| {op}", "J")
for op in ("lshl", "lshr", "lushr"):
    for a in LONGS:
        for n in (1, 63, 64, -1, 33):
            case(f"{op} {a} {n}", f"{push_long(a)}| {push(n)}| {op}", "J")
for a in INTS:
    case(f"ineg {a}", f"{push(a)}| ineg", "I")
    for op in ("i2b", "i2s", "i2c"):
        case(f"{op} {a}", f"{push(a)}| {op}", "I")
    case(f"i2l {a}", f"{push(a)}| i2l", "J")
    for op in ("ifeq", "ifne", "iflt", "ifge", "ifgt", "ifle"):
        case(f"{op} {a}", f"{push(a)}| {op} Y| iconst_0| goto N| Y: iconst_1| N: nop", "Z")
    for op in ("if_icmpeq", "if_icmpne", "if_icmplt", "if_icmpge", "if_icmpgt", "if_icmple"):
        for b in (7, -2147483648):
            case(f"{op} {a} {b}", f"{push(a)}| {push(b)}| {op} Y| iconst_0| goto_w N| Y: iconst_1| N: nop", "Z")
for a in LONGS:
    case(f"lneg {a}", f"{push_long(a)}| lneg", "J")
    case(f"l2i {a}", f"{push_long(a)}| l2i", "I")
    for b in (7, 9223372036854775807):
        case(f"lcmp {a} {b}", f"{push_long(a)}| {push_long(b)}| lcmp", "I")
for op, what in (("ifnull", "aconst_null"), ("ifnonnull", "aconst_null"), ("ifnull", "ldc 'x'"), ("ifnonnull", "ldc 'x'")):
    case(f"{op} {what}", f"{what}| {op} Y| iconst_0| goto N| Y: iconst_1| N: nop", "Z")
NEW = "new java/lang/Object| dup| invokespecial java/lang/Object <init> ()V"
for op in ("if_acmpeq", "if_acmpne"):
    for name, what in (("same", f"{NEW}| dup"), ("two", f"{NEW}| {NEW}"), ("nulls", "aconst_null| aconst_null"), ("null", f"{NEW}| aconst_null")):
        case(f"{op} {name}", f"{what}| {op} Y| iconst_0| goto N| Y: iconst_1| N: nop", "Z")
for place in (0, 1, 2, 3, 4, 255):
    short = "_" if place < 4 else " "
    case(f"int in local {place}", f"bipush 77| istore{short}{place}| iload{short}{place}", "I")
    if place < 255:
        case(f"long in local {place}", f"{push_long(-5000000000)}| lstore{short}{place}| lload{short}{place}", "J")
    case(f"reference in local {place}", f"ldc 'held'| astore{short}{place}| aload{short}{place}", "text")
case("wide istore iload", "sipush 3000| wide istore 290| wide iload 290", "I")
case("wide lstore lload", f"{push_long(1 << 40)}| wide lstore 256| wide lload 256", "J")
case("wide astore aload", "ldc 'wide'| wide astore 299| wide aload 299", "text")
case("wide forms of low locals", "iconst_4| wide istore 2| iload_2", "I")
case("iinc", "bipush 100| istore 5| iinc 5 -128| iinc 5 127| iload 5", "I")
case("wide iinc", f"{push(2147483647)}| istore_3| wide iinc 3 -32768| wide iinc 3 32767| iinc 3 2| iload_3", "I")
case("long over half a long", f"{push_long(1)}| lstore_0| {push_long(2)}| lstore_1| lload_1", "J")
FOUR = "iconst_1| iconst_2| iconst_3| iconst_4"


def digits(count):
    """Takes so many ints off the stack and makes a number of them, the one on top its last digit."""
    stores = [f"istore {20 + place}" for place in range(count)]
    loads = [f"iload {20 + count - 1}"] + [f"bipush 10| imul| iload {20 + place}| iadd" for place in reversed(range(count - 1))]
    return "| ".join(stores + loads)


case("pop", f"{FOUR}| pop| {digits(3)}", "I")
case("pop2 of ints", f"{FOUR}| pop2| {digits(2)}", "I")
case("pop2 of a long", f"iconst_1| iconst_2| {push_long(5)}| pop2| {digits(2)}", "I")
case("dup", f"{FOUR}| dup| {digits(5)}", "I")
case("dup_x1", f"{FOUR}| dup_x1| {digits(5)}", "I")
case("dup_x2 of ints", f"{FOUR}| dup_x2| {digits(5)}", "I")
case("dup_x2 over a long", f"iconst_1| {push_long(300)}| iconst_4| dup_x2| istore 20| l2i| iadd| istore 21| iload 21| bipush 10| imul| iload 20| iadd| iadd", "I")
case("dup2 of ints", f"{FOUR}| dup2| {digits(6)}", "I")
case("dup2 of a long", f"{push_long(6)}| dup2| lmul", "J")
case("dup2_x1 of ints", f"{FOUR}| dup2_x1| {digits(6)}", "I")
case("dup2_x1 of a long", f"iconst_3| {push_long(50)}| dup2_x1| lstore 30| i2l| ladd| lload 30| lmul", "J")
case("dup2_x2 of ints", f"{FOUR}| dup2_x2| {digits(6)}", "I")
case("dup2_x2 of a long over ints", f"iconst_3| iconst_4| {push_long(50)}| dup2_x2| lstore 30| isub| i2l| lload 30| lmul| lsub", "J")
case("dup2_x2 of ints over a long", f"{push_long(50)}| iconst_3| iconst_4| dup2_x2| imul| i2l| ladd| lstore 30| isub| i2l| lload 30| lmul", "J")
case("dup2_x2 of longs", f"{push_long(9)}| {push_long(4)}| dup2_x2| lsub| lsub", "J")
case("swap", f"{FOUR}| swap| {digits(4)}", "I")
case("swap of texts", "ldc 'first'| ldc 'second'| swap| invokevirtual java/lang/String compareTo (Ljava/lang/String;)I| iconst_0| swap| isub", "I")
STORES = (("boolean", "bastore", "baload", 3), ("byte", "bastore", "baload", 200), ("char", "castore", "caload", -1), ("short", "sastore", "saload", 40000), ("int", "iastore", "iaload", 123456))
for element, store, load, value in STORES:
    case(f"{element} in an array", f"iconst_5| newarray {element}| dup| iconst_3| {push(value)}| {store}| iconst_3| {load}", "I")
    case(f"{element} at first", f"iconst_5| newarray {element}| iconst_4| {load}", "I")
    case(f"length of {element}", f"bipush 9| newarray {element}| arraylength", "I")
case("long in an array", f"iconst_2| newarray long| dup| iconst_1| {push_long(-(1 << 50))}| lastore| iconst_1| laload", "J")
case("reference in an array", "iconst_2| anewarray java/lang/String| dup| iconst_0| ldc 'element'| aastore| iconst_0| aaload", "text")
case("array of arrays", "iconst_4| anewarray [I| dup| iconst_2| bipush 6| newarray int| aastore| iconst_2| aaload| arraylength", "I")
case("multianewarray 3 of 3", "iconst_2| iconst_3| iconst_4| multianewarray [[[J 3| iconst_1| aaload| iconst_2| aaload| arraylength", "I")
case("multianewarray 2 of 3", "iconst_2| iconst_3| multianewarray [[[J 2| iconst_1| aaload| iconst_2| aaload| ifnull Y| iconst_0| goto N| Y: iconst_1| N: nop", "Z")
case("multianewarray 1 of 1", "iconst_5| multianewarray [Ljava/lang/String; 1| arraylength", "I")
case("multianewarray of 0", "iconst_0| iconst_5| multianewarray [[I 2| arraylength", "I")
for key in (-2147483648, -2, -1, 0, 1, 2, 2147483647):
    case(f"tableswitch {key}", f"{push(key)}| tableswitch -1 D A B C| A: iconst_1| goto E| B: iconst_2| goto E| C: iconst_3| goto E| D: iconst_4| E: nop", "I")
    case(f"lookupswitch {key}", f"{push(key)}| lookupswitch D -2147483648=A -1=B 2=C 2147483647=A| A: iconst_1| goto E| B: iconst_2| goto E| C: iconst_3| goto E| D: iconst_4| E: nop", "I")
case("lookupswitch without keys", "iconst_5| lookupswitch D| D: bipush 44", "I")
case("a switch back", "iconst_3| istore_1| A: iload_1| iinc 1 -1| tableswitch 1 D D A A| D: iload_1", "I")
case("goto back", "iconst_0| istore_1| goto B| A: iinc 1 3| B: iload_1| bipush 30| if_icmplt A| iload_1", "I")
case("goto_w back", "iconst_0| istore_1| goto_w B| A: iinc 1 7| goto_w B| B: iload_1| bipush 30| if_icmplt A| iload_1", "I")
case("getstatic before a put", f"getstatic {SELF} number I", "I")
case("putstatic getstatic", f"bipush 55| putstatic {SELF} number I| getstatic {SELF} number I", "I")
case("putstatic cut to a byte", f"sipush 300| putstatic {SELF} small B| getstatic {SELF} small B", "I")
case("putstatic of a long", f"{push_long(1 << 33)}| putstatic {SELF} large J| getstatic {SELF} large J", "J")
case("putstatic of a reference", f"ldc 'static'| putstatic {SELF} text Ljava/lang/String;| getstatic {SELF} text Ljava/lang/String;", "text")
MADE = f"new {SELF}| dup| bipush 8| invokespecial {SELF} <init> (I)V"
case("new and a constructor", f"{MADE}| getfield {SELF} own I", "I")
case("putfield getfield", f"{MADE}| dup| bipush 9| putfield {SELF} own I| getfield {SELF} own I", "I")
case("putfield of a long", f"{MADE}| dup| {push_long(-9)}| putfield {SELF} wide J| getfield {SELF} wide J", "J")
case("putfield of a char", f"{MADE}| dup| iconst_m1| putfield {SELF} letter C| getfield {SELF} letter C", "I")
case("putfield of a reference", f"{MADE}| dup| dup| putfield {SELF} other LInstructions;| getfield {SELF} other LInstructions;| getfield {SELF} own I", "I")
case("invokevirtual", f"{MADE}| bipush 100| invokevirtual {SELF} plus (I)I", "I")
case("invokevirtual of a subclass", "new Below| dup| invokespecial Below <init> ()V| bipush 100| invokevirtual Instructions plus (I)I", "I")
case("invokeinterface", "new Below| dup| invokespecial Below <init> ()V| ldc2_w 5| iconst_3| invokeinterface Asked ask (JI)J 4", "J")
case("invokespecial of a superclass", "new Below| dup| invokespecial Below <init> ()V| invokevirtual Below above ()I", "I")
case("invokestatic", f"iconst_1| ldc2_w 20| bipush 30| invokestatic {SELF} mix (IJI)J", "J")
case("invokestatic with a result that is dropped", f"iconst_1| ldc2_w 20| bipush 30| invokestatic {SELF} mix (IJI)J| pop2| iconst_5", "I")
case("areturn", f"invokestatic {SELF} name ()Ljava/lang/String;", "text")
case("a call of itself", f"bipush 10| invokestatic {SELF} sum (I)I", "I")
case("checkcast of null", "aconst_null| checkcast Below| ifnull Y| iconst_0| goto N| Y: iconst_1| N: nop", "Z")
case("checkcast", "new Below| dup| invokespecial Below <init> ()V| checkcast Asked| checkcast Instructions| getfield Instructions own I", "I")
for name, value in (("null", "aconst_null"), ("Below", "new Below| dup| invokespecial Below <init> ()V"), ("Instructions", MADE), ("int[]", "iconst_1| newarray int"), ("String[][]", "iconst_1| iconst_1| multianewarray [[Ljava/lang/String; 2"), ("String", "ldc 'x'")):
    for kind in ("java/lang/Object", "Instructions", "Below", "Asked", "[I", "[Ljava/lang/Object;", "[[Ljava/lang/Object;", "java/lang/Cloneable", "java/io/Serializable", "java/lang/String", "[Ljava/lang/Cloneable;"):
        case(f"{name} instanceof {kind}", f"{value}| instanceof {kind}", "Z")
FAILING = (
    ("idiv by 0", "iconst_5| iconst_0| idiv| pop", "Arithmetic"), ("irem by 0", "iconst_5| iconst_0| irem| pop", "Arithmetic"),
    ("ldiv by 0", "lconst_1| lconst_0| ldiv| pop2", "Arithmetic"), ("lrem by 0", "lconst_1| lconst_0| lrem| pop2", "Arithmetic"),
    ("getfield of null", "aconst_null| getfield Instructions own I| pop", "NullPointer"), ("putfield of null", "aconst_null| iconst_1| putfield Instructions own I", "NullPointer"),
    ("putfield of a long of null", "aconst_null| lconst_1| putfield Instructions wide J", "NullPointer"),
    ("invokevirtual of null", "aconst_null| iconst_1| invokevirtual Instructions plus (I)I| pop", "NullPointer"),
    ("invokeinterface of null", "aconst_null| lconst_1| iconst_1| invokeinterface Asked ask (JI)J 4| pop2", "NullPointer"),
    ("arraylength of null", "aconst_null| arraylength| pop", "NullPointer"), ("athrow of null", "aconst_null| athrow", "NullPointer"),
    ("iaload of null", "aconst_null| iconst_0| iaload| pop", "NullPointer"), ("aastore of null", "aconst_null| iconst_0| aconst_null| aastore", "NullPointer"),
    ("lastore of null", "aconst_null| iconst_0| lconst_0| lastore", "NullPointer"),
    ("newarray of -1", "iconst_m1| newarray int| pop", "NegativeArraySize"), ("anewarray of -1", "iconst_m1| anewarray Below| pop", "NegativeArraySize"),
    ("multianewarray of -1", "iconst_2| iconst_m1| multianewarray [[I 2| pop", "NegativeArraySize"),
    ("aastore of another type", "iconst_1| anewarray Below| iconst_0| ldc 'x'| aastore", "ArrayStore"),
    ("checkcast of another type", "ldc 'x'| checkcast Below| pop", "ClassCast"), ("checkcast to an interface", f"{MADE}| checkcast Asked| pop", "ClassCast"),
    ("charAt outside", "ldc 'x'| iconst_1| invokevirtual java/lang/String charAt (I)C| pop", "StringIndexOutOfBounds"),
    ("substring outside", "ldc 'x'| iconst_1| iconst_0| invokevirtual java/lang/String substring (II)Ljava/lang/String;| pop", "StringIndexOutOfBounds"),
)
for element, load, store, zero in (("boolean", "baload", "bastore", "iconst_0"), ("byte", "baload", "bastore", "iconst_0"), ("char", "caload", "castore", "iconst_0"), ("short", "saload", "sastore", "iconst_0"), ("int", "iaload", "iastore", "iconst_0"), ("long", "laload", "lastore", "lconst_0")):
    for index in ("iconst_m1", "iconst_2", "ldc_w 2147483647"):
        gone = "pop2" if element == "long" else "pop"
        FAILING += ((f"{load} of {element} at {index.split()[-1]}", f"iconst_2| newarray {element}| {index}| {load}| {gone}", "ArrayIndexOutOfBounds"),)
    FAILING += ((f"{store} of {element}", f"iconst_2| newarray {element}| iconst_2| {zero}| {store}", "ArrayIndexOutOfBounds"),)
FAILING += (("aaload", "iconst_2| anewarray Below| iconst_2| aaload| pop", "ArrayIndexOutOfBounds"), ("aastore", "iconst_2| anewarray Below| iconst_m1| aconst_null| aastore", "ArrayIndexOutOfBounds"))
for name, text, thrown in FAILING:
    kind = f"java/lang/{thrown}Exception"
    case(f"{name} caught", f"A: {text}| iconst_0| goto N| B: pop| iconst_1| goto N| C: pop| iconst_2| N: nop| catch A B C java/lang/Error| catch A B B {kind}| catch A B C any", "I")
case("athrow caught above", "A: new java/lang/IllegalStateException| dup| ldc 'message'| invokespecial java/lang/IllegalStateException <init> (Ljava/lang/String;)V| athrow| B: nop| C: invokevirtual java/lang/Throwable getMessage ()Ljava/lang/String;| catch A B C java/lang/RuntimeException", "text")
case("a handler that covers itself", "iconst_0| istore_1| A: iload_1| bipush 3| if_icmpge D| aconst_null| athrow| C: pop| iinc 1 1| goto A| D: iload_1| B: nop| catch A B C any", "I")
case("thrown in a called method", f"A: iconst_0| invokestatic {SELF} fail (I)I| B: nop| goto N| C: pop| bipush 66| N: nop| catch A B C java/lang/ArithmeticException", "I")
case("caught in a called method", f"iconst_1| invokestatic {SELF} fail (I)I", "I")


def build(folder):
    asked = Class("Asked", flags=0x601)
    asked.method(0x401, "ask", "(JI)J")
    asked.write(folder)
    below = Class("Below", above=SELF, interfaces=("Asked",))
    below.method(1, "<init>", "()V", f"aload_0| bipush 12| invokespecial {SELF} <init> (I)V| return")
    below.method(1, "plus", "(I)I", f"aload_0| iload_1| invokespecial {SELF} plus (I)I| iconst_2| imul| ireturn")
    below.method(1, "above", "()I", f"aload_0| iconst_1| invokespecial {SELF} plus (I)I| ireturn")
    below.method(1, "ask", "(JI)J", "lload_1| iload_3| i2l| ladd| aload_0| getfield Below own I| i2l| lmul| lreturn")
    below.write(folder)
    own = Class(SELF)
    for value in (123456789, "a text", "same", "x", "held", "first", "second", "element", "wide", "static", "message", "returned"):
        own.constant(value)  # `ldc` has one byte for an index
    for name, kind in (("number", "I"), ("small", "B"), ("large", "J"), ("text", "Ljava/lang/String;")):
        own.field(0x9, name, kind)
    for name, kind in (("own", "I"), ("wide", "J"), ("letter", "C"), ("other", "LInstructions;")):
        own.field(0x1, name, kind)
    own.method(1, "<init>", "(I)V", f"aload_0| invokespecial java/lang/Object <init> ()V| aload_0| iload_1| putfield {SELF} own I| return")
    own.method(1, "plus", "(I)I", f"aload_0| getfield {SELF} own I| iload_1| iadd| ireturn")
    own.method(9, "mix", "(IJI)J", "iload_0| i2l| lload_1| iload_3| i2l| lmul| ladd| lreturn")
    own.method(9, "name", "()Ljava/lang/String;", "ldc 'returned'| areturn")
    own.method(9, "sum", "(I)I", f"iload_0| ifne A| iconst_0| ireturn| A: iload_0| iload_0| iconst_1| isub| invokestatic {SELF} sum (I)I| iadd| ireturn")
    own.method(9, "fail", "(I)I", "A: iload_0| ifeq D| aconst_null| arraylength| pop| D: bipush 6| iconst_0| idiv| ireturn| B: pop| bipush 65| ireturn| catch A B B java/lang/NullPointerException")
    parts = []
    for number, (name, text, kind) in enumerate(CASES):
        ahead = f"{OUT}| ldc_w '{name}: '| invokevirtual java/io/PrintStream print (Ljava/lang/String;)V"
        # a handler takes the stack's words away, so what stands below comes after
        where = {"I": ("istore", "iload"), "C": ("istore", "iload"), "Z": ("istore", "iload"), "J": ("lstore", "lload")}.get(kind, ("astore", "aload"))
        code = f"{ahead}| {text}| wide {where[0]} 280| {OUT}| wide {where[1]} 280| invokevirtual java/io/PrintStream println ({kind})V| return"
        own.method(9, f"case{number}", "()V", code)
        parts.append(f"invokestatic {SELF} case{number} ()V")
    chunks = [parts[at : at + 200] for at in range(0, len(parts), 200)]
    for number, chunk in enumerate(chunks):
        own.method(9, f"cases{number}", "()V", "| ".join(chunk) + "| return")
    own.method(9, "main", "([Ljava/lang/String;)V", "| ".join(f"invokestatic {SELF} cases{n} ()V" for n in range(len(chunks))) + "| return")
    own.write(folder)


build(Path(__file__).resolve().parent.parent / "classes")
