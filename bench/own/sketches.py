#!/usr/bin/env python3
"""Makes class files from the sketches in sketches.txt, and the calls of jvt over them with what they have to print.

usage: sketches.py SKETCHES OUT STDOUT

A line of SKETCHES is a program: what jvt has to answer to it, a colon, and its classes with a bar between them. The answers are
`prints TEXT`, which may be empty, `throws CLASS`, `accepted` (well typed, but with no main), `link CLASS: WHY` and
`verify CLASS.METHOD at PC: WHY`. The class files go to the
folder OUT, one for each class, under the number of the program and a letter; what jvt has to print goes to the end of STDOUT.

A class is written a word at a time: its flags, its name and its superclass, `-` for none; then `implements NAME`, `field FLAGS NAME
DESCRIPTOR`, `method FLAGS NAME DESCRIPTOR`, and for a method with code what is in it and `end`. The code is bytes as numbers, opcodes by
name, and constants (`Class NAME`, `String TEXT`, `Fieldref CLASS NAME DESCRIPTOR` and the like), each of which stands for the two bytes of
its index. Beside these come `max STACK LOCALS` (four of each where nothing is said), `catch START END HANDLER NAME` with `any` for every
throwable, `frame PC TYPES / TYPES ;` with the types of the local variables before the slash, and `map BYTES ;` for the bytes of a stack map.
A type is `top`, `int`, `long`, `float`, `double`, `null`, `this`, `uninit PC`, `index N`, or the name of a class.
"""

import sys
from pathlib import Path
from struct import pack

MNEMONICS = """
nop aconst_null iconst_m1 iconst_0 iconst_1 iconst_2 iconst_3 iconst_4 iconst_5 lconst_0 lconst_1
fconst_0 fconst_1 fconst_2 dconst_0 dconst_1 bipush sipush ldc ldc_w ldc2_w iload lload fload dload aload
iload_0 iload_1 iload_2 iload_3 lload_0 lload_1 lload_2 lload_3 fload_0 fload_1 fload_2 fload_3
dload_0 dload_1 dload_2 dload_3 aload_0 aload_1 aload_2 aload_3
iaload laload faload daload aaload baload caload saload istore lstore fstore dstore astore
istore_0 istore_1 istore_2 istore_3 lstore_0 lstore_1 lstore_2 lstore_3 fstore_0 fstore_1 fstore_2 fstore_3
dstore_0 dstore_1 dstore_2 dstore_3 astore_0 astore_1 astore_2 astore_3
iastore lastore fastore dastore aastore bastore castore sastore
pop pop2 dup dup_x1 dup_x2 dup2 dup2_x1 dup2_x2 swap
iadd ladd fadd dadd isub lsub fsub dsub imul lmul fmul dmul idiv ldiv fdiv ddiv irem lrem frem drem
ineg lneg fneg dneg ishl lshl ishr lshr iushr lushr iand land ior lor ixor lxor iinc
i2l i2f i2d l2i l2f l2d f2i f2l f2d d2i d2l d2f i2b i2c i2s lcmp fcmpl fcmpg dcmpl dcmpg
ifeq ifne iflt ifge ifgt ifle if_icmpeq if_icmpne if_icmplt if_icmpge if_icmpgt if_icmple if_acmpeq if_acmpne
goto jsr ret tableswitch lookupswitch ireturn lreturn freturn dreturn areturn return
getstatic putstatic getfield putfield invokevirtual invokespecial invokestatic invokeinterface invokedynamic
new newarray anewarray arraylength athrow checkcast instanceof monitorenter monitorexit
wide multianewarray ifnull ifnonnull goto_w jsr_w
""".split()
SIMPLE_TYPES = ["top", "int", "float", "double", "long", "null", "this"]
OBJECT, UNINITIALIZED = 7, 8
MEMBERS = {"Fieldref": 9, "Methodref": 10, "InterfaceMethodref": 11}


class Code:
    """The code of a method that is being written."""

    def __init__(self):
        self.stack, self.locals = 4, 4
        self.code, self.rows, self.frames, self.map = b"", [], [], b""


class Sketch:
    """A class file that is being written."""

    def __init__(self, text):
        self.words = iter(text.split())
        self.pool, self.count = b"", 1
        self.interfaces, self.fields, self.methods = [], [], []
        self.code = Code()
        flags, own, parent = int(self.word()), self.class_of(self.word()), self.word()
        parent = 0 if parent == "-" else self.class_of(parent)
        for kind in self.words:
            self.part(kind)
        self.data = (
            pack(">IHHH", 0xCAFEBABE, 0, 61, self.count)
            + self.pool
            + pack(">HHH", flags, own, parent)
            + pack(">H", len(self.interfaces))
            + b"".join(pack(">H", index) for index in self.interfaces)
            + self.members(self.fields)
            + self.members(self.methods)
            + pack(">H", 0)
        )

    @staticmethod
    def members(members):
        return pack(">H", len(members)) + b"".join(
            head + (pack(">H", 0) if code is None else pack(">H", 1) + code) for head, code in members
        )

    def word(self):
        return next(self.words)

    def add(self, constant):
        self.pool += constant
        self.count += 1
        return self.count - 1

    def text(self, text):
        return self.add(b"\x01" + pack(">H", len(text)) + text.encode())

    def class_of(self, name):
        return self.add(b"\x07" + pack(">H", self.text(name)))

    def member_head(self):
        flags = int(self.word())
        name = self.text(self.word())
        return pack(">HHH", flags, name, self.text(self.word()))

    def member_constant(self, kind):
        class_of = self.class_of(self.word())
        name = self.text(self.word())
        key = self.add(b"\x0c" + pack(">HH", name, self.text(self.word())))
        return self.add(pack(">BHH", MEMBERS[kind], class_of, key))

    def types(self, stop):
        """The types of a frame up to a word, with their number in front."""
        types, count = b"", 0
        for kind in self.words:
            if kind == stop:
                break
            count += 1
            if kind in SIMPLE_TYPES:
                types += bytes([SIMPLE_TYPES.index(kind)])
            elif kind == "uninit":
                types += pack(">BH", UNINITIALIZED, int(self.word()))
            elif kind == "index":
                types += pack(">BH", OBJECT, int(self.word()))
            else:
                types += pack(">BH", OBJECT, self.class_of(kind))
        return pack(">H", count) + types

    def frame(self):
        pc = int(self.word())
        offset = pc - self.code.frames[-1] - 1 if self.code.frames else pc
        self.code.frames.append(pc)
        self.code.map += pack(">BH", 255, offset) + self.types("/") + self.types(";")

    def end(self):
        """Gives the code to the last method."""
        code, attributes = self.code, pack(">H", 0)
        if code.map:
            body = (pack(">H", len(code.frames)) if code.frames else b"") + code.map
            attributes = pack(">HHI", 1, self.text("StackMapTable"), len(body)) + body
        body = (
            pack(">HHI", code.stack, code.locals, len(code.code))
            + code.code
            + pack(">H", len(code.rows))
            + b"".join(code.rows)
            + attributes
        )
        head, _ = self.methods.pop()
        self.methods.append((head, pack(">HI", self.text("Code"), len(body)) + body))
        self.code = Code()

    def part(self, kind):
        code = self.code
        if kind == "implements":
            self.interfaces.append(self.class_of(self.word()))
        elif kind == "field":
            self.fields.append((self.member_head(), None))
        elif kind == "method":
            self.methods.append((self.member_head(), None))
        elif kind == "max":
            code.stack, code.locals = int(self.word()), int(self.word())
        elif kind == "catch":
            places = [int(self.word()) for _ in range(3)]
            name = self.word()
            code.rows.append(pack(">HHHH", *places, 0 if name == "any" else self.class_of(name)))
        elif kind == "frame":
            self.frame()
        elif kind == "map":
            for byte in self.words:
                if byte == ";":
                    break
                code.map += bytes([int(byte)])
        elif kind == "end":
            self.end()
        elif kind == "Class":
            code.code += pack(">H", self.class_of(self.word()))
        elif kind == "String":
            code.code += pack(">H", self.add(b"\x08" + pack(">H", self.text(self.word()))))
        elif kind in MEMBERS:
            code.code += pack(">H", self.member_constant(kind))
        else:
            code.code += bytes([int(kind) if kind.isdigit() else MNEMONICS.index(kind)])


def outcome(wanted, main):
    """What jvt prints, and its status."""
    kind, _, rest = wanted.partition(" ")
    if kind == "prints":
        return rest.replace(" ", "\n"), 0
    if kind == "throws":
        return f'Exception in thread "main" {rest}', 1
    if kind == "accepted":
        return f"jvt: no main in {main}", 70
    return f"jvt: {wanted}", {"link": 68, "verify": 69}[kind]


def main():
    sketches, out, stdout = map(Path, sys.argv[1:])
    lines = [line for line in sketches.read_text().splitlines() if line and not line.startswith("#")]
    with stdout.open("a") as expected:
        for number, line in enumerate(lines, 1):
            wanted, _, classes = line.rpartition(": ")
            classes = classes.split("|")
            main = classes[0].split()[1]
            names = [f"{number:03}{chr(97 + at)}.class" for at in range(len(classes))]
            for name, text in zip(names, classes):
                (out / name).write_bytes(Sketch(text).data)
            text, status = outcome(wanted, main)
            words = " ".join(["run", main, *(f"{out.name}/{name}" for name in names)])
            expected.write("\n".join(filter(None, [f"== {words}", text, f"== status {status}"])) + "\n")


main()
