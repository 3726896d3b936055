#!/usr/bin/env python3
"""Writes assembler text for class files, as input for the benchmark of the assembler.

usage: asm_texts.py FOLDER OUT

FOLDER is searched for *.class files. In OUT it writes `texts`, for each class file a text after its length in four
bytes, the highest first. The text has what assembler text can say: of a class file with a name that is no word it is left
out, and so is a method whose code has an instruction, a constant or a type without a line. Attributes other than Code
and StackMapTable are left out.
"""

import struct
import sys
from pathlib import Path

from extract import ARGUMENT, Reader

CLASS_FLAGS = [(1, "public"), (2, "private"), (8, "static"), (16, "final"), (32, "super"), (64, "volatile")]
CLASS_FLAGS += [(256, "native"), (512, "interface"), (1024, "abstract")]
MEMBER_FLAGS = [(bit, "synchronized" if bit == 32 else word) for bit, word in CLASS_FLAGS]
FIELD_FLAGS = [(bit, word) for bit, word in MEMBER_FLAGS if bit != 32]

PLAIN = {0: "nop", 1: "aconst_null", 9: "lconst_0", 10: "lconst_1", 172: "ireturn", 173: "lreturn", 176: "areturn"}
PLAIN |= {2 + n: f"iconst_{w}" for n, w in enumerate(["m1", 0, 1, 2, 3, 4, 5])}
for first, names in [
    (26, ["iload", "lload"]),
    (42, ["aload"]),
    (59, ["istore", "lstore"]),
    (75, ["astore"]),
]:
    PLAIN |= {first + 4 * k + n: f"{name}_{n}" for k, name in enumerate(names) for n in range(4)}
PLAIN |= {46: "iaload", 47: "laload", 50: "aaload", 51: "baload", 52: "caload", 53: "saload"}
PLAIN |= {79: "iastore", 80: "lastore", 83: "aastore", 84: "bastore", 85: "castore", 86: "sastore"}
PLAIN |= dict(enumerate("pop pop2 dup dup_x1 dup_x2 dup2 dup2_x1 dup2_x2 swap".split(), 87))
for n, word in enumerate(["add", "sub", "mul", "div", "rem", "neg"]):
    PLAIN |= {96 + 4 * n: "i" + word, 97 + 4 * n: "l" + word}
for n, word in enumerate(["shl", "shr", "ushr", "and", "or", "xor"]):
    PLAIN |= {120 + 2 * n: "i" + word, 121 + 2 * n: "l" + word}
PLAIN |= {133: "i2l", 136: "l2i", 145: "i2b", 146: "i2c", 147: "i2s", 148: "lcmp", 177: "return"}
PLAIN |= {190: "arraylength", 191: "athrow", 194: "monitorenter", 195: "monitorexit"}
LOCAL = {21: "iload", 22: "lload", 25: "aload", 54: "istore", 55: "lstore", 58: "astore"}
BRANCH = dict(enumerate("ifeq ifne iflt ifge ifgt ifle".split(), 153))
BRANCH |= dict(enumerate("if_icmpeq if_icmpne if_icmplt if_icmpge if_icmpgt if_icmple".split(), 159))
BRANCH |= dict(enumerate("if_acmpeq if_acmpne goto".split(), 165))
BRANCH |= {198: "ifnull", 199: "ifnonnull"}
MEMBER = dict(enumerate("getstatic putstatic getfield putfield invokevirtual invokespecial invokestatic".split(), 178))
CLASS = {187: "new", 189: "anewarray", 192: "checkcast", 193: "instanceof"}
ELEMENT = {4: "boolean", 5: "char", 8: "byte", 9: "short", 10: "int", 11: "long"}


class NoLine(Exception):
    """A part has no line."""


def signed(data):
    return int.from_bytes(data, "big", signed=True)


def read_constants(reader):
    pool = {}
    count = reader.number(2)
    index = 1
    while index < count:
        tag = reader.number(1)
        if tag == 1:
            pool[index] = (tag, reader.bytes(reader.number(2)))
        elif tag in (3, 4):
            pool[index] = (tag, signed(reader.bytes(4)))
        elif tag in (5, 6):
            pool[index] = (tag, signed(reader.bytes(8)))
            index += 1
        elif tag in (7, 8, 16, 19, 20):
            pool[index] = (tag, reader.number(2))
        elif tag == 15:
            pool[index] = (tag, reader.number(1), reader.number(2))
        else:
            pool[index] = (tag, reader.number(2), reader.number(2))
        index += 1
    return pool


class Texts:
    def __init__(self, data):
        self.reader = Reader(data)
        self.reader.bytes(8)
        self.pool = read_constants(self.reader)

    def word(self, index):
        text = self.pool[index][1]
        if not text or any(byte > 127 or byte in b" \n" for byte in text):
            raise NoLine
        return text.decode("ascii")

    def class_name(self, index):
        return self.word(self.pool[index][1])

    def member(self, index):
        tag, owner, both = self.pool[index]
        _, name, descriptor = self.pool[both]
        return f"{self.class_name(owner)} {self.word(name)} {self.word(descriptor)}"

    def constant(self, index):
        tag, value = self.pool[index][:2]
        if tag == 3:
            return f"int {value}"
        if tag == 5:
            return f"long {value}"
        if tag == 8:
            return f"text {self.word(value)}"
        raise NoLine

    def flags(self, rows, bits):
        return "".join(word + " " for bit, word in rows if bits & bit)

    def class_text(self):
        reader = self.reader
        bits = reader.number(2)
        own, parent = reader.number(2), reader.number(2)
        if bits & 0x8000 or not parent:
            raise NoLine
        lines = [f"class {self.flags(CLASS_FLAGS, bits)}{self.class_name(own)}", f"super {self.class_name(parent)}"]
        lines += [f"implements {self.class_name(reader.number(2))}" for _ in range(reader.number(2))]
        for _ in range(reader.number(2)):
            bits, name, descriptor = reader.number(2), reader.number(2), reader.number(2)
            self.attributes()
            lines.append(f"field {self.flags(FIELD_FLAGS, bits)}{self.word(name)} {self.word(descriptor)}")
        for _ in range(reader.number(2)):
            try:
                lines += self.method(self.class_name(own))
            except NoLine:
                pass
        return "".join(line + "\n" for line in lines)

    def attributes(self):
        reader = self.reader
        found = {}
        for _ in range(reader.number(2)):
            name = self.pool[reader.number(2)][1]
            found[name] = reader.bytes(reader.number(4))
        return found

    def method(self, own):
        bits, name, descriptor = (self.reader.number(2) for _ in range(3))
        attributes = self.attributes()
        name, descriptor = self.word(name), self.word(descriptor)
        head = f"method {self.flags(MEMBER_FLAGS, bits)}{name} {descriptor}"
        if b"Code" not in attributes:
            return [head, "end"]
        return [head, *Body(self, attributes[b"Code"], own, bits, name, descriptor).lines(), "end"]


class Body:
    def __init__(self, texts, data, own, bits, name, descriptor):
        self.texts = texts
        reader = Reader(data)
        self.sizes = reader.number(2), reader.number(2)
        self.code = reader.bytes(reader.number(4))
        self.rows = [[reader.number(2) for _ in range(4)] for _ in range(reader.number(2))]
        self.map = b"\0\0"
        for _ in range(reader.number(2)):
            attribute = texts.pool[reader.number(2)][1]
            body = reader.bytes(reader.number(4))
            if attribute == b"StackMapTable":
                self.map = body
        self.named = set()
        self.first = []
        if not bits & 8:
            self.first.append("this" if name == "<init>" else f"ref {own}")
        for argument in ARGUMENT.findall(descriptor.split(")")[0].encode()):
            self.first.append(self.kind(argument.decode()))

    def kind(self, argument):
        if argument[0] == "L":
            return f"ref {argument[1:-1]}"
        if argument[0] == "[":
            return f"ref {argument}"
        return {"J": "long", "F": None, "D": None}.get(argument, "int")

    def label(self, pc):
        self.named.add(pc)
        return f"L{pc}"

    def lines(self):
        instructions = self.instructions()
        frames = self.frames()
        rows = []
        for start, end, handler, caught in self.rows:
            name = self.texts.class_name(caught) if caught else "any"
            rows.append(f"catch {name} from {self.label(start)} to {self.label(end)} using {self.label(handler)}")
        lines = [f"stack {self.sizes[0]} locals {self.sizes[1]}"]
        for pc, text in instructions + [(len(self.code), None)]:
            if pc in self.named:
                lines.append(f"L{pc}:")
            if text and pc in frames:
                lines.append(frames[pc])
            if text:
                lines.append(text)
        return lines + rows

    def frames(self):
        reader = Reader(self.map)
        locals_, pc, found = list(self.first), -1, {}
        for _ in range(reader.number(2)):
            kind = reader.number(1)
            stack = []
            if kind < 128:
                delta = kind & 63
                if kind > 63:
                    stack = [self.type(reader)]
            else:
                delta = reader.number(2)
                if kind == 247:
                    stack = [self.type(reader)]
                elif kind < 251:
                    locals_ = locals_[: kind - 251]
                elif kind < 255:
                    locals_ = locals_ + [self.type(reader) for _ in range(kind - 251)]
                else:
                    locals_ = [self.type(reader) for _ in range(reader.number(2))]
                    stack = [self.type(reader) for _ in range(reader.number(2))]
            pc += delta + 1
            if None in locals_ or None in stack:
                raise NoLine
            found[pc] = " ".join(["frame", *locals_, "|", *stack])
        return found

    def type(self, reader):
        tag = reader.number(1)
        if tag == 7:
            return f"ref {self.texts.class_name(reader.number(2))}"
        if tag == 8:
            return f"new {self.label(reader.number(2))}"
        return {0: "top", 1: "int", 4: "long", 5: "null", 6: "this"}.get(tag)

    def instructions(self):
        found, pc = [], 0
        while pc < len(self.code):
            text, size = self.instruction(pc)
            found.append((pc, text))
            pc += size
        return found

    def instruction(self, pc):
        code, texts = self.code, self.texts
        op = code[pc]
        two = int.from_bytes(code[pc + 1 : pc + 3], "big")
        if op in PLAIN:
            return PLAIN[op], 1
        if op == 16:
            return f"bipush {signed(code[pc + 1 : pc + 2])}", 2
        if op == 17:
            return f"sipush {signed(code[pc + 1 : pc + 3])}", 3
        if op == 18:
            return f"ldc_w {texts.constant(code[pc + 1])}", 2
        if op in (19, 20):
            return f"{'ldc_w' if op == 19 else 'ldc2_w'} {texts.constant(two)}", 3
        if op in LOCAL:
            return f"{LOCAL[op]} {code[pc + 1]}", 2
        if op == 132:
            return f"iinc {code[pc + 1]} {signed(code[pc + 2 : pc + 3])}", 3
        if op in BRANCH:
            return f"{BRANCH[op]} {self.label(pc + signed(code[pc + 1 : pc + 3]))}", 3
        if op == 200:
            return f"goto_w {self.label(pc + signed(code[pc + 1 : pc + 5]))}", 5
        if op in (170, 171):
            return self.switch(pc)
        if op in MEMBER:
            return f"{MEMBER[op]} {self.of_class(op, two)}", 3
        if op == 185:
            return f"invokeinterface {texts.member(two)}", 5
        if op in CLASS:
            return f"{CLASS[op]} {texts.class_name(two)}", 3
        if op == 188 and code[pc + 1] in ELEMENT:
            return f"newarray {ELEMENT[code[pc + 1]]}", 2
        if op == 197:
            return f"multianewarray {texts.class_name(two)} {code[pc + 3]}", 4
        if op == 196 and code[pc + 1] in LOCAL:
            return f"{LOCAL[code[pc + 1]]} {int.from_bytes(code[pc + 2 : pc + 4], 'big')}", 4
        if op == 196 and code[pc + 1] == 132:
            return f"iinc {int.from_bytes(code[pc + 2 : pc + 4], 'big')} {signed(code[pc + 4 : pc + 6])}", 6
        raise NoLine

    def of_class(self, op, index):
        """A member of a class; a static or special call of an interface's method has no line."""
        if op > 181 and self.texts.pool[index][0] == 11:
            raise NoLine
        return self.texts.member(index)

    def switch(self, pc):
        at = pc + 4 - pc % 4
        number = lambda n: signed(self.code[at + 4 * n : at + 4 * n + 4])
        default = self.label(pc + number(0))
        if self.code[pc] == 170:
            low, high = number(1), number(2)
            labels = [self.label(pc + number(3 + n)) for n in range(high - low + 1)]
            return " ".join(["tableswitch", str(low), *labels, "default", default]), at + 4 * (3 + len(labels)) - pc
        count = number(1)
        cases = [f"{number(2 + 2 * n)} {self.label(pc + number(3 + 2 * n))}" for n in range(count)]
        return " ".join(["lookupswitch", *cases, "default", default]), at + 8 + 8 * count - pc


def main():
    folder, out = Path(sys.argv[1]), Path(sys.argv[2])
    out.mkdir(parents=True, exist_ok=True)
    with open(out / "texts", "wb") as texts:
        for path in sorted(folder.rglob("*.class")):
            try:
                text = Texts(path.read_bytes()).class_text().encode()
            except NoLine:
                continue
            texts.write(struct.pack(">I", len(text)) + text)


if __name__ == "__main__":
    main()
