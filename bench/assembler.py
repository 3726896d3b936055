#!/usr/bin/env python3
"""Assembles a text to a class file, by the rules of docs/FORMATS.md, and shares no code with the crates.

usage: assembler.py TEXT CLASS

It writes the class file CLASS, or says which line of TEXT is the first that doesn't fit. Lines are taken from front to
back, each with what it mentions in the constant pool; at the `end` of a method its labels are looked up.
"""

import re
import sys
from pathlib import Path

from asm_texts import BRANCH, CLASS, ELEMENT, LOCAL, MEMBER, PLAIN

MOST_BYTES_OF_CODE = 65535
MOST_ENTRIES = 65535
MOST_BYTES_OF_A_TEXT = 65535
MOST_PLACES_IN_THE_POOL = 65534
MOST_BYTES_OF_AN_ATTRIBUTE = 2**32 - 1
OBJECT = "java/lang/Object"

FLAGS = {"public": 1, "private": 2, "static": 8, "final": 16, "volatile": 64, "native": 256, "interface": 512, "abstract": 1024}
CLASS_FLAGS = FLAGS | {"super": 32}
METHOD_FLAGS = FLAGS | {"synchronized": 32}
STATIC, WITHOUT_CODE = 8, 256 | 1024

UTF8, INTEGER, LONG, CLASS_TAG, STRING, FIELD, METHOD, INTERFACE_METHOD, NAME_AND_TYPE = 1, 3, 5, 7, 8, 9, 10, 11, 12

NUMBER = re.compile("0|-?[1-9][0-9]*")
CLASS_NAME = r"[^.;\[/]+(?:/[^.;\[/]+)*"
FIELD_TYPE = rf"\[{{0,255}}(?:[BCDFIJSZ]|L{CLASS_NAME};)"
METHOD_TYPE = re.compile(rf"\((?:{FIELD_TYPE})*\)(?:V|{FIELD_TYPE})")
MEMBER_NAME = re.compile(r"[^.;\[/]+")


class Unfit(Exception):
    """The line that is looked at doesn't fit."""


class BadLine(Exception):
    """A text makes no class file; `line` is the number of the first line that doesn't fit."""

    def __init__(self, line):
        super().__init__(line)
        self.line = line


def require(holds):
    """Refuses the line that is looked at, unless this holds."""
    if not holds:
        raise Unfit


def big_endian(value, size):
    """The bytes of a number, which may be negative, the highest first."""
    return (value % (1 << 8 * size)).to_bytes(size, "big")


def number(word, low, high):
    """The number that a word spells, between two."""
    require(NUMBER.fullmatch(word))
    value = int(word)
    require(low <= value <= high)
    return value


def unsigned(word, size):
    return number(word, 0, (1 << 8 * size) - 1)


def signed(word, size):
    return number(word, -(1 << 8 * size - 1), (1 << 8 * size - 1) - 1)


# ---- lines


def lines_in(text):
    """The lines of a text, with None for a last one that has no end."""
    *lines, rest = text.split(b"\n")
    return [*lines, None] if rest else lines


def words_in(line):
    """The words of a line, none where it means nothing."""
    require(line is not None)
    said = line.lstrip(b" ")
    if not said or said.startswith(b"#"):
        return []
    require(said.isascii())
    words = said.decode("ascii").split(" ")
    require(all(words))
    return words


# ---- names and descriptors (JVMS 4.2, 4.3)


def is_field_type(text):
    return re.fullmatch(FIELD_TYPE, text) is not None


def slots_of(descriptor):
    """How many slots the arguments of a method take."""
    arguments = re.findall(FIELD_TYPE, descriptor[1 : descriptor.index(")")])
    return sum(2 if argument in ("J", "D") else 1 for argument in arguments)


def is_method_type(text):
    return METHOD_TYPE.fullmatch(text) is not None and slots_of(text) <= 255


def is_class_name(text):
    return is_field_type(text) if text.startswith("[") else re.fullmatch(CLASS_NAME, text) is not None


def is_field_name(text):
    return MEMBER_NAME.fullmatch(text) is not None


def is_method_name(text):
    return is_field_name(text) and (text in ("<init>", "<clinit>") or not set("<>") & set(text))


def flags_in(words, table):
    """The bits of flags, which may stand in any order and more than once."""
    bits = 0
    for word in words:
        require(word in table)
        bits |= table[word]
    return bits


# ---- the constant pool


class Pool:
    """Constants in the order of their first mentions; `places` has the index of each."""

    def __init__(self):
        self.places = {}
        self.next_place = 1

    def mention(self, tag, body, width=1):
        """The index of a constant, which is added where it is new."""
        constant = bytes([tag]) + body
        if constant not in self.places:
            require(self.next_place + width - 1 <= MOST_PLACES_IN_THE_POOL)
            self.places[constant] = self.next_place
            self.next_place += width
        return self.places[constant]

    def text(self, word):
        body = word.encode("ascii").replace(b"\0", b"\xc0\x80")
        require(len(body) <= MOST_BYTES_OF_A_TEXT)
        return self.mention(UTF8, big_endian(len(body), 2) + body)

    def named(self, tag, *indexes):
        """A constant that names others."""
        return self.mention(tag, b"".join(big_endian(index, 2) for index in indexes))

    def class_named(self, name):
        require(is_class_name(name))
        return self.named(CLASS_TAG, self.text(name))

    def member(self, tag, owner, name, descriptor):
        if tag == FIELD:
            require(is_field_name(name) and is_field_type(descriptor))
        else:
            require(is_method_name(name) and is_method_type(descriptor))
        owner_place = self.class_named(owner)
        both = self.named(NAME_AND_TYPE, self.text(name), self.text(descriptor))
        return self.named(tag, owner_place, both)

    def spelled(self):
        return big_endian(self.next_place, 2) + b"".join(self.places)


# ---- instructions


class Settled:
    """An instruction whose bytes don't depend on labels."""

    def __init__(self, opcode, *operands):
        self.spelled = bytes([opcode]) + b"".join(operands)

    def size(self, _pc):
        return len(self.spelled)

    def bytes(self, _pc, _places):
        return self.spelled


class ShortConstant:
    """An ldc, whose index has to fit a byte."""

    def __init__(self, index):
        self.index = index

    def size(self, _pc):
        return 2

    def bytes(self, _pc, _places):
        require(self.index <= 255)
        return bytes([18, self.index])


class Arrays(Settled):
    """A multianewarray, which has to make at least one dimension."""

    def __init__(self, opcode, index, dimensions):
        super().__init__(opcode, big_endian(index, 2), bytes([dimensions]))
        self.dimensions = dimensions

    def bytes(self, _pc, _places):
        require(self.dimensions)
        return self.spelled


class Places(dict):
    """The pc of each label of a method."""

    def of(self, label):
        require(label in self)
        return self[label]

    def offset(self, pc, label, size):
        """The bytes of a branch from one place to a label."""
        offset = self.of(label) - pc
        require(-(1 << 8 * size - 1) <= offset < 1 << 8 * size - 1)
        return big_endian(offset, size)


class Branch:
    """A branch, whose offset is counted from its own pc and takes `width` bytes."""

    def __init__(self, opcode, label, width):
        self.opcode = opcode
        self.label = label
        self.width = width

    def size(self, _pc):
        return 1 + self.width

    def bytes(self, pc, places):
        return bytes([self.opcode]) + places.offset(pc, self.label, self.width)


def padding(pc):
    """How many bytes stand between the opcode of a switch and its default."""
    return 3 - pc % 4


class TableSwitch:
    """A tableswitch: `LOW LABEL.. default LABEL`."""

    def __init__(self, words):
        require(len(words) > 2)
        low, *self.labels, word, self.default = words
        require(word == "default")
        self.low = signed(low, 4)
        self.high = self.low + len(self.labels) - 1

    def size(self, pc):
        return 1 + padding(pc) + 4 * (3 + len(self.labels))

    def bytes(self, pc, places):
        require(self.labels and self.high < 1 << 31)
        offsets = [places.offset(pc, label, 4) for label in self.labels]
        head = [places.offset(pc, self.default, 4), big_endian(self.low, 4), big_endian(self.high, 4)]
        return bytes([170]) + bytes(padding(pc)) + b"".join(head + offsets)


class LookupSwitch:
    """A lookupswitch: `N LABEL .. default LABEL`, with numbers that rise."""

    def __init__(self, words):
        require(len(words) > 1)
        *pairs, word, self.default = words
        require(word == "default" and len(pairs) % 2 == 0)
        self.matches = [signed(match, 4) for match in pairs[::2]]
        self.labels = pairs[1::2]

    def size(self, pc):
        return 1 + padding(pc) + 8 * (1 + len(self.labels))

    def bytes(self, pc, places):
        require(all(one < next_one for one, next_one in zip(self.matches, self.matches[1:])))
        pairs = [big_endian(match, 4) + places.offset(pc, label, 4) for match, label in zip(self.matches, self.labels)]
        head = [places.offset(pc, self.default, 4), big_endian(len(pairs), 4)]
        return bytes([171]) + bytes(padding(pc)) + b"".join(head + pairs)


OPCODES = {name: opcode for table in (PLAIN, LOCAL, BRANCH, MEMBER, CLASS) for opcode, name in table.items()}
OPCODES |= {"bipush": 16, "sipush": 17, "ldc": 18, "ldc_w": 19, "ldc2_w": 20, "iinc": 132}
OPCODES |= {"invokeinterface": 185, "newarray": 188, "multianewarray": 197, "goto_w": 200}
ELEMENT_CODES = {name: code for code, name in ELEMENT.items()}
WIDE = 196


class InstructionReader:
    """Makes instructions of the words of their lines. `forms` has for each name how its operands are read, and how many words they are."""

    def __init__(self, pool):
        self.pool = pool
        self.forms = {"bipush": (self.pushed_byte, 1), "sipush": (self.pushed_short, 1), "iinc": (self.increment, 2)}
        self.forms |= {"ldc": (self.short_constant, 2), "ldc_w": (self.constant, 2), "ldc2_w": (self.constant, 2)}
        self.forms |= {"goto_w": (self.far_branch, 1), "newarray": (self.array, 1), "multianewarray": (self.arrays, 2)}
        self.forms |= {"invokeinterface": (self.interface_method, 3)}
        for table, form, count in (
            (PLAIN, Settled, 0),
            (LOCAL, self.local, 1),
            (BRANCH, self.branch, 1),
            (MEMBER, self.member, 3),
            (CLASS, self.of_class, 1),
        ):
            self.forms |= {name: (form, count) for name in table.values()}

    def read(self, name, operands):
        if name == "tableswitch":
            return TableSwitch(operands)
        if name == "lookupswitch":
            return LookupSwitch(operands)
        require(name in self.forms)
        form, count = self.forms[name]
        require(len(operands) == count)
        return form(OPCODES[name], *operands)

    def pushed_byte(self, opcode, word):
        return Settled(opcode, big_endian(signed(word, 1), 1))

    def pushed_short(self, opcode, word):
        return Settled(opcode, big_endian(signed(word, 2), 2))

    def local(self, opcode, word):
        index = unsigned(word, 2)
        if index > 255:
            return Settled(WIDE, bytes([opcode]), big_endian(index, 2))
        return Settled(opcode, big_endian(index, 1))

    def increment(self, opcode, index_word, by_word):
        index, by = unsigned(index_word, 2), signed(by_word, 2)
        if index > 255 or not -128 <= by <= 127:
            return Settled(WIDE, bytes([opcode]), big_endian(index, 2), big_endian(by, 2))
        return Settled(opcode, big_endian(index, 1), big_endian(by, 1))

    def pushed(self, kind, word):
        """The index of what is pushed."""
        if kind == "int":
            return self.pool.mention(INTEGER, big_endian(signed(word, 4), 4))
        if kind == "long":
            return self.pool.mention(LONG, big_endian(signed(word, 8), 8), 2)
        require(kind == "text")
        return self.pool.named(STRING, self.pool.text(word))

    def short_constant(self, _opcode, kind, word):
        return ShortConstant(self.pushed(kind, word))

    def constant(self, opcode, kind, word):
        return Settled(opcode, big_endian(self.pushed(kind, word), 2))

    def branch(self, opcode, label):
        return Branch(opcode, label, 2)

    def far_branch(self, opcode, label):
        return Branch(opcode, label, 4)

    def member(self, opcode, owner, name, descriptor):
        tag = FIELD if opcode <= 181 else METHOD
        return Settled(opcode, big_endian(self.pool.member(tag, owner, name, descriptor), 2))

    def interface_method(self, opcode, owner, name, descriptor):
        index = self.pool.member(INTERFACE_METHOD, owner, name, descriptor)
        count = slots_of(descriptor) + 1
        require(count <= 255)
        return Settled(opcode, big_endian(index, 2), bytes([count, 0]))

    def of_class(self, opcode, name):
        return Settled(opcode, big_endian(self.pool.class_named(name), 2))

    def array(self, opcode, element):
        require(element in ELEMENT_CODES)
        return Settled(opcode, bytes([ELEMENT_CODES[element]]))

    def arrays(self, opcode, name, word):
        return Arrays(opcode, self.pool.class_named(name), unsigned(word, 1))


# ---- parts of a method's body, each of which becomes bytes when its method ends


class Instruction:
    """An instruction at its pc."""

    def __init__(self, pc, said):
        self.pc = pc
        self.said = said

    def add_to(self, body, places):
        body.code.append(self.said.bytes(self.pc, places))


class Frame:
    """A full frame; each of its types is its bytes, or the label of a `new`."""

    def __init__(self, pc, locals_, stack):
        self.pc = pc
        self.lists = [locals_, stack]

    def add_to(self, body, places):
        delta = self.pc if body.last_frame is None else self.pc - body.last_frame - 1
        body.last_frame = self.pc
        body.frames.append(bytes([255]) + big_endian(delta, 2))
        for types in self.lists:
            require(len(types) <= MOST_ENTRIES)
            spelled = [one if isinstance(one, bytes) else b"\x08" + big_endian(places.of(one), 2) for one in types]
            body.frames.append(big_endian(len(types), 2) + b"".join(spelled))


class Row:
    """A row of the exception table."""

    def __init__(self, words, caught):
        self.labels = words
        self.caught = caught

    def add_to(self, body, places):
        start, end, handler = (places.of(label) for label in self.labels)
        require(start < end and handler < body.size)
        body.rows.append(b"".join(big_endian(number, 2) for number in (start, end, handler, self.caught)))


class Body:
    """The code of the open method: its parts with their lines, and the labels that have a place."""

    TYPES = {"top": b"\0", "int": b"\1", "long": b"\4", "null": b"\5", "this": b"\6"}

    def __init__(self, pool, code_name, stack, locals_):
        self.pool = pool
        self.reader = InstructionReader(pool)
        self.code_name = code_name
        self.sizes = big_endian(stack, 2) + big_endian(locals_, 2)
        self.size = 0
        self.places = Places()
        self.parts = []
        self.count_of_rows = 0
        self.map_name = None
        self.has_open_frame = False
        self.code, self.frames, self.rows, self.last_frame = [], [], [], None

    def add(self, line, words):
        """Adds a line that stands between `stack` and `end`."""
        if words[0] == "catch":
            self.add_row(line, words)
            return
        require(not self.count_of_rows)
        if len(words) == 1 and words[0].endswith(":"):
            self.add_label(words[0][:-1])
        elif words[0] == "frame":
            self.add_frame(line, words[1:])
        else:
            self.add_instruction(line, words)

    def add_label(self, label):
        require(label and label not in self.places)
        self.places[label] = self.size

    def add_instruction(self, line, words):
        said = self.reader.read(words[0], words[1:])
        self.parts.append((line, Instruction(self.size, said)))
        self.size += said.size(self.size)
        require(self.size <= MOST_BYTES_OF_CODE)
        self.has_open_frame = False

    def add_frame(self, line, words):
        require(not self.has_open_frame)
        self.map_name = self.pool.text("StackMapTable")
        rest = list(words)
        locals_ = self.types_before(rest, "|")
        stack = self.types_before(rest, None)
        self.parts.append((line, Frame(self.size, locals_, stack)))
        self.has_open_frame = True

    def types_before(self, rest, end):
        """Takes types from the front of a list of words, and the word that ends them."""
        types = []
        while rest and rest[0] != end:
            types.append(self.type_of(rest))
        if end is not None:
            require(rest)
            rest.pop(0)
        return types

    def type_of(self, rest):
        word = rest.pop(0)
        if word in self.TYPES:
            return self.TYPES[word]
        require(word in ("new", "ref") and rest)
        name = rest.pop(0)
        return name if word == "new" else b"\7" + big_endian(self.pool.class_named(name), 2)

    def add_row(self, line, words):
        require(not self.has_open_frame and len(words) == 8)
        require((words[2], words[4], words[6]) == ("from", "to", "using"))
        require(self.count_of_rows < MOST_ENTRIES)
        caught = 0 if words[1] == "any" else self.pool.class_named(words[1])
        self.parts.append((line, Row((words[3], words[5], words[7]), caught)))
        self.count_of_rows += 1

    def attribute(self):
        """The attribute that the body is at its `end`."""
        require(not self.has_open_frame)
        for line, part in self.parts:
            try:
                part.add_to(self, self.places)
            except Unfit:
                raise BadLine(line) from None
        require(self.size)
        tables = [] if self.map_name is None else [self.stack_map()]
        content = self.sizes + big_endian(self.size, 4) + b"".join(self.code)
        content += big_endian(len(self.rows), 2) + b"".join(self.rows)
        return attribute(self.code_name, content + big_endian(len(tables), 2) + b"".join(tables))

    def stack_map(self):
        count = sum(isinstance(part, Frame) for _, part in self.parts)
        return attribute(self.map_name, big_endian(count, 2) + b"".join(self.frames))


def attribute(name, content):
    require(len(content) <= MOST_BYTES_OF_AN_ATTRIBUTE)
    return big_endian(name, 2) + big_endian(len(content), 4) + content


# ---- the lines of a class


class Member:
    """A field or a method, and the Code of a method that has one."""

    def __init__(self, bits, name, descriptor):
        self.head = b"".join(big_endian(value, 2) for value in (bits, name, descriptor))
        self.attributes = []

    def spelled(self):
        return self.head + big_endian(len(self.attributes), 2) + b"".join(self.attributes)


class Assembly:
    """The class file as far as lines were taken. `next_line` takes the next one; it names the state between two lines."""

    def __init__(self):
        self.pool = Pool()
        self.bits = self.own = self.parent = 0
        self.interfaces, self.fields, self.methods = [], [], []
        self.body = self.code_name = None
        self.next_line = self.class_line

    def add_line(self, line, words):
        self.next_line(line, words)

    def class_line(self, _line, words):
        require(words[0] == "class" and len(words) > 1)
        self.bits = flags_in(words[1:-1], CLASS_FLAGS)
        self.own = self.pool.class_named(words[-1])
        self.next_line = self.part_line if words[-1] == OBJECT else self.super_line

    def super_line(self, _line, words):
        require(words[0] == "super" and len(words) == 2)
        self.parent = self.pool.class_named(words[1])
        self.next_line = self.part_line

    def part_line(self, line, words):
        """An interface, a field or a method, in this order."""
        if words[0] == "implements":
            require(len(words) == 2 and not self.fields and not self.methods)
            self.interfaces.append(big_endian(self.pool.class_named(words[1]), 2))
            require(len(self.interfaces) <= MOST_ENTRIES)
        elif words[0] == "field":
            require(not self.methods)
            self.fields.append(self.member(words, FLAGS, is_field_name, is_field_type)[1])
            require(len(self.fields) <= MOST_ENTRIES)
        else:
            self.method_line(line, words)

    def member(self, words, table, is_name, is_type):
        """The flags of a member, and the member."""
        require(len(words) > 2)
        bits = flags_in(words[1:-2], table)
        require(is_name(words[-2]) and is_type(words[-1]))
        return bits, Member(bits, self.pool.text(words[-2]), self.pool.text(words[-1]))

    def method_line(self, _line, words):
        require(words[0] == "method")
        bits, method = self.member(words, METHOD_FLAGS, is_method_name, is_method_type)
        self.methods.append(method)
        require(len(self.methods) <= MOST_ENTRIES)
        if bits & WITHOUT_CODE:
            self.next_line = self.lone_end_line
        else:
            self.code_name = self.pool.text("Code")
            self.next_line = self.stack_line

    def lone_end_line(self, _line, words):
        require(words == ["end"])
        self.next_line = self.part_line

    def stack_line(self, _line, words):
        require(len(words) == 4 and words[0] == "stack" and words[2] == "locals")
        self.body = Body(self.pool, self.code_name, unsigned(words[1], 2), unsigned(words[3], 2))
        self.next_line = self.body_line

    def body_line(self, line, words):
        if words == ["end"]:
            self.methods[-1].attributes.append(self.body.attribute())
            self.next_line = self.part_line
        else:
            self.body.add(line, words)

    def file(self):
        require(self.next_line == self.part_line)
        parts = [b"\xca\xfe\xba\xbe", big_endian(0, 2), big_endian(61, 2), self.pool.spelled()]
        parts += [big_endian(value, 2) for value in (self.bits, self.own, self.parent)]
        parts += [big_endian(len(self.interfaces), 2), *self.interfaces]
        for members in (self.fields, self.methods):
            parts += [big_endian(len(members), 2), *(member.spelled() for member in members)]
        return b"".join([*parts, big_endian(0, 2)])


def assemble(text):
    """The bytes of the class file that a text makes; BadLine where it makes none."""
    assembly = Assembly()
    number_of_line = 1
    try:
        for line in lines_in(text):
            words = words_in(line)
            if words:
                assembly.add_line(number_of_line, words)
            number_of_line += 1
        return assembly.file()
    except Unfit:
        raise BadLine(number_of_line) from None


def main():
    source, target = sys.argv[1], sys.argv[2]
    try:
        made = assemble(Path(source).read_bytes())
    except BadLine as bad:
        sys.exit(f"{source}: line {bad.line} doesn't fit")
    Path(target).write_bytes(made)


if __name__ == "__main__":
    main()
