"""Reads class files (JVMS 4): the constant pool, fields, methods, code and exception tables.

Only what a run needs is kept. That a file is well formed is taken for granted. A text is a `str` whose characters are the UTF-16 units of
the Java text, so a surrogate is a character by itself.
"""

from dataclasses import dataclass, field

UTF8, INTEGER, FLOAT, LONG, DOUBLE, CLASS, STRING = 1, 3, 4, 5, 6, 7, 8
FIELDREF, METHODREF, INTERFACE_METHODREF, NAME_AND_TYPE = 9, 10, 11, 12
# The sizes of the bodies of the other constants.
SIZES = {FLOAT: 4, DOUBLE: 8, 15: 3, 16: 2, 17: 4, 18: 4, 19: 2, 20: 2}

PRIVATE, STATIC, SYNCHRONIZED, NATIVE, INTERFACE, ABSTRACT = 0x2, 0x8, 0x20, 0x100, 0x200, 0x400
PUBLIC = 0x1


@dataclass
class Constant:
    """A constant of the pool: its tag, and its value or the places in the pool that it names."""

    tag: int
    value: object


@dataclass
class Handler:
    """A row of an exception table. `catch` is the name of a class, or None where the row catches all."""

    start: int
    end: int
    target: int
    catch: str | None


@dataclass
class Code:
    max_stack: int
    max_locals: int
    bytes: bytes
    handlers: list[Handler]


@dataclass(eq=False)
class Member:
    """A field or a method. `constant` is the place of the ConstantValue in the pool, `owner` the class that declares the member."""

    flags: int
    name: str
    descriptor: str
    constant: int | None = None
    code: Code | None = None
    owner: "ClassFile" = None

    def has(self, flag):
        return self.flags & flag != 0


@dataclass(eq=False)
class ClassFile:
    flags: int
    name: str
    parent: str | None
    interfaces: list[str]
    pool: dict[int, Constant]
    fields: list[Member] = field(default_factory=list)
    methods: list[Member] = field(default_factory=list)

    def is_interface(self):
        return self.flags & INTERFACE != 0


class Reader:
    """Takes numbers and bytes from the front of bytes; numbers have the highest byte first."""

    def __init__(self, data):
        self.data = data
        self.at = 0

    def bytes(self, size):
        self.at += size
        return self.data[self.at - size : self.at]

    def u1(self):
        return self.bytes(1)[0]

    def u2(self):
        return int.from_bytes(self.bytes(2), "big")

    def u4(self):
        return int.from_bytes(self.bytes(4), "big")

    def signed(self, size):
        return int.from_bytes(self.bytes(size), "big", signed=True)


def modified_utf8(data):
    """The text that modified UTF-8 spells (JVMS 4.4.7): each unit in one, two or three bytes."""
    units = []
    reader = Reader(data)
    while reader.at < len(data):
        first = reader.u1()
        if first < 0x80:
            units.append(first)
        elif first < 0xE0:
            units.append((first & 0x1F) << 6 | reader.u1() & 0x3F)
        else:
            second = reader.u1()
            units.append((first & 0x0F) << 12 | (second & 0x3F) << 6 | reader.u1() & 0x3F)
    return "".join(map(chr, units))


def read_constant(reader):
    tag = reader.u1()
    if tag == UTF8:
        return Constant(tag, modified_utf8(reader.bytes(reader.u2())))
    if tag == INTEGER:
        return Constant(tag, reader.signed(4))
    if tag == LONG:
        return Constant(tag, reader.signed(8))
    if tag in (CLASS, STRING):
        return Constant(tag, reader.u2())
    if tag in (FIELDREF, METHODREF, INTERFACE_METHODREF, NAME_AND_TYPE):
        return Constant(tag, (reader.u2(), reader.u2()))
    return Constant(tag, reader.bytes(SIZES[tag]))


def read_pool(reader):
    pool = {}
    count = reader.u2()
    place = 1
    while place < count:
        pool[place] = read_constant(reader)
        place += 2 if pool[place].tag in (LONG, DOUBLE) else 1
    return pool


def text_at(pool, place):
    return pool[place].value


def class_name_at(pool, place):
    """The name of the class at a place of the pool, or None for place 0."""
    return text_at(pool, pool[place].value) if place else None


def read_handler(reader, pool):
    return Handler(reader.u2(), reader.u2(), reader.u2(), class_name_at(pool, reader.u2()))


def read_attributes(reader, pool):
    """The attributes here, each with a reader of its body."""
    attributes = []
    for _ in range(reader.u2()):
        name = text_at(pool, reader.u2())
        attributes.append((name, Reader(reader.bytes(reader.u4()))))
    return attributes


def read_code(reader, pool):
    max_stack, max_locals = reader.u2(), reader.u2()
    code = reader.bytes(reader.u4())
    handlers = [read_handler(reader, pool) for _ in range(reader.u2())]
    return Code(max_stack, max_locals, code, handlers)


def read_member(reader, pool):
    member = Member(reader.u2(), text_at(pool, reader.u2()), text_at(pool, reader.u2()))
    for name, body in read_attributes(reader, pool):
        if name == "Code":
            member.code = read_code(body, pool)
        elif name == "ConstantValue":
            member.constant = body.u2()
    return member


def read_class_file(data):
    reader = Reader(data)
    reader.bytes(8)
    pool = read_pool(reader)
    flags, own, parent = reader.u2(), reader.u2(), reader.u2()
    interfaces = [class_name_at(pool, reader.u2()) for _ in range(reader.u2())]
    file = ClassFile(flags, class_name_at(pool, own), class_name_at(pool, parent), interfaces, pool)
    file.fields = [read_member(reader, pool) for _ in range(reader.u2())]
    file.methods = [read_member(reader, pool) for _ in range(reader.u2())]
    for member in file.fields + file.methods:
        member.owner = file
    return file
