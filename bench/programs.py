#!/usr/bin/env python3
"""Makes programs for the benchmark of linking and typing.

usage: programs.py SOURCES OUT

The Java sources of the folder SOURCES whose first line says that they link are compiled with the javac of this machine. In OUT it writes files of class
files, each after its length in four bytes, the highest first:

  classes-N     N of the classes that javac wrote, or a few more, for 10, 50, 250 and 1,250: they stand there again and again under other names
  KIND          a class file or more that are meant to be slow or to want much memory, for each kind below
"""

import re
import struct
import subprocess
import sys
import tempfile
from pathlib import Path

from extract import Reader


def u1(number):
    return struct.pack(">B", number)


def u2(number):
    return struct.pack(">H", number)


def u4(number):
    return struct.pack(">I", number)


# ---- the classes that javac writes, under other names

SIZES = {3: 4, 4: 4, 5: 8, 6: 8, 7: 2, 8: 2, 15: 3, 16: 2, 19: 2, 20: 2}


def renamed(data, names, mark):
    """A class file with these classes' names followed by a mark, in names and in descriptors."""
    pattern = re.compile(b"|".join(re.escape(name) for name in sorted(names, key=len, reverse=True)))
    whole = re.compile(rb"\[*(?:L?)(" + pattern.pattern + rb")(;?)")
    inside = re.compile(rb"L(" + pattern.pattern + rb");")

    def changed(text):
        if whole.fullmatch(text):
            return pattern.sub(lambda found: found.group(0) + mark, text, count=1)
        return inside.sub(lambda found: b"L" + found.group(1) + mark + b";", text)

    reader = Reader(data)
    head = reader.bytes(8)
    count = reader.number(2)
    pool, index = [], 1
    while index < count:
        tag = reader.number(1)
        if tag == 1:
            text = changed(reader.bytes(reader.number(2)))
            pool.append(u1(1) + u2(len(text)) + text)
        else:
            pool.append(u1(tag) + reader.bytes(SIZES.get(tag, 4)))
        index += 2 if tag in (5, 6) else 1
    return head + u2(count) + b"".join(pool) + data[reader.at:]


def javac_programs(sources):
    """The class files of each source that links, by the names of their classes."""
    for source in sorted(sources.glob("*.java")):
        if source.read_text().startswith("// links"):
            with tempfile.TemporaryDirectory() as folder:
                subprocess.run(["javac", "--release", "17", "-XDstringConcat=inline", "-nowarn", "-Xlint:-options", "-d", folder, source],
                               check=True, stderr=subprocess.DEVNULL)
                yield {path.stem.encode(): path.read_bytes() for path in sorted(Path(folder).glob("*.class"))}


def copies(programs, count):
    """At least so many classes: those of the programs again and again, each time under other names."""
    made, mark = [], 0
    while True:
        for classes in programs:
            made += [renamed(data, classes, b"_%d" % mark) if mark else data for data in classes.values()]
            if len(made) >= count:
                return made
        mark += 1


# ---- class files that are meant to be slow or to want much memory

class Pool:
    """A constant pool that keeps each constant once."""

    def __init__(self):
        self.indexes, self.bytes, self.next = {}, [], 1

    def add(self, constant):
        if constant not in self.indexes:
            self.indexes[constant] = self.next
            self.bytes.append(constant)
            self.next += 2 if constant[0] in (5, 6) else 1
        return self.indexes[constant]

    def text(self, text):
        return self.add(u1(1) + u2(len(text)) + text)

    def of_class(self, name):
        return self.add(u1(7) + u2(self.text(name)))

    def member(self, tag, holder, name, descriptor):
        key = self.add(u1(12) + u2(self.text(name)) + u2(self.text(descriptor)))
        return self.add(u1(tag) + u2(self.of_class(holder)) + u2(key))


STATIC = 9
LOCALS = 65535
TOP, INTEGER = 0, 1


class ClassFile:
    def __init__(self, name, parent=b"java/lang/Object", flags=0x21):
        self.pool, self.name, self.parent, self.flags = Pool(), name, parent, flags
        self.interfaces, self.fields, self.methods = [], [], []

    def method(self, code, frames=(), rows=(), stack=10, locals=LOCALS, descriptor=b"()V", name=None, flags=STATIC):
        """A static method with a number for its name, if it has no other, a code, frames of its stack map, and rows of its exception table."""
        attributes = b""
        if frames:
            body = u2(len(frames)) + b"".join(frames)
            attributes = u2(self.pool.text(b"StackMapTable")) + u4(len(body)) + body
        table = b"".join(b"".join(u2(number) for number in row) for row in rows)
        body = u2(stack) + u2(locals) + u4(len(code)) + code + u2(len(rows)) + table + u2(1 if frames else 0) + attributes
        name = self.pool.text(name or b"m%d" % len(self.methods))
        self.methods.append(
            u2(flags) + u2(name) + u2(self.pool.text(descriptor)) + u2(1) + u2(self.pool.text(b"Code")) + u4(len(body)) + body)

    def field(self, name, descriptor=b"I"):
        self.fields.append(u2(STATIC) + u2(self.pool.text(name)) + u2(self.pool.text(descriptor)) + u2(0))

    def whole(self):
        own, parent = self.pool.of_class(self.name), self.pool.of_class(self.parent)
        interfaces = b"".join(u2(self.pool.of_class(name)) for name in self.interfaces)
        parts = [(self.interfaces, interfaces), (self.fields, b"".join(self.fields)), (self.methods, b"".join(self.methods)), ([], b"")]
        return (b"\xca\xfe\xba\xbe\0\0\0\x3d" + u2(self.pool.next) + b"".join(self.pool.bytes) + u2(self.flags) + u2(own) + u2(parent)
                + b"".join(u2(len(things)) + data for things, data in parts))


def full_frame(delta, tags):
    return u1(255) + u2(delta) + u2(len(tags)) + bytes(tags) + u2(0)


NOP, RETURN, GOTO_NEXT, ICONST_0, ISTORE_0, ACONST_NULL = b"\0", b"\xb1", b"\xa7\0\3", b"\3", b"\x3b", b"\1"
SAME, SAME_FAR = u1(0), u1(251)


def same(delta):
    return u1(delta) if delta < 64 else SAME_FAR + u2(delta)


def methods_of(add, count):
    """A class of so many methods, each made by the function."""
    made = ClassFile(b"Hostile")
    for _ in range(count):
        add(made)
    return [made.whole()]


def many_frames(c):
    """A frame of 65,535 local variables, and 65,532 frames of one byte after it, each like the one before."""
    c.method(RETURN + NOP * 65533 + RETURN, [full_frame(1, [INTEGER] * LOCALS)] + [SAME] * 65533)


def many_jumps(c):
    """21,844 jumps, each to a frame of 65,535 local variables that is like the one before."""
    c.method(RETURN + GOTO_NEXT * 21844 + RETURN, [full_frame(1, [INTEGER] * LOCALS)] + [same(2)] * 21844)


def many_stores(c):
    """13,106 times a store into a local variable and a jump to a frame of 65,535 local variables."""
    step = ICONST_0 + ISTORE_0 + GOTO_NEXT
    c.method(RETURN + step * 13106 + RETURN, [full_frame(1, [INTEGER] * LOCALS)] + [same(4)] * 13106)


def far_stores(c):
    """The same with stores into the first and the last local variable."""
    step = ICONST_0 + ISTORE_0 + ICONST_0 + b"\xc4\x36" + u2(LOCALS - 1) + GOTO_NEXT
    c.method(RETURN + step * 6552 + RETURN, [full_frame(1, [INTEGER] * LOCALS)] + [same(9)] * 6552)


def frames_in_turn(c):
    """21,844 jumps, each to a frame that names one local variable less or one more than the one before."""
    chop, append = u1(250) + u2(2), u1(252) + u2(2) + u1(TOP)
    c.method(RETURN + GOTO_NEXT * 21844 + RETURN, [full_frame(1, [INTEGER] * (LOCALS - 1) + [TOP])] + [chop, append] * 10922)


def branches_ahead(c):
    """8,000 branches to one frame of 65,535 local variables, before any frame."""
    end = 4 * 8000
    code = b"".join(ICONST_0 + b"\x99" + u2(end - at - 1) for at in range(0, end, 4))
    c.method(code + RETURN, [full_frame(end, [TOP] * LOCALS)])


def many_objects(c):
    """16,000 times an object that is made and dropped, in a method of 65,535 local variables."""
    c.method((b"\xbb" + u2(c.pool.of_class(b"java/lang/Object")) + b"\x57") * 16000 + RETURN)


def made_objects(c):
    """8,000 times an object that is made, initialized and dropped, in a method of 65,535 local variables."""
    make = b"\xbb" + u2(c.pool.of_class(b"java/lang/Object"))
    init = b"\xb7" + u2(c.pool.member(10, b"java/lang/Object", b"<init>", b"()V"))
    c.method((make + b"\x59" + init + b"\x57") * 8000 + RETURN)


def kept_objects(c):
    """21,000 objects that are made and left on the operand stack."""
    c.method((b"\xbb" + u2(c.pool.of_class(b"java/lang/Object"))) * 21000 + RETURN, stack=21000, locals=0)


def object_frames(c):
    """9,000 times an object that is made and dropped, and a jump to a frame of 65,535 local variables."""
    step = b"\xbb" + u2(c.pool.of_class(b"java/lang/Object")) + b"\x57" + GOTO_NEXT
    c.method(RETURN + step * 9000 + RETURN, [full_frame(1, [INTEGER] * LOCALS)] + [same(6)] * 9000)


def other_stores(c):
    """3,000 rows of an exception table to 3,000 handlers, each of which covers 30,000 stores into a local variable of other types in turn."""
    throwable = u1(7) + u2(c.pool.of_class(b"java/lang/Throwable"))
    first = 60001
    frames = [u1(247) + u2(first) + throwable] + [u1(64) + throwable] * 2999
    rows = [(0, first, first + i, 0) for i in range(3000)]
    c.method((ICONST_0 + ISTORE_0 + ACONST_NULL + b"\x4b") * 15000 + RETURN + b"\xbf" * 3000, frames, rows, locals=1)


def other_stores_and_rows(c):
    """16,000 stores into a local variable of other types in turn, and at each of them a row of an exception table that starts there, to a handler of its own."""
    throwable = u1(7) + u2(c.pool.of_class(b"java/lang/Throwable"))
    first = 32001
    frames = [u1(247) + u2(first) + throwable] + [u1(64) + throwable] * 15999
    rows = [(2 * i, first, first + i, 0) for i in range(16000)]
    c.method((ICONST_0 + ISTORE_0 + ACONST_NULL + b"\x4b") * 8000 + RETURN + b"\xbf" * 16000, frames, rows, locals=1)


def branches_apart(c):
    """8,000 branches from a frame of 65,535 ints to one of as many unset local variables."""
    end = 4 * 8000 + 1
    code = b"".join(ICONST_0 + b"\x99" + u2(end - at - 1) for at in range(1, end, 4))
    c.method(RETURN + code + RETURN, [full_frame(1, [INTEGER] * LOCALS), full_frame(end - 2, [TOP] * LOCALS)])


def many_handlers(c):
    """3,000 rows of an exception table to 3,000 handlers, each of which covers 30,000 stores into a local variable."""
    throwable = u1(7) + u2(c.pool.of_class(b"java/lang/Throwable"))
    first = 60001
    frames = [u1(247) + u2(first) + throwable] + [u1(64) + throwable] * 2999
    rows = [(0, first, first + i, 0) for i in range(3000)]
    c.method((ICONST_0 + ISTORE_0) * 30000 + RETURN + b"\xbf" * 3000, frames, rows, locals=1)


def many_nops(c):
    """65,534 instructions of one byte."""
    c.method(NOP * 65534 + RETURN, locals=0)


def array_types(c):
    """1,000 array classes of 255 dimensions, each of a class of its own, which makes 255,000 array types, and a main method."""
    for number in range(1000):
        c.pool.of_class(b"[" * 255 + b"LC%d;" % number)
    c.method(RETURN, locals=1, descriptor=b"([Ljava/lang/String;)V", name=b"main")


def new_stores(c):
    """15,000 stores of ever new types into a local variable, under 3,000 rows of an exception table to 3,000 handlers."""
    throwable = u1(7) + u2(c.pool.of_class(b"java/lang/Throwable"))
    step = b"\xbb" + u2(c.pool.of_class(b"java/lang/Object")) + b"\x4b"
    first = 60001
    frames = [u1(247) + u2(first) + throwable] + [u1(64) + throwable] * 2999
    rows = [(0, first, first + i, 0) for i in range(3000)]
    c.method(step * 15000 + RETURN + b"\xbf" * 3000, frames, rows, locals=1)


def moving_frames(c):
    """20,000 frames, each with a local variable more or less than the one before, under 3,000 rows of an exception table to 3,000 handlers."""
    throwable = u1(7) + u2(c.pool.of_class(b"java/lang/Throwable"))
    chop, append = u1(250) + u2(0), u1(252) + u2(0) + u1(TOP)
    first = 20001
    frames = [append, chop] * 10000 + [u1(65) + throwable] + [u1(64) + throwable] * 2999
    rows = [(0, first, first + i, 0) for i in range(3000)]
    c.method(NOP * 20000 + RETURN + b"\xbf" * 3000, frames, rows, locals=1)


def branches_in_turn(c):
    """8,000 branches to two frames of 65,535 local variables in turn, each written out."""
    end = 4 * 8000 + 1
    code = b"".join(ICONST_0 + b"\x99" + u2(end + i % 2 - at - 1) for i, at in enumerate(range(1, end, 4)))
    c.method(RETURN + code + NOP + RETURN, [full_frame(1, [INTEGER] * LOCALS), full_frame(end - 2, [INTEGER] * LOCALS), full_frame(0, [INTEGER] * LOCALS)])


def stores_and_branches(c):
    """5,400 times a store into a local variable and a branch to a frame of 65,535 local variables that is written out."""
    end = 6 * 5400 + 1
    code = b"".join(ICONST_0 + ISTORE_0 + ICONST_0 + b"\x99" + u2(end - at - 3) for at in range(1, end, 6))
    c.method(RETURN + code + RETURN, [full_frame(1, [INTEGER] * LOCALS), full_frame(end - 2, [INTEGER] * LOCALS)])


def many_overwritten(c):
    """Stores into 140 local variables, and then 8,000 branches to two frames of 65,535 local variables in turn."""
    stores = b"".join(ICONST_0 + b"\x36" + u1(n) for n in range(140))
    first = 1 + len(stores)
    end = first + 4 * 8000
    code = b"".join(ICONST_0 + b"\x99" + u2(end + i % 2 - at - 1) for i, at in enumerate(range(first, end, 4)))
    c.method(RETURN + stores + code + NOP + RETURN, [full_frame(1, [INTEGER] * LOCALS), same(end - 2), SAME])


def constructor_frames(c):
    """A constructor of 21,844 jumps, each to a frame with one local variable less or more than the one before, of 65,535."""
    chop, append = u1(250) + u2(2), u1(252) + u2(2) + u1(TOP)
    this = u1(7) + u2(c.pool.of_class(c.name))
    frame = u1(255) + u2(5) + u2(LOCALS) + this + u1(INTEGER) * (LOCALS - 2) + u1(TOP) + u2(0)
    call = b"\x2a\xb7" + u2(c.pool.member(10, b"java/lang/Object", b"<init>", b"()V")) + RETURN
    c.method(call + GOTO_NEXT * 21800 + RETURN, [frame] + [chop, append] * 10900, name=b"<init>", flags=1)


def handlers_apart(c):
    """13,000 stores of ever new types, under 2,000 rows of an exception table to 2,000 handlers, each with a frame of its own."""
    throwable = u1(7) + u2(c.pool.of_class(b"java/lang/Throwable"))
    step = b"\xbb" + u2(c.pool.of_class(b"java/lang/Object")) + b"\x4b"
    first = 4 * 13000 + 1
    append = [u1(252) + u2(0 if i else first) + u1(TOP) for i in range(2000)]
    frames = [frame for i in range(2000) for frame in (append[i], u1(64) + throwable, u1(250) + u2(0))]
    rows = [(0, first, first + 3 * i + 1, 0) for i in range(2000)]
    c.method(step * 13000 + RETURN + (RETURN + b"\xbf" + RETURN) * 2000, frames, rows, locals=3)


def handlers_between(c):
    """The same, and one handler that wants an int there, at a pc before all of the stores and at one behind them."""
    throwable = u1(7) + u2(c.pool.of_class(b"java/lang/Throwable"))
    step = b"\xbb" + u2(c.pool.of_class(b"java/lang/Object")) + b"\x4b"
    store = ICONST_0 + ISTORE_0 + NOP
    first = 4 * 12990 + 7
    append = [u1(252) + u2(0 if i else first) + u1(TOP) for i in range(2000)]
    frames = [frame for i in range(2000) for frame in (append[i], u1(64) + throwable, u1(250) + u2(0))]
    last = u1(255) + u2(0) + u2(1) + u1(INTEGER) + u2(1) + throwable
    rows = [(0, first - 1, first + 3 * i + 1, 0) for i in range(2000)] + [(at, at + 1, first + 6000, 0) for at in (2, first - 2)]
    c.method(store + step * 12990 + store + RETURN + (RETURN + b"\xbf" + RETURN) * 2000 + b"\xbf", frames + [last], rows, locals=3)


def objects_in_turn(c):
    """`handlers-apart`, where each object that is stored takes the place of an int, and the other way round."""
    throwable = u1(7) + u2(c.pool.of_class(b"java/lang/Throwable"))
    step = b"\xbb" + u2(c.pool.of_class(b"java/lang/Object")) + b"\x4b" + ICONST_0 + ISTORE_0
    first = 6 * 8000 + 1
    append = [u1(252) + u2(0 if i else first) + u1(TOP) for i in range(2000)]
    frames = [frame for i in range(2000) for frame in (append[i], u1(64) + throwable, u1(250) + u2(0))]
    rows = [(0, first - 1, first + 3 * i + 1, 0) for i in range(2000)]
    c.method(step * 8000 + RETURN + (RETURN + b"\xbf" + RETURN) * 2000, frames, rows, locals=3)


def deep_handlers(c):
    """2,000 stores of ever new types, under 300 rows to handlers whose frames have 20,000 local variables and are near one another."""
    throwable = u1(7) + u2(c.pool.of_class(b"java/lang/Throwable"))
    step = b"\xbb" + u2(c.pool.of_class(b"java/lang/Object")) + b"\x4b"
    first = 4 * 2000 + 2
    append = [u1(252) + u2(0 if i else first - 2) + u1(TOP) for i in range(300)]
    frames = [frame for i in range(300) for frame in (append[i], u1(64) + throwable, u1(251) + u2(0))]
    rows = [(1, first - 1, first + 3 * i + 1, 0) for i in range(300)]
    code = RETURN + step * 2000 + RETURN + (RETURN + b"\xbf" + RETURN) * 300
    c.method(code, [full_frame(1, [TOP] + [INTEGER] * 19999)] + frames, rows, locals=20301)


def rows_apart(c):
    """60,000 rows of one pc each, in turn to two handlers whose frames don't share their local variables."""
    throwable = u1(7) + u2(c.pool.of_class(b"java/lang/Throwable"))
    frames = [u1(247) + u2(60001) + throwable, u1(255) + u2(0) + u2(1) + u1(TOP) + u2(1) + throwable]
    rows = [(i, i + 1, 60001 + i % 2, 0) for i in range(60000)]
    c.method(NOP * 60000 + RETURN + b"\xbf\xbf", frames, rows, locals=2)


def stores_before(c):
    """4,000 times a store of an int and one of null into a local variable, and a branch to a written-out frame of 65,535."""
    end = 8 * 4000 + 1
    step = lambda at: ICONST_0 + ISTORE_0 + ACONST_NULL + b"\x4b" + ICONST_0 + b"\x99" + u2(end - at - 5)
    frames = [full_frame(1, [INTEGER] * LOCALS), full_frame(end - 2, [TOP] + [INTEGER] * (LOCALS - 1))]
    c.method(RETURN + b"".join(step(at) for at in range(1, end, 8)) + RETURN, frames)


def gotos_apart(c):
    """10,000 jumps from frames of 65,535 ints to one of as many unset local variables."""
    end = 3 * 10000 + 1
    code = b"".join(b"\xa7" + u2(end - at) for at in range(1, end, 3))
    c.method(RETURN + code + RETURN, [full_frame(1, [INTEGER] * LOCALS)] + [same(2)] * 9999 + [full_frame(2, [TOP] * LOCALS)])


def switches_apart(c):
    """2,000 switches from frames of 65,535 ints, each with such a frame for its default alone."""
    end = 20 * 2000 + 4
    code = b"".join(NOP * 2 + ICONST_0 + b"\xaa" + u4(end - at - 3) + u4(0) + u4(0) + u4(end - at - 3) for at in range(4, end, 20))
    frames = [full_frame(1, [INTEGER] * LOCALS), same(22)] + [same(19)] * 1998 + [full_frame(19, [TOP] * LOCALS)]
    c.method(RETURN + NOP * 3 + code + RETURN, frames)


def far_and_near(c):
    """8,000 branches to 8,000 frames of 65,535 local variables that are near one another, and far from that of the branches."""
    end = 4 * 8000 + 1
    code = b"".join(ICONST_0 + b"\x99" + u2(end + 2 * i - 4 * i - 1) for i in range(8000))
    near = [u1(252) + u2(0) + u1(TOP), u1(250) + u2(0)] * 8000
    c.method(RETURN + code + NOP * 16000 + RETURN, [full_frame(1, [INTEGER] * LOCALS), full_frame(end - 2, [INTEGER] * (LOCALS - 1))] + near)


def stores_apart(c):
    """2,700 times a store of an int and one of null, each with a branch to a frame of 65,535 local variables that is written out."""
    end = 12 * 2700 + 1
    step = lambda at: ICONST_0 + ISTORE_0 + ICONST_0 + b"\x99" + u2(end - at - 3) + ACONST_NULL + b"\x4b" + ICONST_0 + b"\x99" + u2(end - at - 9)
    frames = [full_frame(1, [INTEGER] * LOCALS), full_frame(end - 2, [TOP] + [INTEGER] * (LOCALS - 1))]
    c.method(RETURN + b"".join(step(at) for at in range(1, end, 12)) + RETURN, frames)


def deep_objects(c):
    """8,000 times an object that is made, initialized and dropped, above 60,000 ints on the operand stack."""
    make = b"\xbb" + u2(c.pool.of_class(b"java/lang/Object"))
    init = b"\xb7" + u2(c.pool.member(10, b"java/lang/Object", b"<init>", b"()V"))
    ints = u1(255) + u2(1) + u2(0) + u2(60000) + u1(INTEGER) * 60000
    c.method(RETURN + (make + b"\x59" + init + b"\x57") * 8000 + RETURN, [ints], stack=60002, locals=0)


def later_object(c):
    """21,000 objects that are made and left on the operand stack, above one of a later `new`."""
    later = u1(255) + u2(1) + u2(0) + u2(1) + u1(8) + u2(65000)
    c.method(RETURN + (b"\xbb" + u2(c.pool.of_class(b"java/lang/Object"))) * 21000 + RETURN, [later], stack=21001, locals=0)


def other_frames(c):
    """60 jumps, each to a frame of 65,535 local variables that is written out."""
    c.method(RETURN + GOTO_NEXT * 60 + RETURN, [full_frame(1, [INTEGER] * LOCALS)] + [full_frame(2, [INTEGER] * LOCALS)] * 60)


def many_rows(c):
    """65,535 rows of an exception table, each of which covers a code of 65,000 instructions."""
    throwable = c.pool.of_class(b"java/lang/Throwable")
    frame = u1(247) + u2(65001) + u1(7) + u2(throwable)
    c.method(NOP * 65000 + RETURN + b"\xbf", [frame], [(0, 65001, 65001, 0)] * 65535, locals=1)


def rows_and_stores(c):
    """65,535 rows of an exception table, each of which covers 32,000 stores into a local variable."""
    throwable = c.pool.of_class(b"java/lang/Throwable")
    frame = u1(247) + u2(64001) + u1(7) + u2(throwable)
    c.method((ICONST_0 + ISTORE_0) * 32000 + RETURN + b"\xbf", [frame], [(0, 64001, 64001, 0)] * 65535, locals=1)


def many_targets(c):
    """A switch of 16,000 targets, each with a frame of 65,535 local variables."""
    first = 4 + 12 + 4 * 16000
    room = 65535 - first - 1
    targets = [first + i % room for i in range(16000)]
    offsets = b"".join(u4(target - 1) for target in targets)
    switch = b"\xaa\0\0" + u4(first - 1) + u4(0) + u4(len(targets) - 1) + offsets
    c.method(ICONST_0 + switch + NOP * room + RETURN, [full_frame(first, [TOP] * LOCALS)] + [SAME] * room)


def deep_casts(c):
    """21,000 casts between arrays of 255 dimensions."""
    names = [b"[" * 255 + b"Ljava/lang/%s;" % name for name in (b"Object", b"String", b"Thread")]
    casts = b"".join(b"\xc0" + u2(c.pool.of_class(names[i % 3])) for i in range(21000))
    c.method(ACONST_NULL + casts + b"\x57" + RETURN, locals=0)


def one_constant():
    """65,535 uses of one constant."""
    c = ClassFile(b"Hostile")
    c.field(b"f")
    step = b"\xb2" + u2(c.pool.member(9, b"Hostile", b"f", b"I")) + b"\x57"
    for _ in range(4):
        c.method(step * 16383 + RETURN, locals=0)
    return [c.whole()]


def own_members(number=b"0"):
    """A class with 30,000 fields, each of which it names."""
    c = ClassFile(b"Hostile" + number)
    members = [b"f%d" % i for i in range(16000)]
    for name in members:
        c.field(name)
    steps = [b"\xb2" + u2(c.pool.member(9, c.name, name, b"I")) + b"\x57" for name in members]
    for start in range(0, len(steps), 8000):
        c.method(b"".join(steps[start:start + 8000]) + RETURN, locals=0)
    return c.whole()


def chain():
    """256 classes, each the superclass of the next; the last names a field of the first 16,000 times."""
    made = []
    for i in range(256):
        c = ClassFile(b"Hostile%d" % i, b"Hostile%d" % (i - 1) if i else b"java/lang/Object")
        if i == 0:
            c.field(b"f")
        if i == 255:
            c.method((b"\xb2" + u2(c.pool.member(9, c.name, b"f", b"I")) + b"\x57") * 16000 + RETURN, locals=0)
        made.append(c.whole())
    return made


def interfaces():
    """255 interfaces, each of which extends all that are before it."""
    made = []
    for i in range(255):
        c = ClassFile(b"Hostile%d" % i, flags=0x601)
        c.interfaces = [b"Hostile%d" % other for other in range(i)]
        made.append(c.whole())
    return made


KINDS = {
    "many-frames": lambda: methods_of(many_frames, 20),
    "many-jumps": lambda: methods_of(many_jumps, 26),
    "many-stores": lambda: methods_of(many_stores, 28),
    "far-stores": lambda: methods_of(far_stores, 28),
    "frames-in-turn": lambda: methods_of(frames_in_turn, 18),
    "branches-ahead": lambda: methods_of(branches_ahead, 40),
    "many-objects": lambda: methods_of(many_objects, 60),
    "made-objects": lambda: methods_of(made_objects, 60),
    "kept-objects": lambda: methods_of(kept_objects, 60),
    "object-frames": lambda: methods_of(object_frames, 28),
    "branches-apart": lambda: methods_of(branches_apart, 23),
    "other-frames": lambda: methods_of(other_frames, 1),
    "many-nops": lambda: methods_of(many_nops, 60),
    "array-types": lambda: methods_of(array_types, 1),
    "new-stores": lambda: methods_of(new_stores, 1),
    "moving-frames": lambda: methods_of(moving_frames, 1),
    "branches-in-turn": lambda: methods_of(branches_in_turn, 1),
    "stores-and-branches": lambda: methods_of(stores_and_branches, 1),
    "many-overwritten": lambda: methods_of(many_overwritten, 1),
    "constructor-frames": lambda: methods_of(constructor_frames, 1),
    "handlers-apart": lambda: methods_of(handlers_apart, 1),
    "handlers-between": lambda: methods_of(handlers_between, 1),
    "objects-in-turn": lambda: methods_of(objects_in_turn, 1),
    "deep-handlers": lambda: methods_of(deep_handlers, 1),
    "rows-apart": lambda: methods_of(rows_apart, 1),
    "stores-before": lambda: methods_of(stores_before, 1),
    "gotos-apart": lambda: methods_of(gotos_apart, 1),
    "switches-apart": lambda: methods_of(switches_apart, 1),
    "far-and-near": lambda: methods_of(far_and_near, 1),
    "stores-apart": lambda: methods_of(stores_apart, 1),
    "deep-objects": lambda: methods_of(deep_objects, 1),
    "later-object": lambda: methods_of(later_object, 60),
    "many-rows": lambda: methods_of(many_rows, 6),
    "rows-and-stores": lambda: methods_of(rows_and_stores, 6),
    "many-handlers": lambda: methods_of(many_handlers, 1),
    "other-stores": lambda: methods_of(other_stores, 1),
    "other-stores-40": lambda: methods_of(other_stores, 40),
    "other-stores-and-rows": lambda: methods_of(other_stores_and_rows, 16),
    "many-targets": lambda: methods_of(many_targets, 29),
    "deep-casts": lambda: methods_of(deep_casts, 60),
    "one-constant": one_constant,
    "own-members": lambda: [own_members()],
    "own-members-8": lambda: [own_members(b"%d" % i) for i in range(8)],
    "chain": chain,
    "interfaces": interfaces,
}


def write(path, classes):
    path.write_bytes(b"".join(u4(len(data)) + data for data in classes))


def main():
    sources, out = Path(sys.argv[1]), Path(sys.argv[2])
    out.mkdir(parents=True, exist_ok=True)
    programs = list(javac_programs(sources))
    for count in (10, 50, 250, 1250):
        write(out / f"classes-{count}", copies(programs, count))
    for kind, made in KINDS.items():
        write(out / kind, made())


if __name__ == "__main__":
    main()
