"""Assembler texts at the limits of what fits, in pairs of which the second mostly doesn't, texts of odd names and descriptors, and texts with
two faults, of which one is told."""

HEAD = ["class super A", "super java/lang/Object"]
LONGEST_CODE = 65535
MOST = 65535
# The places that HEAD takes in the pool, and what a method with code takes besides.
OF_HEAD, OF_METHOD = 4, 3


def class_with(*lines):
    return [*HEAD, *lines]


def method_with(*lines, head="method static f ()V", sizes="stack 0 locals 0"):
    return class_with(head, sizes, *lines, "end")


def nops(count):
    return ["nop"] * count


def at_and_past(name, most, made):
    """The texts that a function makes of the most that fits, and of one more."""
    return [(f"{name} {number}", made(number)) for number in (most, most + 1)]


def code_limits():
    yield from at_and_past("code of size", LONGEST_CODE, lambda n: method_with(*nops(n)))
    yield from at_and_past("code and a wide one of size", LONGEST_CODE, lambda n: method_with(*nops(n - 4), "iload 256", "nop"))
    # Behind three instructions of a byte a switch has no padding, and so 13 bytes and four for each label.
    yield from at_and_past("labels of a switch that fits", 16379, lambda n: method_with("a:", *nops(3), switch(n)))
    yield from at_and_past("instructions behind a switch", 3, lambda n: method_with("a:", *nops(3), switch(16379), *nops(n)))
    yield from at_and_past("branch by", 32767, lambda n: method_with("goto a", *nops(n - 3), "a:", "nop"))
    yield from at_and_past("branch back by", 32768, lambda n: method_with("a:", *nops(n), "goto a"))
    yield from at_and_past("branch from the end by", 32768, lambda n: method_with(*nops(30000), "a:", *nops(n), "ifnull a"))
    yield from at_and_past("far branch behind code of", LONGEST_CODE - 5, lambda n: method_with("a:", *nops(n), "goto_w a"))
    yield "row to the end", method_with("a:", *nops(LONGEST_CODE), "b:", "catch any from a to b using a")
    yield "handler at the end", method_with("a:", *nops(LONGEST_CODE), "b:", "catch any from a to b using b")
    yield "type at the end", method_with("frame | new a", *nops(LONGEST_CODE), "a:")


def switch(count):
    return " ".join(["tableswitch 0", *["a"] * count, "default a"])


def list_limits():
    yield from at_and_past("interfaces", MOST, lambda n: class_with(*["implements A"] * n))
    yield from at_and_past("fields", MOST, lambda n: class_with(*["field x I"] * n))
    yield from at_and_past("methods", MOST, lambda n: class_with(*["method native f ()V", "end"] * n))
    yield from at_and_past("rows", MOST, lambda n: method_with("a:", "nop", "b:", *["catch any from a to b using a"] * n))
    for place in ("frame {} |", "frame | {}"):
        yield from at_and_past(place, MOST, lambda n, place=place: method_with(place.format(" ".join(["top"] * n)), "nop"))


def pool_limits():
    fill = MOST - 1 - OF_HEAD - 1
    yield from at_and_past("names of fields", fill, lambda n: class_with(*[f"field x{at} I" for at in range(n)]))
    fields = [f"field x{at} I" for at in range(MOST)]
    method = ["method static f ()V", "stack 0 locals 0"]
    for line, places in (("ldc_w int 1", 1), ("ldc2_w long 1", 2), ("frame |", 1), ("ldc_w text a", 2), ("nop", 0)):
        yield from at_and_past(
            f"{line} behind fields",
            fill - OF_METHOD - places,
            lambda n, line=line: class_with(*fields[:n], *method, line, "nop", "end"),
        )


def name_limits():
    yield from at_and_past("index of ldc", 255 - OF_HEAD - OF_METHOD, lambda n: method_with(*[f"ldc int {at}" for at in range(n)]))
    yield from at_and_past("text of length", MOST, lambda n: method_with("ldc text " + "a" * n))
    yield from at_and_past("name of length", MOST, lambda n: class_with("field " + "a" * n + " I"))
    yield from at_and_past("class of length", MOST, lambda n: class_with("implements " + "a" * n))
    yield from at_and_past("text of two bytes a unit of length", MOST // 2, lambda n: method_with("ldc text " + "\0" * n))
    yield from at_and_past("dimensions of a field", 255, lambda n: class_with("field x " + "[" * n + "I"))
    yield from at_and_past("dimensions of a class", 255, lambda n: method_with("checkcast " + "[" * n + "LA;"))
    yield from at_and_past("slots of ints", 255, lambda n: class_with("method native f (" + "I" * n + ")V", "end"))
    yield from at_and_past("slots of longs", 127, lambda n: class_with("method native f (" + "J" * n + "I)V", "end"))
    yield from at_and_past("slots of arrays of longs", 255, lambda n: class_with("method native f (" + "[J" * n + ")V", "end"))
    yield from at_and_past("slots of an interface's method", 254, lambda n: method_with("invokeinterface A f (" + "I" * n + ")V"))
    yield from at_and_past("slots of a class's method", 255, lambda n: method_with("invokevirtual A f (" + "D" * (n // 2) + "I" * (n % 2) + ")V"))


NAMES = ["a", "a/b", "[I", "[LA;", "[[", "[V", "I", "a.b", "a;", "a[", "/", "a/", "/a", "a//b", "<init>", "<clinit>", "<a>", "a>", "(", "(I)V"]
DESCRIPTORS = ["I", "V", "LA;", "L;", "LA", "LA;;", "L/A;", "LA/;", "LA//B;", "La.b;", "L[A;", "La<b>;", "[", "[I", "[V", "[LA;", "II", "()V", "()"]
DESCRIPTORS += ["(V)V", "(I", "I)V", "()VV", "([)V", "([LA;)[I", "(LA;J[[DF)LB;", "(L)V", "()[V", "(()V)V", "X", "l", "(I)V", "()L;", "(ILA;I)Z", ""]
DESCRIPTORS += ["[[[J", "(a)V"]


def names():
    for name in NAMES:
        yield f"class {name}", [f"class {name}", *HEAD[1:]]
        yield f"superclass {name}", [HEAD[0], f"super {name}"]
        yield f"field {name}", class_with(f"field {name} I")
        yield f"method {name}", class_with(f"method native {name} ()V", "end")
        yield f"field of {name}", method_with(f"getfield {name} x I")
        yield f"field of A, {name}", method_with(f"getfield A {name} I")
        yield f"method of A, {name}", method_with(f"invokespecial A {name} ()V")
        yield f"caught {name}", method_with("a:", "nop", "b:", f"catch {name} from a to b using a")
        yield f"type {name}", method_with(f"frame ref {name} |", "nop")
        yield f"dimensions of {name}", method_with(f"multianewarray {name} 1")
    for descriptor in DESCRIPTORS:
        yield f"field {descriptor}", class_with(f"field x {descriptor}")
        yield f"method {descriptor}", class_with(f"method native f {descriptor}", "end")
        yield f"field of A {descriptor}", method_with(f"putstatic A x {descriptor}")
        yield f"method of A {descriptor}", method_with(f"invokestatic A x {descriptor}")
        yield f"interface's method {descriptor}", method_with(f"invokeinterface A x {descriptor}")


TABLES = ["0 default a", "2147483647 a default a", "2147483647 a a default a", "2147483646 a a default a", "-2147483648 a default a"]
TABLES += ["default a", "0 a"]
LOOKUPS = ["default a", "1 a default a", "1 a 1 a default a", "1 a 0 a default a", "-1 a 0 a default a", "0 a -1 a default a"]
LOOKUPS += ["1 default a", "a", ""]


def switches():
    for words in TABLES:
        yield f"tableswitch {words}", method_with("a:", f"tableswitch {words}")
    for words in LOOKUPS:
        yield f"lookupswitch {words}", method_with("a:", f"lookupswitch {words}")
    for label in ("default", "|", "#", "a:", "any", "-1", "new"):
        uses = [f"goto {label}", f"tableswitch 1 {label} default {label}", f"frame new {label} | new {label}", "nop"]
        yield f"label {label}", method_with(f"{label}:", "nop", *uses)
    yield "label without a name", method_with(":", "nop")
    yield "label behind spaces", method_with("  a:", "nop", " goto a")


def orders():
    """Each text has two faults; which line is told follows from the order in which lines and labels are looked at."""
    yield "a bad line behind a lost label", method_with("goto a", "nop", "flop")
    yield "a bad line behind arrays without dimensions", method_with("multianewarray [[I 0", "flop")
    yield "a bad line behind a switch without labels", method_with("a:", "tableswitch 0 default a", "flop")
    yield "a bad line behind a switch that falls", method_with("a:", "lookupswitch 1 a 0 a default a", "flop")
    yield "a bad line behind an ldc of an index past a byte", method_with(*[f"ldc int {at}" for at in range(300)], "flop")
    yield "a bad line behind a row that covers nothing", method_with("a:", "nop", "catch any from a to a using a", "flop")
    yield "a bad line behind an interface's method of 255 slots", method_with("invokeinterface A f (" + "I" * 255 + ")V", "flop")
    yield "a bad line in the next method", [*method_with("goto a"), "flop"]
    yield "no end behind a lost label", method_with("goto a")[:-1]
    yield "another method behind a lost label", [*method_with("goto a")[:-1], "method native g ()V", "end"]
    yield "lost labels of a branch and a type", method_with("nop", "goto a", "frame new b |", "nop")
    yield "lost labels of a type and a branch", method_with("frame new b |", "goto a", "nop")
    yield "lost labels of a branch and a row", method_with("goto a", "catch any from b to b using b")
    rows = ["catch any from a to a using a", "catch any from b to b using b"]
    yield "a row that covers nothing, and one of a lost label", method_with("a:", "nop", *rows)
    yield "a row of a lost label, and one that covers nothing", method_with("a:", "nop", *reversed(rows))
    yield "a row that covers nothing", method_with("nop", "a:", "nop", "b:", "catch any from b to a using a")
    yield "a switch that falls, and a lost label", method_with("a:", "lookupswitch 1 a 0 a default a", "goto b")
    yield "a lost label, and a switch that falls", method_with("a:", "goto b", "lookupswitch 1 a 0 a default a")
    yield "no instruction, and a row", method_with("a:", "b:", "catch any from a to b using a")
    yield "no instruction, and a label", method_with("a:")
    yield "no instruction, and a frame", method_with("frame |")
    yield "a frame at the end", method_with("nop", "frame |")
    yield "a frame at the end, and a row", method_with("a:", "nop", "b:", "frame |", "catch any from a to b using a")
    yield "a frame at the end, and a lost label", method_with("goto a", "frame |")
    yield "a frame with a lost label at the end", method_with("nop", "frame | new a")
    yield "a frame at the end, and no end", method_with("nop", "frame |")[:-1]
    yield "two frames", method_with("frame |", "frame |", "nop")
    yield "two frames and a label", method_with("frame |", "a:", "frame top |", "goto a")
    yield "a label twice", method_with("a:", "nop", "a:", "goto a")
    yield "a label of two methods", [*method_with("a:", "goto a"), *method_with("a:", "goto a")[2:]]
    yield "a label of the other method", [*method_with("a:", "goto a"), *method_with("goto a")[2:]]
    yield "a label behind a row", method_with("a:", "nop", "b:", "catch any from a to b using a", "c:")
    yield "an instruction behind a row", method_with("a:", "nop", "b:", "catch any from a to b using a", "nop")
    yield "a frame behind a row", method_with("a:", "nop", "b:", "catch any from a to b using a", "frame |")
    yield "stack twice", method_with("stack 0 locals 0", "nop")
    yield "an abstract one with code", method_with("return", head="method abstract f ()V")
    yield "a native one with a label", class_with("method native f ()V", "a:", "end")
    yield "another one without code", class_with("method f ()V", "end")
    yield "another one without instructions", class_with("method f ()V", "stack 0 locals 0", "end")
    yield "a superclass of Object", ["class java/lang/Object", "super A"]
    yield "Object alone", ["class java/lang/Object"]
    yield "a field of Object", ["class java/lang/Object", "field x I", "implements A"]
    yield "no superclass", ["class A", "field x I"]
    yield "no superclass at the end", ["class A"]
    yield "a class and an end", class_with("end")
    yield "a second class", [*HEAD, *HEAD]
    yield "a field behind a method", class_with("method native f ()V", "end", "field x I")
    yield "an interface behind a method", class_with("method native f ()V", "end", "implements A")


def long_orders():
    yield "a bad line behind a branch that is too far", method_with("a:", *nops(33000), "goto a", "flop")
    yield "a bad line behind a frame with too many types", method_with("frame " + "top " * (MOST + 1) + "|", "nop", "flop")
    yield "code too long behind a lost label", method_with("goto a", *nops(LONGEST_CODE))
    yield "a bad line far behind", [*["# said"] * 70000, *class_with("flop")]


# Texts that aren't lists of whole lines, and the spaces and bytes that lines are made of.
PIECES = ["", "\n", " ", " \n", "#", "#\n", "\n\n#\n", "class A", "class A\n", "class A\nsuper B", "class A\nsuper B\n"]
FIRST_LINES = ["class A\r", "class A ", "class  A", "  class A", "\tclass A", "class\tA", "class A\tB", "class", "class \xe9"]
FIRST_LINES += ["class #A", "class A # said"]
LAST_LINES = ["\n  \n#", " ", "\r\n", "# x\r\n", "#\t  x \n", " #\n", "# \xe9\n", "field # I\n"]
WHOLE = PIECES + [f"{line}\nsuper B\n" for line in FIRST_LINES] + [f"class A\nsuper B\n{line}" for line in LAST_LINES]
WHOLE += ["class A\r\nsuper B\r\n", "class A\nsuper B\r\n", "class A\nsuper #\n", "  class A\n super B\n"]


def texts_of(*kinds):
    return [(f"limit: {name}", ("\n".join(lines) + "\n").encode()) for kind in kinds for name, lines in kind()]


def short_texts():
    """Those that are read in a moment, each with its name."""
    found = texts_of(name_limits, names, switches, orders)
    return found + [(f"limit: {text!r}", text.encode()) for text in WHOLE]


def long_texts():
    """Those of tens of thousands of lines or words."""
    return texts_of(code_limits, list_limits, pool_limits, long_orders)
