"""The native methods of Object, String, StringBuilder, PrintStream and System. Each function takes the state, the thread and the arguments, the
receiver first, and gives the result or None. It throws before it changes anything."""

from state import ERR, Text, Throws
from values import char_of, int_of

LANG = "java/lang/"
NATIVES = {}


def native(class_name, *signatures):
    """Makes a function the meaning of these native methods of a class, each with its name and descriptor."""

    def register(function):
        for signature in signatures:
            at = signature.index("(")
            NATIVES[class_name, signature[:at], signature[at:]] = function
        return function

    return register


def not_null(reference):
    if reference is None:
        raise Throws(LANG + "NullPointerException")
    return reference


def units_of(state, reference):
    """The units of a String that isn't null."""
    found = state.memory.at(not_null(reference).number)
    if not isinstance(found, Text):
        raise Throws(LANG + "VerifyError")
    return found.units


def units_or_null(state, reference):
    return "null" if reference is None else units_of(state, reference)


# ---- the texts of values, by the type of a method's argument

TEXTS = {
    "I": lambda state, value: str(value),
    "J": lambda state, value: str(value.number),
    "C": lambda state, value: chr(char_of(value)),
    "Z": lambda state, value: "false" if value == 0 else "true",
    "Ljava/lang/String;": units_or_null,
}


# ---- java.lang.Object


@native(LANG + "Object", "<init>()V")
def object_init(state, thread, this):
    return None


@native(LANG + "Object", "equals(Ljava/lang/Object;)Z")
def object_equals(state, thread, this, other):
    return int(other is not None and other.number == this.number)


@native(LANG + "Object", "hashCode()I")
def object_hash_code(state, thread, this):
    return int_of(this.number)


def class_name_in_java(class_name):
    return class_name.replace("/", ".")


@native(LANG + "Object", "0toString(I)Ljava/lang/String;")
def object_to_string(state, thread, this, hash_code):
    name = class_name_in_java(state.memory.at(this.number).class_name)
    return state.memory.new_text(f"{name}@{hash_code & 0xFFFFFFFF:x}")


# ---- java.lang.String


@native(LANG + "String", "length()I")
def string_length(state, thread, this):
    return len(units_of(state, this))


@native(LANG + "String", "charAt(I)C")
def string_char_at(state, thread, this, index):
    units = units_of(state, this)
    if not 0 <= index < len(units):
        raise Throws(LANG + "StringIndexOutOfBoundsException")
    return ord(units[index])


@native(LANG + "String", "isEmpty()Z")
def string_is_empty(state, thread, this):
    return int(units_of(state, this) == "")


@native(LANG + "String", "equals(Ljava/lang/Object;)Z")
def string_equals(state, thread, this, other):
    units = units_of(state, this)
    found = None if other is None else state.memory.at(other.number)
    return int(isinstance(found, Text) and found.units == units)


@native(LANG + "String", "hashCode()I")
def string_hash_code(state, thread, this):
    total = 0
    for unit in units_of(state, this):
        total = int_of(31 * total + ord(unit))
    return total


@native(LANG + "String", "concat(Ljava/lang/String;)Ljava/lang/String;")
def string_concat(state, thread, this, other):
    units, others = units_of(state, this), units_of(state, other)
    return state.memory.new_text(units + others) if others else this


@native(LANG + "String", "toString()Ljava/lang/String;")
def string_to_string(state, thread, this):
    return this


def add_value_of(descriptor):
    @native(LANG + "String", f"valueOf({descriptor})Ljava/lang/String;")
    def string_value_of(state, thread, value):
        return state.memory.new_text(TEXTS[descriptor](state, value))


# ---- java.lang.StringBuilder: its one field is a String, or null while the text is empty

BUILDER = LANG + "StringBuilder"


def text_field(state):
    return state.program.instance_fields(BUILDER)[0]


def builder_units(state, this):
    text = state.memory.at(not_null(this).number).fields[text_field(state)]
    return "" if text is None else units_of(state, text)


@native(BUILDER, "<init>()V")
def builder_init(state, thread, this):
    return None


def add_append(descriptor):
    @native(BUILDER, f"append({descriptor})Ljava/lang/StringBuilder;")
    def builder_append(state, thread, this, value):
        text = state.memory.new_text(builder_units(state, this) + TEXTS[descriptor](state, value))
        state.memory.at(this.number).fields[text_field(state)] = text
        return this


@native(BUILDER, "length()I")
def builder_length(state, thread, this):
    return len(builder_units(state, this))


@native(BUILDER, "toString()Ljava/lang/String;")
def builder_to_string(state, thread, this):
    return state.memory.new_text(builder_units(state, this))


# ---- java.io.PrintStream and java.lang.System

STREAM = "java/io/PrintStream"


def utf8_of(units):
    """A text in UTF-8: two surrogates that are partners are one character, and any other is written as a question mark."""
    written = bytearray()
    at = 0
    while at < len(units):
        unit = units[at]
        at += 1
        if is_high(unit) and at < len(units) and is_low(units[at]):
            unit = chr(0x10000 + (ord(unit) - 0xD800 << 10) + ord(units[at]) - 0xDC00)
            at += 1
        elif is_high(unit) or is_low(unit):
            unit = "?"
        written += unit.encode()
    return written


def is_high(unit):
    return "\ud800" <= unit <= "\udbff"


def is_low(unit):
    return "\udc00" <= unit <= "\udfff"


def write(state, stream, units):
    memory = state.memory
    chosen = memory.err if not_null(stream).number == ERR else memory.out
    chosen += utf8_of(units)


@native(STREAM, "println()V")
def print_line_end(state, thread, this):
    write(state, this, "\n")


def add_print(descriptor):
    @native(STREAM, f"print({descriptor})V")
    def stream_print(state, thread, this, value):
        write(state, this, TEXTS[descriptor](state, value))

    @native(STREAM, f"println({descriptor})V")
    def stream_println(state, thread, this, value):
        write(state, this, TEXTS[descriptor](state, value) + "\n")


@native(LANG + "System", "exit(I)V")
def system_exit(state, thread, status):
    state.memory.exited = status


for each in TEXTS:
    add_append(each)
    add_print(each)
    if each != "Ljava/lang/String;":
        add_value_of(each)
