"""Values of the machine, and what descriptors say of them.

An int is a Python `int`, null is `None`; a long and a reference have a type of their own. A long takes two slots: itself, and `SECOND` above
it. A local variable that nothing was stored in is `SECOND` too.
"""

from typing import NamedTuple


class Long(NamedTuple):
    number: int


class Ref(NamedTuple):
    """A reference to the object with this number."""

    number: int


class Second:
    def __repr__(self):
        return "SECOND"


SECOND = Second()


class Undefined(Exception):
    """The machine has no such step. The text says why."""


def int_of(number):
    """The int that the low 32 bits of a number are."""
    return ((number + 0x80000000) & 0xFFFFFFFF) - 0x80000000


def long_of(number):
    """The long that the low 64 bits of a number are."""
    return Long(((number + 0x8000000000000000) & 0xFFFFFFFFFFFFFFFF) - 0x8000000000000000)


def byte_of(number):
    return ((number + 0x80) & 0xFF) - 0x80


def char_of(number):
    return number & 0xFFFF


def short_of(number):
    return ((number + 0x8000) & 0xFFFF) - 0x8000


NARROWED = {"Z": lambda number: number & 1, "B": byte_of, "C": char_of, "S": short_of}


def kept(descriptor, value):
    """What a field, an element or a result of this type keeps of a value: of a boolean, byte, char or short its low bits."""
    narrowed = NARROWED.get(descriptor)
    return narrowed(value) if narrowed else value


def zero_of(descriptor):
    """The first value of a field or an element of this type."""
    if descriptor == "J":
        return Long(0)
    return 0 if descriptor in ("Z", "B", "C", "S", "I") else None


def is_of_kind(descriptor, value):
    """Whether a value is an int, a long or a reference, as this type asks."""
    if descriptor == "J":
        return isinstance(value, Long)
    if descriptor in ("Z", "B", "C", "S", "I"):
        return type(value) is int
    return value is None or isinstance(value, Ref)


def end_of_type(descriptor, at):
    """Behind the type that begins at a place of a descriptor."""
    while descriptor[at] == "[":
        at += 1
    return descriptor.index(";", at) + 1 if descriptor[at] == "L" else at + 1


def arguments_of(descriptor):
    """The types of the arguments of a method."""
    types = []
    at = 1
    while descriptor[at] != ")":
        end = end_of_type(descriptor, at)
        types.append(descriptor[at:end])
        at = end
    return types


def result_of(descriptor):
    """The type of a method's result, or `V`."""
    return descriptor[descriptor.index(")") + 1 :]


def slots_of(types):
    """How many slots values of these types take."""
    return sum(2 if descriptor == "J" else 1 for descriptor in types)
