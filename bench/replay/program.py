"""A linked program: what names mean, what invocations select, and which classes are below others.

The classes are the built-in ones and then those of the files. That the program links is taken for granted.
"""

import functools

import class_files
from class_files import ABSTRACT, NATIVE, PRIVATE, PUBLIC, STATIC, SYNCHRONIZED
from instructions import decode
from values import Long, Ref, arguments_of, result_of, slots_of

OBJECT = "java/lang/Object"
ABOVE_ARRAYS = (OBJECT, "java/lang/Cloneable", "java/io/Serializable")
PRIMITIVES = {4: "Z", 5: "C", 8: "B", 9: "S", 10: "I", 11: "J"}

# The Strings that the heap begins with, before those that constants name.
FIRST_STRINGS = ["main", "NEW", "RUNNABLE", "BLOCKED", "WAITING", "TIMED_WAITING", "TERMINATED"]
OBJECTS_BEFORE_STRINGS = 10


class Method:
    """A method, with what a call of it needs."""

    def __init__(self, member):
        self.member = member
        self.owner = member.owner
        self.name = member.name
        self.descriptor = member.descriptor
        self.is_static = member.has(STATIC)
        self.is_private = member.has(PRIVATE)
        self.is_abstract = member.has(ABSTRACT)
        self.is_native = member.has(NATIVE)
        self.is_initializer = (member.name, member.descriptor) == ("<clinit>", "()V") and self.is_static
        self.is_synchronized = member.has(SYNCHRONIZED) and member.name != "<clinit>"
        self.is_hold = (member.owner.name, member.name) == ("jvt/Native", "hold")
        self.argument_slots = slots_of(arguments_of(member.descriptor))
        self.result = result_of(member.descriptor)
        self.code = member.code
        self.instructions = {}

    def key(self):
        return self.name, self.descriptor

    def __str__(self):
        return f"{self.owner.name}.{self.name}{self.descriptor}"


class Invocation:
    """What an invocation means: the class that its constant names, the method that this is, and what invokespecial selects."""

    def __init__(self, class_name, method):
        self.class_name = class_name
        self.method = method
        self.selected = method


class FieldUse:
    """What a field instruction means: the class that its constant names, and the field."""

    def __init__(self, class_name, field):
        self.class_name = class_name
        self.field = field


class Failed:
    """A selection that selects no method: the class of the error that the call throws."""

    def __init__(self, error):
        self.error = error


NONE_SELECTED = Failed("java/lang/AbstractMethodError")
SEVERAL_SELECTED = Failed("java/lang/IncompatibleClassChangeError")


def elements_of(class_name):
    """The type of the elements of an array class."""
    return class_name[1:]


def class_of_type(descriptor):
    """The class of the objects of a type of references."""
    return descriptor[1:-1] if descriptor.startswith("L") else descriptor


def array_of(class_name):
    """The class of the arrays whose elements are of a class or an array class."""
    return "[" + (class_name if class_name.startswith("[") else f"L{class_name};")


def is_array(class_name):
    return class_name.startswith("[")


class Program:
    def __init__(self, files):
        self.files = files
        self.classes = {file.name: file for file in files}
        self.methods = {file.name: {} for file in files}
        for file in files:
            for member in file.methods:
                method = Method(member)
                self.methods[file.name][method.key()] = method
        self.strings = self.string_numbers()
        for file in files:
            for method in self.methods[file.name].values():
                if method.code:
                    self.link_code(file, method)

    # ---- the Strings that constants name, each text once, by class and place in the pool

    def string_numbers(self):
        numbers = {}
        for text in FIRST_STRINGS + self.constant_texts():
            numbers.setdefault(text, OBJECTS_BEFORE_STRINGS + len(numbers))
        return numbers

    def constant_texts(self):
        texts = []
        for file in self.files:
            for place in sorted(file.pool):
                if file.pool[place].tag == class_files.STRING:
                    texts.append(class_files.text_at(file.pool, file.pool[place].value))
        return texts

    # ---- above a class

    def parent(self, file):
        return self.classes[file.parent] if file.parent else None

    def superclasses(self, file):
        """The class and its superclasses, from the class up."""
        found = []
        while file:
            found.append(file)
            file = self.parent(file)
        return found

    @functools.cache
    def above(self, file):
        """The class, its superinterfaces and its superclasses, each once, in the order in which a field is looked for (JVMS 5.4.3.2)."""
        found = [file]
        directs = [self.classes[name] for name in file.interfaces]
        if file.parent:
            directs.append(self.parent(file))
        for direct in directs:
            found += [other for other in self.above(direct) if other not in found]
        return found

    # ---- resolution (JVMS 5.4.3)

    def declared(self, file, key):
        return self.methods[file.name].get(key)

    def field_named(self, class_name, key):
        for file in self.above(self.classes[class_name]):
            for field in file.fields:
                if (field.name, field.descriptor) == key:
                    return field
        return None

    def interface_methods(self, file, key):
        """The methods of this key of the class's superinterfaces that are neither private nor static."""
        found = []
        for other in self.above(file):
            method = self.declared(other, key)
            if other.is_interface() and method and not method.is_private and not method.is_static:
                found.append(method)
        return found

    def most_specific(self, methods):
        """Those of them with a body below whose interface none of the others is declared (JVMS 5.4.3.3)."""
        chosen = []
        for method in methods:
            hidden = any(other is not method and method.owner in self.above(other.owner) for other in methods)
            if not hidden and not method.is_abstract:
                chosen.append(method)
        return chosen

    def from_interfaces(self, file, key):
        methods = self.interface_methods(file, key)
        bodies = self.most_specific(methods)
        if len(bodies) == 1:
            return bodies[0]
        return methods[0] if methods else None

    def public_of_object(self, key):
        method = self.declared(self.classes[OBJECT], key)
        return method if method and method.member.has(PUBLIC) and not method.is_static else None

    def method_named(self, class_name, key):
        """The method that a reference means: of an array class it is that of Object."""
        file = self.classes[OBJECT if is_array(class_name) else class_name]
        if file.is_interface():
            return self.declared(file, key) or self.public_of_object(key) or self.from_interfaces(file, key)
        for superclass in self.superclasses(file):
            if self.declared(superclass, key):
                return self.declared(superclass, key)
        return self.from_interfaces(file, key)

    # ---- selection (JVMS 5.4.6)

    def with_body(self, method):
        return NONE_SELECTED if method.is_abstract else method

    def default_method(self, file, key):
        """The one most specific method of the superinterfaces that has a body."""
        bodies = self.most_specific(self.interface_methods(file, key))
        if not bodies:
            return NONE_SELECTED
        return bodies[0] if len(bodies) == 1 else SEVERAL_SELECTED

    @functools.cache
    def select(self, class_name, method):
        """What invokevirtual or invokeinterface of a method selects on an object of a class."""
        if method.is_private:
            return self.with_body(method)
        file = self.classes[OBJECT if is_array(class_name) else class_name]
        for superclass in self.superclasses(file):
            other = self.declared(superclass, method.key())
            if other and not other.is_private and not other.is_static:
                return self.with_body(other)
        return self.default_method(file, method.key())

    def special_start(self, file, named, key):
        """Where the search of invokespecial begins: above the class, where the constant names a superclass and no constructor."""
        if key[0] != "<init>" and named is not file and named in self.superclasses(file):
            return self.parent(file)
        return named

    def select_special(self, file, named, key):
        """What invokespecial in the code of a class selects (JVMS 6.5)."""
        start = self.special_start(file, named, key)
        if start.is_interface():
            declared = self.declared(start, key)
            found = declared if declared and not declared.is_static else self.public_of_object(key)
            return self.with_body(found) if found else self.default_method(start, key)
        for superclass in self.superclasses(start):
            declared = self.declared(superclass, key)
            if declared and not declared.is_static:
                return self.with_body(declared)
        return self.default_method(start, key)

    # ---- which objects are instances of which classes (JVMS 6.5: instanceof)

    @functools.cache
    def is_sub(self, below, above):
        if is_array(below):
            return self.is_array_sub(below, above)
        if is_array(above) or below not in self.classes:
            return below == above or above == OBJECT
        return above in self.classes and self.classes[above] in self.above(self.classes[below])

    def is_array_sub(self, below, above):
        if not is_array(above):
            return above in ABOVE_ARRAYS
        return self.is_type_sub(elements_of(below), elements_of(above))

    def is_type_sub(self, below, above):
        """The same of types of elements: a primitive type is below itself alone."""
        if below[0] in "L[" and above[0] in "L[":
            return self.is_sub(class_of_type(below), class_of_type(above))
        return below == above

    # ---- fields of objects

    @functools.cache
    def instance_fields(self, class_name):
        """The fields of an object, those of the superclass first."""
        fields = []
        for file in reversed(self.superclasses(self.classes[class_name])):
            fields += [field for field in file.fields if not field.has(STATIC)]
        return fields

    # ---- code

    def link_code(self, file, method):
        method.instructions = decode(method.code.bytes)
        for instruction in method.instructions.values():
            self.link_instruction(file, instruction)

    def link_instruction(self, file, instruction):
        name, pool, index = instruction.name, file.pool, instruction.index
        if name in ("ldc", "ldc_w", "ldc2_w"):
            instruction.link = self.pushed_constant(pool, index)
        elif name in ("getstatic", "putstatic", "getfield", "putfield"):
            class_name, key = member_at(pool, index)
            instruction.link = FieldUse(class_name, self.field_named(class_name, key))
        elif name.startswith("invoke"):
            instruction.link = self.invocation(file, instruction)
        elif name in ("new", "checkcast", "instanceof", "multianewarray"):
            instruction.link = class_files.class_name_at(pool, index)
        elif name == "anewarray":
            instruction.link = array_of(class_files.class_name_at(pool, index))
        elif name == "newarray":
            instruction.link = "[" + PRIMITIVES[index]

    def pushed_constant(self, pool, index):
        constant = pool[index]
        if constant.tag == class_files.STRING:
            return Ref(self.strings[class_files.text_at(pool, constant.value)])
        return Long(constant.value) if constant.tag == class_files.LONG else constant.value

    def invocation(self, file, instruction):
        class_name, key = member_at(file.pool, instruction.index)
        found = Invocation(class_name, self.method_named(class_name, key))
        if instruction.name == "invokespecial":
            found.selected = self.select_special(file, self.classes[class_name], key)
        return found


def member_at(pool, index):
    """The class that a reference to a member names, and the member's name and descriptor."""
    class_place, key_place = pool[index].value
    name_place, descriptor_place = pool[key_place].value
    key = class_files.text_at(pool, name_place), class_files.text_at(pool, descriptor_place)
    return class_files.class_name_at(pool, class_place), key
