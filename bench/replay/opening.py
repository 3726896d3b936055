"""The state in which a program begins."""

from class_files import INTEGER, LONG, STATIC, STRING as STRING_CONSTANT, text_at
from state import LIVE, MAIN_NAME, MAIN_THREAD, PLATFORM, Array, Frame, Memory, Run, State, Text, Thread
from state import ERR, FIRST_STATE, OUT, Instance, first_object
from values import Long, Ref, kept, zero_of

STATES = ["NEW", "RUNNABLE", "BLOCKED", "WAITING", "TIMED_WAITING", "TERMINATED"]
STATE_CLASS = "java/lang/Thread$State"
MAIN_KEY = ("main", "([Ljava/lang/String;)V")
# The monitor of the class with number j is this number and j.
CLASS_MONITORS = 0xFFFF0000


def state_object(program, ordinal):
    """One of the six states of a thread."""
    made = first_object(program, STATE_CLASS)
    name, number = program.instance_fields(STATE_CLASS)
    return Instance(STATE_CLASS, made.fields | {name: Ref(MAIN_NAME + 1 + ordinal), number: ordinal})


def opening_heap(program):
    names = ["java/lang/OutOfMemoryError", "java/io/PrintStream", "java/io/PrintStream", "java/lang/Thread"]
    heap = [first_object(program, name) for name in names]
    heap += [state_object(program, ordinal) for ordinal in range(len(STATES))]
    heap += [Text(units) for units in program.strings]
    return heap + [Array("[Ljava/lang/String;", [])]


def first_static(program, file, member):
    """The value of a static field at the opening: the streams and the states, else its ConstantValue, else zero."""
    if file.name == "java/lang/System":
        return Ref({"out": OUT, "err": ERR}[member.name])
    if file.name == STATE_CLASS:
        return Ref(FIRST_STATE + STATES.index(member.name))
    if member.constant is None:
        return zero_of(member.descriptor)
    constant = file.pool[member.constant]
    if constant.tag == STRING_CONSTANT:
        return Ref(program.strings[text_at(file.pool, constant.value)])
    value = {INTEGER: int, LONG: Long}[constant.tag](constant.value)
    return kept(member.descriptor, value)


def opening_statics(program):
    statics = {}
    for file in program.files:
        for member in file.fields:
            if member.has(STATIC):
                statics[member] = first_static(program, file, member)
    return statics


def initializers(program):
    """The class initializers in the order in which they run: by class, each after that of its superclass."""
    order = []
    for file in program.files:
        for superclass in reversed(program.superclasses(file)):
            if superclass not in order:
                order.append(superclass)
    methods = [program.declared(file, ("<clinit>", "()V")) for file in order]
    return [method for method in methods if method and method.is_initializer]


def class_monitor(program, file):
    return CLASS_MONITORS + program.files.index(file)


def opening(program, main_class, cells, most_threads):
    state = State(program, Memory(cells), most_threads)
    state.memory.heap = opening_heap(program)
    state.memory.statics = opening_statics(program)
    main = program.declared(program.classes[main_class], MAIN_KEY)
    frame = Frame(main, [Ref(len(state.memory.heap) - 1)])
    if main.is_synchronized:
        frame.monitor = class_monitor(program, main.owner)
        state.owners[frame.monitor] = (0, 1)
    thread = Thread(0, PLATFORM, False, MAIN_THREAD, MAIN_NAME, LIVE, Run())
    thread.frames = [frame] + [Frame(method, []) for method in reversed(initializers(program))]
    state.threads.append(thread)
    return state
