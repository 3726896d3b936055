"""The state of the reference machine: the memory that threads share, the threads with their whole stacks, and the owners of monitors."""

from dataclasses import dataclass, field

from values import SECOND, Long, Ref, Undefined, zero_of

MOST_FRAMES = 2048
STRING = "java/lang/String"
# Objects of the opening, by number.
OUT_OF_MEMORY, OUT, ERR, MAIN_THREAD, FIRST_STATE, MAIN_NAME = 0, 1, 2, 3, 4, 10


class Throws(Exception):
    """An instruction throws a new exception of this class, with nothing else changed."""

    def __init__(self, class_name):
        super().__init__(class_name)
        self.class_name = class_name


# ---- objects


@dataclass
class Instance:
    """An object with the values of its fields."""

    class_name: str
    fields: dict


@dataclass
class Array:
    class_name: str
    elements: list


@dataclass
class Text:
    """A String."""

    units: str
    class_name: str = STRING


# ---- memory


@dataclass
class Memory:
    """What threads share. `room` is how many cells are left."""

    room: int
    heap: list = field(default_factory=list)
    statics: dict = field(default_factory=dict)
    out: bytearray = field(default_factory=bytearray)
    err: bytearray = field(default_factory=bytearray)
    exited: int | None = None

    def at(self, number):
        return self.heap[number]

    def take(self, cells):
        """Takes cells from the room, where there are as many."""
        if cells > self.room:
            raise Throws("java/lang/OutOfMemoryError")
        self.room -= cells

    def add(self, made):
        """A new object, whose cells were taken."""
        self.heap.append(made)
        return Ref(len(self.heap) - 1)

    def new_text(self, units):
        self.take(1 + (len(units) + 7) // 8)
        return self.add(Text(units))

    def new_array(self, class_name, length):
        self.take(1 + length)
        return self.add(Array(class_name, [zero_of(class_name[1:])] * length))

    def new_object(self, program, class_name):
        fields = program.instance_fields(class_name)
        self.take(1 + len(fields))
        return self.add(first_object(program, class_name))


def first_object(program, class_name):
    """An object whose fields have their first values."""
    fields = program.instance_fields(class_name)
    return Instance(class_name, {member: zero_of(member.descriptor) for member in fields})


# ---- frames


class Frame:
    """A frame: a method, the pc of its instruction, its local variables, and its operand stack with the top last. Of a synchronized method
    it has the number of its monitor too."""

    __slots__ = ("method", "pc", "locals", "stack", "monitor")

    def __init__(self, method, arguments):
        self.method = method
        self.pc = 0
        self.locals = arguments + [SECOND] * (method.code.max_locals - len(arguments))
        self.stack = []
        self.monitor = None

    def instruction(self):
        return self.method.instructions[self.pc]

    def push(self, value):
        self.stack.append(value)
        if isinstance(value, Long):
            self.stack.append(SECOND)

    def pop_int(self):
        value = self.stack.pop()
        if type(value) is not int:
            raise Undefined(f"an int is expected, there is {value}")
        return value

    def pop_long(self):
        second, value = self.stack.pop(), self.stack.pop()
        if second is not SECOND or not isinstance(value, Long):
            raise Undefined(f"a long is expected, there is {value}")
        return value.number

    def pop_reference(self):
        """The number of an object, or None for null."""
        value = self.stack.pop()
        if value is None:
            return None
        if not isinstance(value, Ref):
            raise Undefined(f"a reference is expected, there is {value}")
        return value.number

    def pop_value(self, descriptor):
        """A value of a type."""
        if descriptor == "J":
            return Long(self.pop_long())
        if descriptor[0] in "L[":
            number = self.pop_reference()
            return None if number is None else Ref(number)
        return self.pop_int()

    def test_room(self):
        """An instruction may not leave more on the operand stack than its method says."""
        if len(self.stack) > self.method.code.max_stack:
            raise Undefined(f"the operand stack of {self.method} is too deep")


# ---- threads

PLATFORM, VIRTUAL = "platform", "virtual"
NEW, LIVE, DONE = "new", "live", "done"


@dataclass
class Run:
    pass


@dataclass
class Throwing:
    thrown: int


@dataclass
class Entering:
    monitor: int


@dataclass
class Waiting:
    monitor: int
    count: int
    deadline: int | None


NOTIFIED, TIMED_OUT, INTERRUPTED = "notified", "timed out", "interrupted"


@dataclass
class Reenter:
    monitor: int
    count: int
    wake: str


@dataclass
class Parked:
    deadline: int | None


@dataclass
class Asleep:
    deadline: int


@dataclass
class Joining:
    target: int
    deadline: int | None


@dataclass
class Thread:
    """A thread. `name` is the number of a String, `phase` that of a live thread, and the last of its frames is the top one."""

    number: int
    kind: str
    daemon: bool
    object: int
    name: int
    status: str = NEW
    phase: object = None
    permit: bool = False
    interrupted: bool = False
    frames: list = field(default_factory=list)

    def is_live(self):
        return self.status == LIVE

    def is_in(self, *phases):
        """Whether the thread is live, and in one of these phases."""
        return self.is_live() and isinstance(self.phase, phases)

    def keeps_going(self):
        return self.is_live() and not self.daemon

    def is_pinned(self):
        return any(frame.method.is_hold for frame in self.frames)

    def deadline(self):
        return getattr(self.phase, "deadline", None) if self.is_live() else None

    def top(self):
        return self.frames[-1]

    def finish(self):
        self.status, self.phase, self.frames = DONE, None, []


# ---- endings

ENDED, MAIN_THREW = "Ended", "MainThrew"


@dataclass
class State:
    """`owners` has the thread that owns a monitor, and how often it has entered it; `unnamed` counts the platform threads without a name."""

    program: object
    memory: Memory
    most_threads: int
    threads: list = field(default_factory=list)
    owners: dict = field(default_factory=dict)
    now: int = 0
    main_threw: bool = False
    unnamed: int = 0

    def ending(self):
        """How the program has ended, or None."""
        if self.memory.exited is not None:
            return f"Exited {self.memory.exited}"
        if any(thread.keeps_going() for thread in self.threads):
            return None
        return MAIN_THREW if self.main_threw else ENDED

    def is_reached(self, deadline):
        return deadline is not None and self.now >= deadline

    def can_go_on(self, thread):
        """Whether the phase of a live thread lets it step."""
        phase = thread.phase
        if isinstance(phase, (Run, Throwing)):
            return True
        if isinstance(phase, (Entering, Reenter)):
            return phase.monitor not in self.owners
        if isinstance(phase, Parked):
            return thread.permit or thread.interrupted or self.is_reached(phase.deadline)
        if isinstance(phase, Asleep):
            return thread.interrupted or self.is_reached(phase.deadline)
        if isinstance(phase, Joining):
            done = self.threads[phase.target].status == DONE
            return done or thread.interrupted or self.is_reached(phase.deadline)
        return False

    def is_enabled(self, thread):
        return self.ending() is None and thread.is_live() and self.can_go_on(thread)

    def has_time(self, thread):
        """Whether a live thread has a deadline that is still to come."""
        return thread.deadline() is not None and thread.deadline() > self.now

    def is_awaited(self, now):
        """Whether a live thread waits for a time that is still to come, and not later than this."""
        deadlines = [thread.deadline() for thread in self.threads]
        return any(deadline is not None and self.now < deadline <= now for deadline in deadlines)

    def is_stalled(self):
        """Whether no thread can go on, and no time will change that."""
        goes_on = any(self.is_enabled(thread) or self.has_time(thread) for thread in self.threads)
        return self.ending() is None and not goes_on

    def owns(self, thread, monitor):
        return monitor in self.owners and self.owners[monitor][0] == thread.number
