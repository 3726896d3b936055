"""What programs ask of threads, monitors and the clock: java.lang.Thread, LockSupport, Object.wait and notify, and the clock.

Each function is one request. It takes the state, the thread that asks and the arguments, the receiver first, and gives the result or None. One
that has to wait raises `Waits`, with nothing changed; the instruction is finished by a later step of the thread.
"""

from program import Failed
from natives import LANG, native, not_null, units_of
from state import DONE, INTERRUPTED, LIVE, NEW, NOTIFIED, PLATFORM, VIRTUAL, FIRST_STATE
from state import Asleep, Entering, Frame, Joining, Parked, Reenter, Run, Thread, Throwing, Throws, Waiting
from values import Long, Ref, Undefined, long_of

THREAD = LANG + "Thread"
LOCK_SUPPORT = "java/util/concurrent/locks/LockSupport"
LATEST = 2**64 - 1
NANOS_IN_MILLI = 1_000_000
NUMBER_KEY = ("0number", "I")


class Waits(Exception):
    """The thread waits in a phase; its frames stay at the instruction."""

    def __init__(self, phase):
        super().__init__(phase)
        self.phase = phase


class LacksThreads(Undefined):
    """The step would make one more thread than there may be, so it isn't defined."""


# ---- the threads of Thread objects


def number_field(state):
    return state.program.field_named(THREAD, NUMBER_KEY)


def thread_of(state, reference):
    number = state.memory.at(not_null(reference).number).fields[number_field(state)]
    return state.threads[number]


# ---- times


def deadline_after(state, nanos):
    return min(state.now + nanos, LATEST)


def test_not_negative(millis):
    if millis < 0:
        raise Throws(LANG + "IllegalArgumentException")


def millis_deadline(state, millis):
    """The deadline of wait and join: none for 0."""
    return None if millis == 0 else deadline_after(state, millis * NANOS_IN_MILLI)


def test_interrupt(thread):
    """A set interrupt status is cleared, and InterruptedException thrown."""
    if thread.interrupted:
        thread.interrupted = False
        raise Throws(LANG + "InterruptedException")


# ---- threads are made and started


def new_name(state, kind, name):
    """The name of a new thread: a new String where none is given."""
    if name is not None:
        units_of(state, name)
        return name
    return state.memory.new_text(f"Thread-{state.unnamed}" if kind == PLATFORM else "")


def create(state, thread, this, name, kind):
    if len(state.threads) >= state.most_threads:
        raise LacksThreads("the step makes one more thread than there may be")
    chosen = new_name(state, kind, name)
    if kind == PLATFORM and name is None:
        state.unnamed += 1
    daemon = True if kind == VIRTUAL else thread.daemon
    made = Thread(len(state.threads), kind, daemon, this.number, chosen.number)
    state.memory.at(this.number).fields[number_field(state)] = made.number
    state.threads.append(made)


@native(THREAD, "0createPlatform(Ljava/lang/String;)V")
def create_platform(state, thread, this, name):
    create(state, thread, this, name, PLATFORM)


@native(THREAD, "0createVirtual(Ljava/lang/String;)V")
def create_virtual(state, thread, this, name):
    create(state, thread, this, name, VIRTUAL)


def run_method(state, number):
    """The method `run` that is selected for a Thread object."""
    program = state.program
    declared = program.declared(program.classes[THREAD], ("run", "()V"))
    selected = program.select(state.memory.at(number).class_name, declared)
    if isinstance(selected, Failed):
        raise Throws(selected.error)
    return selected


@native(THREAD, "start()V")
def start(state, thread, this):
    target = thread_of(state, this)
    if target.status != NEW:
        raise Throws(LANG + "IllegalThreadStateException")
    method = run_method(state, target.object)
    frame = Frame(method, [Ref(target.object)])
    target.status, target.phase, target.frames = LIVE, Run(), [frame]
    if method.is_synchronized:
        frame.monitor = target.object
        target.phase = Entering(target.object)


# ---- waits of Thread


def begin_join(state, thread, target, millis):
    if not target.is_live():
        return
    test_interrupt(thread)
    raise Waits(Joining(target.number, millis_deadline(state, millis)))


@native(THREAD, "join()V")
def join(state, thread, this):
    begin_join(state, thread, thread_of(state, this), 0)


@native(THREAD, "join(J)V")
def join_millis(state, thread, this, millis):
    target = thread_of(state, this)
    test_not_negative(millis.number)
    begin_join(state, thread, target, millis.number)


@native(THREAD, "sleep(J)V")
def sleep(state, thread, millis):
    test_not_negative(millis.number)
    test_interrupt(thread)
    if millis.number != 0:
        raise Waits(Asleep(deadline_after(state, millis.number * NANOS_IN_MILLI)))


@native(THREAD, "yield()V", "onSpinWait()V")
def do_nothing(state, thread):
    return None


# ---- interrupts


def wake(thread, why):
    """Ends a wait on a monitor."""
    if thread.is_in(Waiting):
        thread.phase = Reenter(thread.phase.monitor, thread.phase.count, why)


@native(THREAD, "interrupt()V")
def interrupt(state, thread, this):
    target = thread_of(state, this)
    if target.is_live():
        target.interrupted = True
        wake(target, INTERRUPTED)


@native(THREAD, "isInterrupted()Z")
def is_interrupted(state, thread, this):
    return int(thread_of(state, this).interrupted)


@native(THREAD, "interrupted()Z")
def take_interrupt(state, thread):
    was = thread.interrupted
    thread.interrupted = False
    return int(was)


# ---- what a thread is


@native(THREAD, "currentThread()Ljava/lang/Thread;")
def current_thread(state, thread):
    return Ref(thread.object)


@native(THREAD, "threadId()J")
def thread_id(state, thread, this):
    return Long(thread_of(state, this).number + 1)


@native(THREAD, "isAlive()Z")
def is_alive(state, thread, this):
    return int(thread_of(state, this).is_live())


@native(THREAD, "isVirtual()Z")
def is_virtual(state, thread, this):
    return int(thread_of(state, this).kind == VIRTUAL)


@native(THREAD, "isDaemon()Z")
def is_daemon(state, thread, this):
    return int(thread_of(state, this).daemon)


@native(THREAD, "setDaemon(Z)V")
def set_daemon(state, thread, this, daemon):
    target = thread_of(state, this)
    if target.kind == VIRTUAL and daemon == 0:
        raise Throws(LANG + "IllegalArgumentException")
    if target.is_live():
        raise Throws(LANG + "IllegalThreadStateException")
    if target.kind == PLATFORM:
        target.daemon = daemon != 0


@native(THREAD, "getName()Ljava/lang/String;")
def get_name(state, thread, this):
    return Ref(thread_of(state, this).name)


@native(THREAD, "setName(Ljava/lang/String;)V")
def set_name(state, thread, this, name):
    target = thread_of(state, this)
    units_of(state, name)
    target.name = name.number


def state_ordinal(thread):
    """The place of a thread's state among NEW, RUNNABLE, BLOCKED, WAITING, TIMED_WAITING and TERMINATED."""
    if thread.status == NEW:
        return 0
    if thread.status == DONE:
        return 5
    if thread.is_in(Run, Throwing):
        return 1
    if thread.is_in(Entering, Reenter):
        return 2
    return 3 if thread.deadline() is None else 4


@native(THREAD, "getState()Ljava/lang/Thread$State;")
def get_state(state, thread, this):
    return Ref(FIRST_STATE + state_ordinal(thread_of(state, this)))


# ---- LockSupport: the blocker means nothing


def begin_park(thread, deadline):
    if thread.permit:
        thread.permit = False
        return
    if not thread.interrupted:
        raise Waits(Parked(deadline))


@native(LOCK_SUPPORT, "park()V")
def park(state, thread):
    begin_park(thread, None)


@native(LOCK_SUPPORT, "park(Ljava/lang/Object;)V")
def park_blocker(state, thread, blocker):
    begin_park(thread, None)


@native(LOCK_SUPPORT, "parkNanos(J)V")
def park_nanos(state, thread, nanos):
    if nanos.number > 0:
        begin_park(thread, deadline_after(state, nanos.number))


@native(LOCK_SUPPORT, "parkNanos(Ljava/lang/Object;J)V")
def park_nanos_blocker(state, thread, blocker, nanos):
    park_nanos(state, thread, nanos)


@native(LOCK_SUPPORT, "unpark(Ljava/lang/Thread;)V")
def unpark(state, thread, target):
    if target is not None and thread_of(state, target).is_live():
        thread_of(state, target).permit = True


# ---- the clock


@native(LANG + "System", "nanoTime()J")
def nano_time(state, thread):
    return long_of(state.now)


@native(LANG + "System", "currentTimeMillis()J")
def current_time_millis(state, thread):
    return Long(state.now // NANOS_IN_MILLI)


# ---- monitors


def enter_monitor(state, thread, monitor):
    owner, count = state.owners.get(monitor, (thread.number, 0))
    if owner != thread.number:
        raise Waits(Entering(monitor))
    state.owners[monitor] = (owner, count + 1)


def test_owner(state, thread, monitor):
    if not state.owns(thread, monitor):
        raise Throws(LANG + "IllegalMonitorStateException")


def leave_monitor(state, thread, monitor):
    """Leaves a monitor once, of which the thread is the owner."""
    _, count = state.owners[monitor]
    if count == 1:
        del state.owners[monitor]
    else:
        state.owners[monitor] = (thread.number, count - 1)


def begin_wait(state, thread, monitor, millis):
    test_not_negative(millis)
    test_owner(state, thread, monitor)
    test_interrupt(thread)
    _, count = state.owners.pop(monitor)
    raise Waits(Waiting(monitor, count, millis_deadline(state, millis)))


@native(LANG + "Object", "wait()V")
def wait(state, thread, this):
    begin_wait(state, thread, this.number, 0)


@native(LANG + "Object", "wait(J)V")
def wait_millis(state, thread, this, millis):
    begin_wait(state, thread, this.number, millis.number)


def waiters(state, monitor):
    return [thread for thread in state.threads if thread.is_in(Waiting) and thread.phase.monitor == monitor]


@native(LANG + "Object", "notify()V")
def notify(state, thread, this):
    """Who is notified is the choice of the step, so the step does it (steps.py)."""
    test_owner(state, thread, this.number)


@native(LANG + "Object", "notifyAll()V")
def notify_all(state, thread, this):
    test_owner(state, thread, this.number)
    for waiter in waiters(state, this.number):
        wake(waiter, NOTIFIED)
