"""Exceptions on their way (JVMS 2.10). A thread that throws looks at its top frame in each step."""

from local_steps import is_root
from natives import LANG, class_name_in_java, utf8_of
from requests import leave_monitor
from state import OUT_OF_MEMORY, Run, Throwing, Throws
from values import Ref


def new_exception(state, class_name):
    """A new exception without a message, or the OutOfMemoryError of the opening where there is no room for it."""
    try:
        return state.memory.new_object(state.program, class_name).number
    except Throws:
        return OUT_OF_MEMORY


def throw_new(state, thread, class_name):
    thread.phase = Throwing(new_exception(state, class_name))


def handler_of(state, frame, class_name):
    """The first row of the exception table that covers the pc and catches the class."""
    for handler in frame.method.code.handlers:
        covers = handler.start <= frame.pc < handler.end
        if covers and (handler.catch is None or state.program.is_sub(class_name, handler.catch)):
            return handler
    return None


def uncaught(state, thread, number):
    """Nothing catches the exception: a line tells it, and the thread is done."""
    memory = state.memory
    name = memory.at(thread.name).units
    class_name = class_name_in_java(memory.at(number).class_name)
    memory.err += utf8_of(f'Exception in thread "{name}" {class_name}\n')
    if thread.number == 0:
        state.main_threw = True
    thread.finish()


def leave_monitor_of(state, thread, frame, number):
    """The frame of a synchronized method leaves its monitor. The result is the exception that goes on: where the thread isn't the owner,
    IllegalMonitorStateException takes the place of what was thrown."""
    if not frame.method.is_synchronized:
        return number
    if not state.owns(thread, frame.monitor):
        return new_exception(state, LANG + "IllegalMonitorStateException")
    leave_monitor(state, thread, frame.monitor)
    return number


def throwing_step(state, thread):
    number = thread.phase.thrown
    frame = thread.top()
    handler = handler_of(state, frame, state.memory.at(number).class_name)
    if handler:
        frame.stack = [Ref(number)]
        frame.pc = handler.target
        frame.test_room()
        thread.phase = Run()
        return
    root = is_root(thread)
    number = leave_monitor_of(state, thread, frame, number)
    if root:
        uncaught(state, thread, number)
    else:
        thread.frames.pop()
        thread.phase = Throwing(number)
