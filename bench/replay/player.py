"""Makes the history that a list of turns has to give, by what a carrier does in its turn.

In a turn a carrier that has a thread mounted makes a step of it, and with a step that ends the thread puts it down; a thread that has to leave is
put down in its next turn. A thread that isn't enabled is made ready to be put down in one turn, and put down in the next. An idle carrier takes
up a thread. With a pinned thread that isn't enabled it does nothing. Before its step a thread has executed its local instructions, at most 10,000; a notify picks the thread that has waited longest. A
turn is at a time; time goes on to it first where a live thread waits for that, after which the run may have ended, or where the step reads the
clock, and the time is less.
"""

from judge import ENTRIES_OF_A_TURN, make_entry
from invocations import reads_clock
from local_steps import is_local, make_local_step
from requests import LacksThreads
from schedule import Schedule
from state import DONE, Run
from steps import MOST_LOCAL_STEPS
from traces import Clock, Mount, Step, Unmount


def run_ahead(thread):
    """Executes the local instructions of a thread before its next step. The result is how many there were."""
    made = 0
    while thread.is_in(Run) and made < MOST_LOCAL_STEPS and is_local(thread):
        make_local_step(thread)
        made += 1
    return made


class Player:
    """`frozen` has the carriers whose thread is to be put down, `told` an ending that isn't the program's own."""

    def __init__(self, state, carriers, events):
        self.state = state
        self.schedule = Schedule(state, carriers)
        self.events = events
        self.frozen = set()
        self.history = []
        self.told = None

    def has_ended(self):
        full = self.events < len(self.history) + ENTRIES_OF_A_TURN
        return self.told is not None or full or self.state.ending() is not None

    def enter(self, entry):
        make_entry(self.schedule, entry)
        self.history.append(entry)

    def put_down(self, carrier, number):
        self.frozen.discard(carrier)
        self.enter(Unmount(carrier, number))

    def tell_stop(self):
        """Tells that no thread can go on, or that pinned threads keep all others from it."""
        if self.has_ended():
            return
        if self.state.is_stalled():
            self.told = "Stalled"
        elif self.schedule.is_starved():
            self.told = "Starved"

    def step(self, carrier, number, now):
        thread = self.state.threads[number]
        ahead = run_ahead(thread)
        if self.state.now < now and thread.is_in(Run) and reads_clock(self.state, thread):
            self.enter(Clock(carrier, now))
        pick = self.schedule.notified_next(thread)
        try:
            self.schedule.step(carrier, number, ahead + 1, pick, ahead)
        except LacksThreads:
            self.told = f"Limit Threads {self.state.most_threads}"
            return
        self.schedule.last_carrier = carrier
        self.history.append(Step(carrier, number, ahead + 1, pick))
        if thread.status == DONE:
            self.put_down(carrier, number)
            self.tell_stop()
        elif number in self.schedule.owing:
            self.frozen.add(carrier)
            self.tell_stop()
        elif number not in self.schedule.look.enabled:
            self.tell_stop()

    def turn(self, carrier, now):
        if self.has_ended():
            return
        if self.state.is_awaited(now):
            self.enter(Clock(carrier, now))
            self.tell_stop()
            if self.has_ended():
                return
        self.act(carrier, now)

    def act(self, carrier, now):
        number = self.schedule.mounted[carrier]
        if number is None:
            deque = self.schedule.next_deque(carrier)
            if deque:
                self.enter(Mount(carrier, deque[0]))
        elif carrier in self.frozen:
            self.put_down(carrier, number)
        elif number in self.schedule.look.enabled:
            self.step(carrier, number, now)
        elif not self.state.threads[number].is_pinned():
            self.frozen.add(carrier)
