"""The carriers: which threads they have mounted, their run deques, who owes an unmount, and the lists of the monitors. A `Schedule` goes along
with a state, entry by entry, and refuses an entry that may not stand where it stands."""

from state import DONE, LIVE, Entering, Reenter, Waiting
from steps import make_steps, notified_monitor, pass_time
from values import Undefined


class Look:
    """What the carriers see of a state: of each live thread its phase, whether it is enabled, and its deadline; and which monitors are owned."""

    def __init__(self, state):
        live = [thread for thread in state.threads if thread.status == LIVE]
        self.ended = state.ending() is not None
        self.phases = {thread.number: thread.phase for thread in live}
        self.enabled = {thread.number for thread in live if not self.ended and state.can_go_on(thread)}
        self.owned = set(state.owners)

    def awaited(self, number):
        """The monitor on which a thread waits to be notified, or None."""
        phase = self.phases.get(number)
        return phase.monitor if isinstance(phase, Waiting) else None

    def entered(self, number):
        """The monitor for which a thread is in line, or None."""
        phase = self.phases.get(number)
        return phase.monitor if isinstance(phase, (Entering, Reenter)) else None

    def deadline(self, number):
        return getattr(self.phases.get(number), "deadline", None)


def require(condition, reason):
    if not condition:
        raise Undefined(reason)


class Schedule:
    """`waits` and `entries` have the threads that wait on a monitor and those in line for it; `owing` those mounted threads whose carrier owes
    their unmount; `was_off` those that, at some time since their mount, weren't enabled."""

    def __init__(self, state, carriers):
        self.state = state
        self.look = Look(state)
        self.mounted = [None] * carriers
        self.deques = [[] for _ in range(carriers)]
        self.deques[0].append(0)
        self.waits = {}
        self.entries = {}
        self.owing = set()
        self.was_off = set()
        self.last_carrier = None

    # ---- places

    def is_placed(self, number):
        """Whether a thread is mounted or in a deque."""
        return number in self.mounted or any(number in deque for deque in self.deques)

    def next_deque(self, carrier):
        """The carrier's own deque, else the next one that isn't empty, counting up and round."""
        for distance in range(len(self.deques)):
            deque = self.deques[(carrier + distance) % len(self.deques)]
            if deque:
                return deque
        return None

    # ---- entries

    def mount(self, carrier, number):
        require(not self.look.ended, "the program has ended")
        require(self.mounted[carrier] is None, f"carrier {carrier} has thread {self.mounted[carrier]} mounted")
        deque = self.next_deque(carrier)
        require(deque is not None, "all deques are empty")
        require(deque[0] == number, f"carrier {carrier} has to take thread {deque[0]}")
        deque.pop(0)
        self.mounted[carrier] = number
        self.owing.discard(number)
        self.was_off.discard(number)
        if number not in self.look.enabled:
            self.was_off.add(number)

    def notified_next(self, thread):
        """The thread that the next step of a thread notifies: the one that has waited longest, or None."""
        return next(iter(self.waits.get(notified_monitor(self.state, thread), [])), None)

    def step(self, carrier, number, count, pick, ahead=0):
        require(self.mounted[carrier] == number, f"carrier {carrier} hasn't mounted thread {number}")
        require(number not in self.owing, f"carrier {carrier} owes the unmount of thread {number}")
        require(number in self.look.enabled, f"thread {number} isn't enabled")
        thread = self.state.threads[number]
        if pick is not None:
            waiting = self.waits.get(self.look.awaited(pick), [])
            require(waiting[:1] == [pick], f"thread {pick} hasn't waited longest")
        yields = make_steps(self.state, thread, count, pick, ahead)
        before, self.look = self.look, Look(self.state)
        self.update(carrier, before, in_order_of_lists=True)
        leaves = not thread.is_pinned() and (yields or number not in self.look.enabled)
        if thread.status == DONE or leaves:
            self.owing.add(number)

    def clock(self, carrier, now):
        require(not self.look.ended, "the program has ended")
        pass_time(self.state, now)
        before, self.look = self.look, Look(self.state)
        self.update(carrier, before, in_order_of_lists=False)

    def unmount(self, carrier, number):
        require(self.mounted[carrier] == number, f"carrier {carrier} hasn't mounted thread {number}")
        if self.look.ended:
            is_done = self.state.threads[number].status == DONE
            require(is_done and self.last_carrier == carrier, "the program has ended")
        else:
            late = self.came_late(number)
            require(number in self.owing or late, f"carrier {carrier} doesn't owe the unmount of thread {number}")
        self.mounted[carrier] = None
        self.owing.discard(number)
        if number in self.look.enabled:
            self.deques[carrier].append(number)

    def came_late(self, number):
        """Whether a thread in line, that isn't pinned, was taken up and found the monitor owned at some time since."""
        in_line = self.look.entered(number) is not None
        return in_line and number in self.was_off and not self.state.threads[number].is_pinned()

    # ---- whether a run starves

    def is_kept(self, number):
        """Whether a carrier's thread is pinned, and neither can go on nor has a time to come."""
        if number is None:
            return False
        thread = self.state.threads[number]
        return thread.is_pinned() and not self.state.is_enabled(thread) and not self.state.has_time(thread)

    def is_starved(self):
        """Whether the threads that the carriers have mounted keep all others from going on."""
        kept = all(self.is_kept(number) for number in self.mounted)
        return kept and any(self.state.is_enabled(thread) or self.state.has_time(thread) for thread in self.state.threads)

    # ---- what a step or a tick does to lists and deques

    def update(self, carrier, before, in_order_of_lists):
        """Threads come to the lists of monitors, and those that can go on to the deque of the carrier."""
        numbers = sorted(self.look.phases)
        if not in_order_of_lists:
            numbers.sort(key=lambda number: deadline_key(before, number))
        waited = {monitor: list(waiting) for monitor, waiting in self.waits.items()}
        self.update_lists(self.waits, Look.awaited, before, numbers, {})
        self.update_lists(self.entries, Look.entered, before, numbers, waited if in_order_of_lists else {})
        self.deques[carrier] += [number for number in numbers if self.is_put(before, number)]
        self.was_off.update(number for number in numbers if number not in self.look.enabled)

    def update_lists(self, lists, monitor_of, before, numbers, first):
        """Who left a list goes out of it, and who came to one is its last: of several, those that waited on the monitor in their order."""
        for monitor in list(lists):
            lists[monitor] = [number for number in lists[monitor] if monitor_of(self.look, number) == monitor]
        for number in sorted_behind(first, numbers):
            monitor = monitor_of(self.look, number)
            if monitor is not None and monitor != monitor_of(before, number):
                lists.setdefault(monitor, []).append(number)

    def is_put(self, before, number):
        """Whether an entry puts a thread into the deque of its carrier."""
        look = self.look
        started = number in look.phases and number not in before.phases
        monitor = look.entered(number)
        made_enabled = monitor is None and number in look.enabled and number not in before.enabled
        moved = monitor is not None and before.awaited(number) is not None and monitor not in look.owned
        freed = monitor in before.owned and monitor not in look.owned
        is_next = freed and self.entries[monitor][0] == number
        return (started or made_enabled or moved or is_next) and not self.is_placed(number)


def deadline_key(look, number):
    """Threads by their deadlines, those without one last, and then by their numbers."""
    deadline = look.deadline(number)
    return deadline is None, deadline or 0, number


def sorted_behind(first, numbers):
    """Threads in the order in which they come to lists: those in `first`, by monitor, and then the others."""
    order = [number for waiting in first.values() for number in waiting]
    return order + [number for number in numbers if number not in order]
