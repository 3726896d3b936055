"""What a turn of each benchmark program is, how many turns it makes, and which program does the same but for its turns."""

from typing import NamedTuple


class Turns(NamedTuple):
    what: str
    count: int
    without: str = "Empty"


EVENTS = {
    "Fib": Turns("a call and return of fib", 1_664_079),
    "Statics": Turns("two reads and a write of static fields", 1_000_000),
    "Fields": Turns("two reads and a write of fields", 1_000_000),
    "Arrays": Turns("a read and a write of elements", 1_000_000),
    "Objects": Turns("an object with its constructors, and a read of a field", 500_000),
    "VirtualCalls": Turns("two calls and returns", 1_000_000),
    "InterfaceCalls": Turns("two calls and returns", 1_000_000),
    "Lines": Turns("a line of a joined String", 100_000),
    "Throws": Turns("three calls, an exception, and its way over three frames", 100_000),
    "Locks": Turns("an enter and an exit of a monitor", 1_000_000),
}

THREADS = {
    "Starts": Turns("a virtual thread that is made, started, run and joined", 50_000),
    "Yields": Turns("a yield of a virtual thread, and the mount of another", 500_000),
    "AmongFew": Turns("a yield of one of two threads, while 10 wait", 200_000, "Few"),
    "AmongMany": Turns("a yield of one of two threads, while 90,000 wait", 200_000, "Many"),
    "OwnPermits": Turns("a permit that a thread gives itself, and takes", 500_000),
    "OwnInterrupts": Turns("a thread interrupts itself, and clears the status", 500_000),
    "Handovers": Turns("a permit for another thread, which waits for it", 200_000),
    "WaitHandovers": Turns("a notification of another thread, which waits for it", 200_000),
    "NotifyAmongFew": Turns("a notification of one of 10 threads that wait, which waits again", 100_000, "WaitFew"),
    "NotifyAmongMany": Turns("a notification of one of 90,000 threads that wait, which waits again", 100_000, "WaitMany"),
    "ClockReadings": Turns("a reading of the clock", 500_000),
}
