"""The user time of Java programs under jvt and under java -Xint."""

import glob
import os
import resource
import subprocess

# The other classes that a program needs.
CROWD = ["Crowd", "Yielder"]
WAITING = ["Waiting"]
SHARED = {
    **dict.fromkeys(["Few", "Many", "AmongFew", "AmongMany"], CROWD),
    **dict.fromkeys(["WaitFew", "WaitMany", "NotifyAmongFew", "NotifyAmongMany"], WAITING),
}


def files(name):
    """The class files of a program in the current folder: its own, those of the classes inside it, and others that it needs."""
    own = sorted(glob.glob(glob.escape(name) + ".class") + glob.glob(glob.escape(name + "$") + "*.class"))
    return own + [f"{other}.class" for other in SHARED.get(name, [])]


def user_time(words):
    before = resource.getrusage(resource.RUSAGE_CHILDREN).ru_utime
    subprocess.run(words, check=True, stdout=subprocess.DEVNULL)
    return resource.getrusage(resource.RUSAGE_CHILDREN).ru_utime - before


def least_times(jvt, names, options=()):
    """Runs the programs of the current folder in turn, nine rounds. By the name of a program: the least seconds of jvt and of java -Xint
    with these options. NEW_JDK in the environment has the words before java."""
    ways = [
        lambda name: [jvt, "run", name, *files(name)],
        lambda name: [*os.environ.get("NEW_JDK", "").split(), "java", "-Xint", *options, "-cp", ".", name],
    ]
    best = {}
    for _ in range(9):
        for name in names:
            for way, words in enumerate(ways):
                best[way, name] = min(best.get((way, name), 1e9), user_time(words(name)))
    return {name: [best[way, name] for way in range(2)] for name in names}


def print_turns(jvt, programs, options=()):
    """Prints what a turn of programs takes, by the names of the programs and their turns."""
    times = least_times(jvt, sorted({*programs, *(turns.without for turns in programs.values())}), options)
    for name, turns in programs.items():
        ours, theirs = (time - less for time, less in zip(times[name], times[turns.without]))
        each = [seconds / turns.count * 1e9 for seconds in (ours, theirs)]
        print(f"{name}: {turns.what}: jvt {each[0]:.0f} ns, java -Xint {each[1]:.0f} ns, ratio {ours / theirs:.2f}")
