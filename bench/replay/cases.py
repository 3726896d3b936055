"""Cases for the program `plays`: a Java program, a number of carriers, limits, and a list of turns."""

import re
from pathlib import Path
from typing import NamedTuple

from turn_lists import limits_of, randoms_of, turn_list

MOST_TURNS = 4000
MOST_CARRIERS = 5
# The options of a command, with what they say.
OPTIONS = re.compile(r" --(trace|(carriers|events)[ =]\S+)(?= )")
# The file of the cases that asks for the built-in class files, and the word in it.
LIBRARY = "library"


class Case(NamedTuple):
    """`files` are paths below the data of java_programs; `limits` are cells, threads and entries."""

    name: str
    main: str
    files: tuple
    carriers: int
    limits: tuple
    turns: list

    def command(self):
        return " ".join(["run", self.main, *self.files])

    def text(self):
        setting = " ".join(map(str, [self.carriers, *self.limits]))
        return "\n".join([f"play {self.name} {setting}", *(f"{carrier} {now}" for carrier, now in self.turns)]) + "\n"


def text_of(cases):
    """The text of cases of one program."""
    return cases[0].command() + "\n" + "".join(case.text() for case in cases)


def case_in(command, text):
    """The case of a command that a text tells, from behind its word `play`."""
    setting, *turns = text.splitlines()
    name, carriers, *limits = setting.split()
    _, main, *files = command.split()
    return Case(name, main, tuple(files), int(carriers), tuple(map(int, limits)), [tuple(map(int, turn.split())) for turn in turns])


def cases_in(text):
    """The cases that a text tells."""
    command, *cases = text.split("\nplay ")
    return [case_in(command, case) for case in cases]


def read_cases(folder):
    """The cases in the files of a folder, of which one only asks for the built-in class files."""
    paths = [path for path in sorted(Path(folder).iterdir()) if path.name != LIBRARY]
    return [case for path in paths for case in cases_in(path.read_text())]


class JavaProgram(NamedTuple):
    """A program in the table of java_programs: its main class, and its files below the data of that crate. Its name is that of the first file."""

    name: str
    main: str
    files: tuple


def java_programs(table):
    """The programs of the table that run, by their names."""
    found = {}
    for line in Path(table).read_text().splitlines():
        words = OPTIONS.sub("", line).split()
        if words[:1] == ["run"] and len(words) > 2:
            name = Path(words[2]).stem
            found.setdefault(name, JavaProgram(name, words[1].replace(".", "/"), tuple(words[2:])))
    return found


def random_case(program, seed):
    randoms = randoms_of(f"{program.name} {seed}")
    carriers = randoms.randint(1, MOST_CARRIERS)
    turns = turn_list(randoms, carriers, MOST_TURNS)
    return Case(f"{program.name}-{seed}", program.main, program.files, carriers, limits_of(randoms), turns)


def random_cases(programs, count):
    """So many cases, of each program in turn."""
    rounds = [divmod(place, len(programs)) for place in range(count)]
    return [random_case(programs[at], seed) for seed, at in rounds]
