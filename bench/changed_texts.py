#!/usr/bin/env python3
"""Changes assembler texts in one place each, and compares what the crates and bench/assembler.py make of them.

usage: changed_texts.py make TEXTS FOLDER OUT [COUNT [SEED]]
       changed_texts.py limits OUT
       changed_texts.py compare OUT TOLD

TEXTS has texts as asm_texts.py writes them, each after its length in four bytes, and FOLDER files *.jasm. A base is such
a file, or a class of TEXTS with one of its methods. `make` writes COUNT texts to OUT/texts, each of which is a base with
one change, then texts at limits and with two faults (limits.py), and some bases as they are; a line of OUT/changes says
of each what it is. `limits` writes the long texts at limits alone. TOLD has a line for each text, as the program
bench/changed_texts writes it; where it ends early, so does the comparison. `compare` prints each text of which the two
assemblers don't say the same, and how many there were of each change.
"""

import hashlib
import random
import re
import struct
import sys
from collections import Counter
from pathlib import Path

from assembler import BadLine, assemble

sys.path.insert(0, str(Path(__file__).parent / "changed_texts"))
from limits import long_texts, short_texts  # noqa: E402

# The longest base of a class file, in bytes: without proof the crates take some 30 KB a second.
LONGEST = 900
# How many bases of class files are assembled as they are.
UNCHANGED = 300
# The part of the changed texts that are of files *.jasm, and the part of the others that are of methods with frames.
OF_FILES, WITH_FRAMES = 0.08, 0.5
NUMBER = re.compile("-?[0-9]+")
LIMITS = [-(2**63) - 1, -(2**63), -(2**31) - 1, -(2**31), -32769, -32768, -129, -128, -1, 0, 1, 127, 128, 255, 256]
LIMITS += [32767, 32768, 65535, 65536, 2**31 - 1, 2**31, 2**32, 2**63 - 1, 2**63]
FLAGS = "public private protected static final super synchronized volatile transient native interface abstract strict".split()
TYPES = ["top", "int", "long", "null", "this", "new L0", "new", "ref [I", "ref", "|", "float", "double", "ref java/lang/Object"]
SPELLINGS = ["0{}", "+{}", "-{}", "{}.0", "0x{}", "{}e0", "{},", "1_{}", "{}L", "-0", "--{}", "", "{}\r", "\t{}", "٣", "{}\0"]
NAMES = ["a.b", "a;", "[", "[I", "[V", "a[", "/a", "a/", "a//b", "<a>", "<init>", "<clinit>", "LA;", "I", "(I)V", "()", "(V)V", "any", "#", "a:", ":"]
DEEP = ["[" * 255 + "I", "[" * 256 + "I", "(" + "J" * 127 + "I)V", "(" + "J" * 128 + ")V", "(" + "J" * 127 + ")V"]
STRANGE = [b"\r", b"\t", b"\0", b"\x7f", b"\x80", b"\xc3\xa9", b"\xff", b"\x0b", b"\xc0\x80"]
SAID = [b"", b"   ", b"# said", b"  # said  twice ", b"#\xc3\xa9\r", b"end", b"L0:", b":", b"frame |", b"return", b"super A", b"implements A"]
SAID += [b"field x I", b"method x ()V", b"stack 1 locals 1", b"catch any from L0 to L1 using L0", b"nop", b"flop", b"class A"]
SAID += [b"tableswitch 0 default L0", b"lookupswitch default L0", b"ldc int 7", b"ldc2_w long 7", b"ldc text a", b"goto_w L0", b"wide"]
SAID += [b"iinc 256 -129", b"multianewarray [[I 2"]


class Draws(random.Random):
    """What is chosen at random in a text, which is a list of lines without their ends."""

    def line_of(self, lines):
        """The number of a line: one of all, or one of those with a first word that is one of all first words."""
        if self.random() < 0.5:
            return self.randrange(len(lines))
        first = self.choice(sorted({line.split(b" ")[0] for line in lines if not line.endswith(b":")} | {b":"}))
        those = [at for at, line in enumerate(lines) if line.split(b" ")[0] == first or first == b":" == line[-1:]]
        return self.choice(those) if those else self.randrange(len(lines))

    def word_of(self, lines, wanted=lambda word: True):
        """The place of a word that is wanted, as a line and its number in it; None where there is none."""
        for _ in range(40):
            at = self.line_of(lines)
            those = [place for place, word in enumerate(lines[at].split(b" ")) if wanted(word)]
            if those:
                return at, self.choice(those)
        return None


def put_line(lines, at, *news):
    """The lines with others in place of one."""
    return lines[:at] + list(news) + lines[at + 1 :]


def put_word(lines, place, *news):
    """The lines with other words in place of one; None where there is no place."""
    if place is None:
        return None
    at, number = place
    words = lines[at].split(b" ")
    return put_line(lines, at, b" ".join(words[:number] + list(news) + words[number + 1 :]))


def word_at(lines, place):
    return lines[place[0]].split(b" ")[place[1]]


# ---- the changes, each of which gives the changed lines, None where it finds no place


def line_dropped(draws, lines):
    return put_line(lines, draws.line_of(lines))


def line_doubled(draws, lines):
    at = draws.line_of(lines)
    return put_line(lines, at, lines[at], lines[at])


def lines_swapped(draws, lines):
    """A line and the next change places."""
    at = draws.line_of(lines)
    if at + 1 == len(lines):
        return None
    return lines[:at] + [lines[at + 1], lines[at]] + lines[at + 2 :]


def line_copied(draws, lines):
    """A line stands in another place too."""
    at = draws.randrange(len(lines))
    return put_line(lines, at, lines[draws.line_of(lines)], lines[at])


def line_added(draws, lines):
    at = draws.line_of(lines)
    return put_line(lines, at, draws.choice(SAID), lines[at])


def line_replaced(draws, lines):
    return put_line(lines, draws.line_of(lines), draws.choice(SAID))


def line_cut(draws, lines):
    """A line ends in its middle, and its rest is the next line."""
    at = draws.line_of(lines)
    cut = draws.randrange(len(lines[at]) + 1)
    return put_line(lines, at, lines[at][:cut], lines[at][cut:])


def lines_joined(draws, lines):
    at = draws.line_of(lines)
    if at + 1 == len(lines):
        return None
    return lines[:at] + [lines[at] + draws.choice([b"", b" "]) + lines[at + 1]] + lines[at + 2 :]


def text_cut(draws, lines):
    """The text ends at any byte."""
    text = b"\n".join(lines)
    return text[: draws.randrange(len(text))].split(b"\n")


def end_cut(draws, lines):
    """The text ends in one of its last lines."""
    text = b"\n".join(lines)
    return text[: len(text) - draws.randrange(min(len(text), 60))].split(b"\n")


def word_dropped(draws, lines):
    return put_word(lines, draws.word_of(lines))


def word_doubled(draws, lines):
    place = draws.word_of(lines)
    return put_word(lines, place, word_at(lines, place), word_at(lines, place))


def word_replaced(draws, lines):
    """A word is another one of the same text."""
    other = draws.choice(draws.choice(lines).split(b" "))
    return put_word(lines, draws.word_of(lines), other)


def word_moved(draws, lines):
    """Two words of a line change places."""
    at = draws.line_of(lines)
    words = lines[at].split(b" ")
    if len(words) < 2:
        return None
    one, other = draws.sample(range(len(words)), 2)
    words[one], words[other] = words[other], words[one]
    return put_line(lines, at, b" ".join(words))


def is_number(word):
    return NUMBER.fullmatch(word.decode("latin-1")) is not None


def number_by_one(draws, lines):
    place = draws.word_of(lines, is_number)
    if place is None:
        return None
    return put_word(lines, place, str(int(word_at(lines, place)) + draws.choice([1, -1])).encode())


def number_at_limit(draws, lines):
    return put_word(lines, draws.word_of(lines, is_number), str(draws.choice(LIMITS)).encode())


def number_respelled(draws, lines):
    place = draws.word_of(lines, is_number)
    if place is None:
        return None
    number = word_at(lines, place).decode()
    return put_word(lines, place, draws.choice(SPELLINGS).format(number).encode())


def flag_put(draws, lines):
    """A flag is repeated, or another one is added."""
    heads = [at for at, line in enumerate(lines) if line.split(b" ")[0] in (b"class", b"field", b"method")]
    if not heads:
        return None
    at = draws.choice(heads)
    words = lines[at].split(b" ")
    flag = draws.choice([draws.choice(words), draws.choice(FLAGS).encode()])
    return put_line(lines, at, b" ".join([words[0], flag, *words[1:]]))


def label_changed(draws, lines):
    """A label is one that the method, or the text, may lack."""
    place = draws.word_of(lines, lambda word: re.fullmatch(rb"L[0-9]+:?", word) is not None)
    if place is None:
        return None
    old = word_at(lines, place)
    labels = [word.rstrip(b":") for line in lines for word in line.split(b" ") if re.fullmatch(rb"L[0-9]+:?", word)]
    new = draws.choice([b"L99999", b"l" + old[1:].rstrip(b":"), b"default", b"|", b"", draws.choice(labels), draws.choice(labels)])
    return put_word(lines, place, new + (b":" if old.endswith(b":") else b""))


def label_dropped(draws, lines):
    those = [at for at, line in enumerate(lines) if line.endswith(b":")]
    return put_line(lines, draws.choice(those)) if those else None


def label_moved(draws, lines):
    """A label stands before or behind any instruction of the text."""
    those = [at for at, line in enumerate(lines) if line.endswith(b":")]
    if not those:
        return None
    at = draws.choice(those)
    rest = put_line(lines, at)
    to = max(0, min(len(rest) - 1, at + draws.choice([-3, -2, -1, 1, 2, 3, draws.randrange(-60, 60)])))
    return put_line(rest, to, lines[at], rest[to])


def type_changed(draws, lines):
    """A type of a frame is another one."""
    those = [at for at, line in enumerate(lines) if line.startswith(b"frame ")]
    if not those:
        return None
    at = draws.choice(those)
    number = draws.randrange(1, len(lines[at].split(b" ")))
    return put_word(lines, (at, number), draws.choice(TYPES).encode())


def name_changed(draws, lines):
    """A name or a descriptor is one that can't stand everywhere."""
    place = draws.word_of(lines, lambda word: b"/" in word or b"(" in word or word[-1:] == b";" or len(word) < 3)
    return put_word(lines, place, draws.choice(NAMES + DEEP).encode())


def letter_changed(draws, lines):
    """A letter of a word is dropped, doubled, or another one."""
    place = draws.word_of(lines, lambda word: len(word) > 0)
    if place is None:
        return None
    word = word_at(lines, place)
    at = draws.randrange(len(word))
    new = draws.choice([b"", word[at : at + 1] * 2, word[at : at + 1].swapcase(), bytes([draws.choice(b"./;[()<>:#|-+0aI")])])
    return put_word(lines, place, word[:at] + new + word[at + 1 :])


def byte_put(draws, lines):
    """A byte that is no letter stands in a line."""
    at = draws.line_of(lines)
    to = draws.choice([draws.randrange(len(lines[at]) + 1), len(lines[at])])
    return put_line(lines, at, lines[at][:to] + draws.choice(STRANGE) + lines[at][to:])


def space_put(draws, lines):
    """A space stands in front of a line, behind it, or beside one of its spaces."""
    at = draws.line_of(lines)
    line = lines[at]
    spaces = [place for place, byte in enumerate(line) if byte == 32]
    to = draws.choice([0, len(line), *([draws.choice(spaces)] if spaces else [])])
    return put_line(lines, at, line[:to] + b" " * draws.choice([1, 1, 3]) + line[to:])


def space_dropped(draws, lines):
    """Two words of a line are one."""
    place = draws.word_of(lines)
    if place is None:
        return None
    words = lines[place[0]].split(b" ")
    if len(words) < 2:
        return None
    at = draws.randrange(len(words) - 1)
    return put_line(lines, place[0], b" ".join([*words[:at], words[at] + words[at + 1], *words[at + 2 :]]))


CHANGES = [line_dropped, line_doubled, lines_swapped, line_copied, line_added, line_replaced, line_cut, lines_joined, text_cut, end_cut]
CHANGES += [word_dropped, word_doubled, word_replaced, word_moved, number_by_one, number_at_limit, number_respelled, flag_put]
CHANGES += [label_changed, label_dropped, label_moved, type_changed, name_changed, letter_changed, byte_put, space_put, space_dropped]


def changed(draws, text):
    """The name of a change, and a text with it. The last line of a text that ends with LF is empty."""
    lines = text.split(b"\n")
    while True:
        change = draws.choice(CHANGES)
        new = change(draws, lines[:-1]) if change not in (text_cut, end_cut) else change(draws, lines)
        if new is None:
            continue
        made = b"\n".join(new if change in (text_cut, end_cut) else [*new, b""])
        if made != text:
            return change.__name__, made


# ---- the two sides


def read_texts(path):
    """The texts of a file, each after its length."""
    data, texts, at = Path(path).read_bytes(), [], 0
    while at < len(data):
        (length,) = struct.unpack_from(">I", data, at)
        texts.append(data[at + 4 : at + 4 + length])
        at += 4 + length
    return texts


def classes_of_one_method(text):
    """A class with each of its methods alone, as far as that isn't too long."""
    lines = text.splitlines(keepends=True)
    starts = [at for at, line in enumerate(lines) if line.startswith(b"method ")]
    head = b"".join(lines[: starts[0]]) if starts else text
    methods = [b"".join(lines[start:end]) for start, end in zip(starts, [*starts[1:], len(lines)])]
    return [head + method for method in methods if len(head + method) <= LONGEST]


def write_texts(out, named_texts):
    """Writes texts, each after its length, and their names in lines."""
    out.mkdir(parents=True, exist_ok=True)
    with open(out / "texts", "wb") as texts, open(out / "changes", "w") as names:
        for name, text in named_texts:
            texts.write(struct.pack(">I", len(text)) + text)
            names.write(name + "\n")


def make(texts, folder, out, count=10000, seed=1):
    """Writes some bases as they are, texts at limits, and so many changed bases."""
    files = [path.read_bytes() for path in sorted(Path(folder).rglob("*.jasm"))]
    bases = [base for text in read_texts(texts) for base in classes_of_one_method(text)]
    framed = [base for base in bases if b"\nframe " in base]
    draws = Draws(seed)

    def drawn():
        if draws.random() < OF_FILES:
            return draws.choice(files)
        return draws.choice(framed if draws.random() < WITH_FRAMES else bases)

    made = [changed(draws, drawn()) for _ in range(count)]
    unchanged = [("unchanged", text) for text in files + draws.sample(bases, min(UNCHANGED, len(bases)))]
    write_texts(Path(out), made + short_texts() + unchanged)


def judged(text):
    """What the assembler of bench says of a text, in the words of the program over the crates."""
    try:
        made = assemble(text)
    except BadLine as bad:
        return f"bad {bad.line}"
    return f"ok {len(made)} {hashlib.md5(made).hexdigest()}"


def show(number, name, text, told, own):
    """Prints a text that is told otherwise, with the lines round those that are named."""
    print(f"text {number}, {name}: the crates say {told}, bench/assembler.py {own}")
    lines = text.split(b"\n")
    named = {int(said.split()[1]) for said in (told, own) if said.startswith("bad")}
    for at in sorted({at for line in named for at in range(line - 3, line + 2) if 0 <= at < len(lines)}):
        print(f"    {at + 1}: {lines[at]!r}")


def compare(out, told):
    """Prints the differences, and how many texts of each change were taken and how many refused. The result is how many differ."""
    texts = read_texts(Path(out) / "texts")
    names = (Path(out) / "changes").read_text().splitlines()
    lines = [line for line in Path(told).read_text().splitlines() if line.startswith(("ok ", "bad "))]
    if len(lines) < len(texts):
        print(f"{len(texts)} texts, and {len(lines)} answers")
        texts = texts[: len(lines)]
    outcomes, different = Counter(), 0
    for number, (text, name, line) in enumerate(zip(texts, names, lines)):
        own = judged(text)
        outcomes[name.split(":")[0], own.split()[0]] += 1
        if own != line:
            different += 1
            show(number, name, text, line, own)
    for name in sorted({name for name, _ in outcomes}):
        print(f"{name}: {outcomes[name, 'ok']} taken, {outcomes[name, 'bad']} refused")
    print(f"{len(texts)} texts, {sum(map(len, texts))} bytes, {different} different")
    return different


def main():
    if sys.argv[1] == "make":
        texts, folder, out, *numbers = sys.argv[2:]
        make(texts, folder, out, *map(int, numbers))
    elif sys.argv[1] == "limits":
        write_texts(Path(sys.argv[2]), long_texts())
    elif compare(sys.argv[2], sys.argv[3]):
        sys.exit(1)


if __name__ == "__main__":
    main()
