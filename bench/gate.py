#!/usr/bin/env python3
"""Measures what the gate costs, crate by crate, and writes it down as a table.

usage: gate.py [--log FILE] [--out FILE] [-- COMMAND ..]

Runs `rt ci`, or the command that is given, at the top of the repository, prints its lines with the time, to FILE too,
and ends with its status. Twice a second it reads the processor time of all processes below that from /proc: words and
folders tell for which crate they work, and at what. At the end it writes the table to bench/gate.md or to --out FILE.
"""
import argparse
import os
import re
import resource
import subprocess
import sys
import threading
import time
from collections import Counter, defaultdict
from pathlib import Path

TOP = Path(__file__).resolve().parent.parent
COLUMNS = ("proof", "tests", "seed", "edits")
TEXT = """# What the gate costs

Made by `bench/gate.py` on {day}. `{command}` took {wall:,.0f} seconds on {processors} processors, with a load of
{load:.1f} on average and {most:.1f} at most, and {minutes:.1f} minutes of processor time. Its last line:
`{last}`.

Processor time in seconds, and in minutes in the last column. Proof: of the crate alone. Tests: the proof of its tests,
and what builds and runs them and its program. Seed: the two checks of the crate that its edits stand on, if they are
two or more. Edits: all tries of them; in brackets how many edits there are. What an earlier run has passed is `kept`.

| Crate | Proof | Tests | Seed | Edits | Minutes |
|---|---|---|---|---|---|
{rows}"""


def work_of(words, folder):
    """For which crate a process works, and in which column that counts, or None: it is part of rt itself."""
    line = " ".join(words)
    if "--crate-name" in words:
        crate = words[words.index("--crate-name") + 1]
        if "/rt-edit-" in folder:
            return crate, "seed" if any(it.endswith("/seed") for it in words) else "edits"
        return crate, "tests" if "--test" in words or "--crate-checked" in words else "proof"
    if found := re.search(r"/rt-run-[^/]+/bin/(\w+?)(_tests)?(\.by-rattle)?( |$)", line):
        return found[1], "tests"
    if found := re.search(r"/rattle fmt .*/crates/(\w+)/", line):
        return found[1], "proof"
    if found := re.search(r"/crates/(\w+)$", folder):
        return found[1], "tests"


def processes():
    """By the number of each process: when it started, its parent, and its seconds with those of its ended children."""
    found = {}
    for number in filter(str.isdigit, os.listdir("/proc")):
        try:
            fields = Path(f"/proc/{number}/stat").read_text().rpartition(") ")[2].split()
            found[int(number)] = fields[19], int(fields[1]), sum(map(int, fields[11:15])) / os.sysconf("SC_CLK_TCK")
        except OSError:
            pass
    return found


class Samples:
    """The most processor time that was seen of each process below one, with all that it started."""

    def __init__(self, top):
        self.top, self.works, self.seconds = top, {}, {}

    def take(self):
        table, below = processes(), defaultdict(list)
        for number, (_, parent, _) in table.items():
            below[parent].append(number)
        whole = lambda number: table[number][2] + sum(map(whole, below[number]))
        waiting = list(below[self.top])
        while waiting:
            number = waiting.pop()
            key = number, table[number][0]
            if not self.works.get(key):
                try:
                    words = Path(f"/proc/{number}/cmdline").read_text(errors="replace").split("\0")
                    self.works[key] = work_of(words, os.readlink(f"/proc/{number}/cwd"))
                except OSError:
                    continue
            if self.works[key]:
                self.seconds[key] = max(whole(number), self.seconds.get(key, 0))
            else:
                waiting += below[number]

    def by_crate(self):
        found = defaultdict(Counter)
        for key, seconds in self.seconds.items():
            crate, column = self.works[key]
            found[crate][column] += seconds
        return found


def row_of(name, seconds, total, edits=0, is_kept=False):
    cells = {it: f"{seconds[it]:,.0f}" if seconds[it] >= 0.5 else "" for it in COLUMNS}
    cells["proof"] = "kept" if is_kept else cells["proof"]
    cells["edits"] = f"{cells['edits']} ({edits})".lstrip() if edits else ""
    return "".join(f"| {it} ".replace("|  ", "| ") for it in (name, *cells.values(), f"{total / 60:.1f}")) + "|\n"


def rows_of(log, crates, total):
    """The rows of the table, in the order of crates.txt."""
    edits = Counter(re.findall(r"^rt: must-fail (\w+)/\S+\.edit: ", log, re.M))
    kept = set(re.findall(r"^rt: (\w+) is kept: ", log, re.M))
    names = re.findall(r"^(\w+).*:", (TOP / "crates.txt").read_text(), re.M)
    names = [it for it in names if it in kept or it in crates]
    rows = [row_of(it, crates[it], crates[it].total(), edits[it], it in kept) for it in names]
    sums = sum(crates.values(), Counter())
    rows.append(row_of("rt itself, and what no sample saw", Counter(), total - sums.total()))
    return "".join([*rows, row_of("all", sums, total, edits.total())])


def main():
    reader = argparse.ArgumentParser(usage=__doc__)
    reader.add_argument("--log", type=argparse.FileType("w"), default=os.devnull)
    reader.add_argument("--out", type=Path, default=TOP / "bench/gate.md")
    reader.add_argument("command", nargs="*", default=["rt", "ci"])
    given, lines, loads, begun = reader.parse_args(), [], [os.getloadavg()[0]], time.monotonic()
    how = {"stdout": subprocess.PIPE, "stderr": subprocess.STDOUT, "errors": "replace"}
    ran = subprocess.Popen(given.command, cwd=TOP, **how)

    def follow():
        for line in ran.stdout:
            lines.append(line.rstrip("\n"))
            for out in (sys.stdout, given.log):
                print(time.strftime("%H:%M:%S"), line, end="", file=out, flush=True)

    following, samples = threading.Thread(target=follow), Samples(ran.pid)
    following.start()
    while ran.poll() is None:
        samples.take()
        loads.append(os.getloadavg()[0])
        time.sleep(0.5)
    following.join()
    total = sum(resource.getrusage(resource.RUSAGE_CHILDREN)[:2])
    facts = {"day": time.strftime("%Y-%m-%d"), "command": " ".join(given.command), "wall": time.monotonic() - begun}
    facts |= {"processors": len(os.sched_getaffinity(0)), "load": sum(loads) / len(loads), "most": max(loads)}
    facts |= {"minutes": total / 60, "last": "".join(lines[-1:])}
    given.out.write_text(TEXT.format(**facts, rows=rows_of("\n".join(lines), samples.by_crate(), total)))
    return ran.returncode


sys.exit(main())
