#!/usr/bin/env python3
"""Writes random Java programs of threads and monitors, whose output doesn't depend on the schedule. Each runs to its end and prints what its
sums come to.

usage: random_monitors.py COUNT OUT [SEED]

In OUT it writes Monitors0.java, Monitors1.java and so on; the same seed gives the same programs. The threads go through rounds, with a barrier
between them. In a round a thread adds to cells under their locks, one or two or the same twice, of which it takes the lesser first; calls
synchronized methods, of which some throw; yields and sleeps; and puts into or takes from one buffer at most, into which as many items are put
as are taken. Some threads wait until they are interrupted or notified after the last round.
"""

import random
import sys
from pathlib import Path

HEAD = """class %(name)s implements Runnable {
    static final class Failure extends RuntimeException {}

    static final class Cell {
        int value;
        int entered;

        synchronized void add(int n) {
            entered++;
            value += n;
        }

        synchronized void addDeep(int n, int depth) {
            if (depth == 0) add(n); else addDeep(n, depth - 1);
        }

        synchronized void addAndFail(int n) {
            value += n;
            throw new Failure();
        }

        synchronized int failDeep(int n, int depth) {
            value += n;
            if (depth == 0) throw new Failure();
            return failDeep(n, depth - 1);
        }
    }

    static final class Buffer {
        private final int[] items = new int[%(places)d];
        private int head;
        private int count;

        synchronized void put(int item) throws InterruptedException {
            while (count == items.length) wait();
            items[(head + count) %% items.length] = item;
            count++;
            notifyAll();
        }

        synchronized int take() throws InterruptedException {
            while (count == 0) wait(%(millis)d);
            int item = items[head];
            head = (head + 1) %% items.length;
            count--;
            notifyAll();
            return item;
        }
    }

    static final int PARTIES = %(threads)d;
    static final Cell[] cells = new Cell[%(cells)d];
    static final Object[] locks = new Object[%(cells)d];
    static final int[] sums = new int[%(cells)d];
    static final Buffer[] buffers = new Buffer[%(buffers)d];
    static final Object barrier = new int[0];
    static int arrived;
    static int round;
    static int total;
    static int taken;

    static synchronized void count(int n) { total += n; }

    static synchronized void countAndFail(int n) {
        total += n;
        throw new Failure();
    }

    static void await() throws InterruptedException {
        synchronized (barrier) {
            int mine = round;
            arrived++;
            if (arrived == PARTIES) {
                arrived = 0;
                round++;
                barrier.notifyAll();
            }
            while (round == mine) barrier.wait();
        }
    }

    private final int number;

    %(name)s(int number) { this.number = number; }

    public void run() {
        try {
            switch (number) {
"""

TAIL = """            }
        } catch (InterruptedException e) {
            System.out.println("interrupted " + number);
        }
    }

%(methods)s
    /** Waits until it is told, or interrupted. */
    static final class Waits implements Runnable {
        private final Object lock;
        private boolean told;
        Waits(Object lock) { this.lock = lock; }

        public void run() {
            synchronized (lock) {
                try {
                    while (!told) lock.wait();
                    count(1);
                } catch (InterruptedException e) {
                    count(100);
                }
            }
        }

        void tell() {
            synchronized (lock) {
                told = true;
                lock.notifyAll();
            }
        }
    }

    public static void main(String[] args) throws InterruptedException {
        for (int i = 0; i < cells.length; i++) {
            cells[i] = new Cell();
            locks[i] = i %% 2 == 0 ? new Object() : new int[i];
        }
        for (int i = 0; i < buffers.length; i++) buffers[i] = new Buffer();
        Waits[] waits = new Waits[%(waits)d];
        Thread[] waiting = new Thread[%(waits)d];
        for (int i = 0; i < waits.length; i++) {
            waits[i] = new Waits(%(waitLock)s);
            waiting[i] = Thread.ofVirtual().start(waits[i]);
        }
        Thread[] threads = new Thread[PARTIES];
        for (int i = 0; i < PARTIES; i++) {
            Runnable r = new %(name)s(i);
            threads[i] = i %% %(platform)d == 0 ? Thread.ofPlatform().start(r) : Thread.ofVirtual().start(r);
        }
        for (Thread t : threads) t.join();
        for (int i = 0; i < waits.length; i++) {
            if (i %% 2 == 0) waits[i].tell(); else waiting[i].interrupt();
        }
        for (Thread t : waiting) t.join();
        for (Cell c : cells) System.out.println(c.value + " " + c.entered);
        for (int n : sums) System.out.println(n);
        System.out.println(total + " " + taken + " " + round);
    }
}
"""


class Program:
    def __init__(self, number, rng):
        self.name, self.rng = f"Monitors{number}", rng
        self.threads, self.cells = rng.randint(2, 7), rng.randint(1, 5)
        self.buffers, self.rounds = rng.randint(1, 3), rng.randint(1, 4)

    def cell(self):
        return self.rng.randrange(self.cells)

    def action(self):
        """The lines of something that a thread does, alone or under locks."""
        rng, n = self.rng, self.rng.randint(-50, 50)
        kind = rng.randrange(12)
        if kind < 2:
            return [f"cells[{self.cell()}].add({n});"]
        if kind == 2:
            return [f"cells[{self.cell()}].addDeep({n}, {rng.randint(1, 5)});"]
        if kind == 3:
            call = rng.choice([f"cells[{self.cell()}].addAndFail({n})", f"cells[{self.cell()}].failDeep({n}, {rng.randint(1, 4)})", f"countAndFail({n})"])
            return ["try {", f"    {call};", "} catch (Failure e) {", "    count(7);", "}"]
        if kind == 4:
            return [f"count({n});"]
        if kind == 5:
            return ["Thread.yield();"]
        if kind == 6:
            return [f"Thread.sleep({rng.randint(0, 2)});"]
        if kind == 7:
            low, high = sorted(rng.choices(range(self.cells), k=2))
            inner = rng.choice([["Thread.yield();"], [f"count({n});"], []])
            return [f"synchronized (locks[{low}]) {{", f"    synchronized (locks[{high}]) {{", f"        sums[{low}] += {n};", f"        sums[{high}] -= {n};",
                    *[f"        {it}" for it in inner], "    }", "}"]
        if kind == 8:
            k = self.cell()
            return ["try {", f"    synchronized (locks[{k}]) {{", f"        sums[{k}] += {n};", f"        if ({rng.choice(['n > 0', 'true'])}) throw new Failure();", "    }",
                    "} catch (Failure e) {", "    count(3);", "}"]
        if kind == 9:
            k = self.cell()
            return [f"for (int i = 0; i < {rng.randint(2, 5)}; i++) {{", f"    synchronized (locks[{k}]) {{", "        if (i == 1) continue;", f"        sums[{k}] += i;", "    }", "}"]
        if kind == 10:
            k = self.cell()
            return [f"synchronized (locks[{k}]) {{", f"    int seen = sums[{k}];", "    Thread.yield();", f"    sums[{k}] = seen + {n};", "}"]
        k = self.cell()
        return [f"synchronized (cells[{k}]) {{", f"    cells[{k}].add({n});", f"    cells[{k}].wait(1);", f"    cells[{k}].value++;", "}"]

    def scripts(self):
        """What each thread does in each round."""
        rng = self.rng
        scripts = [[[] for _ in range(self.rounds)] for _ in range(self.threads)]
        for r in range(self.rounds):
            for script in scripts:
                for _ in range(rng.randint(0, 6)):
                    script[r] += self.action()
            # As many items are put into a buffer as are taken out of it, by threads that do nothing else with buffers in this round.
            free = list(range(self.threads))
            rng.shuffle(free)
            for b in range(self.buffers):
                if len(free) < 2 or rng.random() < 0.3:
                    continue
                puts, takes, items = free.pop(), free.pop(), rng.randint(1, 9)
                scripts[puts][r] += [f"for (int i = 0; i < {items}; i++) buffers[{b}].put({rng.randint(1, 9)} + i);"]
                scripts[takes][r] += [f"for (int i = 0; i < {items}; i++) {{", f"    int item = buffers[{b}].take();", "    synchronized (buffers) { taken += item; }", "}"]
        return scripts

    def text(self):
        rng = self.rng
        cases, methods = [], []
        for t, script in enumerate(self.scripts()):
            cases.append(f"                case {t}: thread{t}({rng.randint(-1, 1)}); break;\n")
            lines = [f"    private void thread{t}(int n) throws InterruptedException {{"]
            for actions in script:
                lines += [f"        {it}" for it in actions] + ["        await();"]
            methods.append("\n".join([*lines, "    }", ""]))
        words = {
            "name": self.name, "places": rng.randint(1, 4), "millis": rng.choice([0, 1, 5]), "threads": self.threads, "cells": self.cells, "buffers": self.buffers,
            "methods": "\n".join(methods), "waits": rng.randint(0, 5),
            "waitLock": rng.choice(["new Object()", "waits", "new int[1]"]), "platform": rng.randint(2, 9),
        }
        return HEAD % words + "".join(cases) + TAIL % words


def main(count, out, seed="1"):
    rng = random.Random(int(seed))
    folder = Path(out)
    folder.mkdir(parents=True, exist_ok=True)
    for number in range(int(count)):
        program = Program(number, rng)
        (folder / f"{program.name}.java").write_text(program.text())


if __name__ == "__main__":
    main(*sys.argv[1:])
