#!/usr/bin/env python3
"""Writes random Java programs of one thread: arithmetic, arrays, fields, calls, loops, switches and exceptions. Each runs to its end and prints what
it comes to.

usage: random_programs.py COUNT OUT [SEED]

In OUT it writes Random0.java, Random1.java and so on; the same seed gives the same programs.
"""

import random
import sys
from pathlib import Path

INTS = ["0", "1", "-1", "2", "3", "7", "-13", "31", "32", "33", "127", "128", "255", "256", "-32768", "65535", "65536", "1000003",
        "Integer_MAX", "Integer_MIN"]
LONGS = ["0L", "1L", "-1L", "5L", "63L", "64L", "-77L", "4294967295L", "4294967296L", "-2147483649L", "Long_MAX", "Long_MIN"]
NAMED = {"Integer_MAX": "0x7fffffff", "Integer_MIN": "0x80000000", "Long_MAX": "0x7fffffffffffffffL", "Long_MIN": "0x8000000000000000L"}
NARROW = {"byte": 16, "char": 16, "short": 16}


class Scope:
    """The variables that may be named: parameters and locals, by type."""

    def __init__(self, outer=None):
        self.variables = {kind: list(names) for kind, names in outer.variables.items()} if outer else {"int": [], "long": []}

    def names(self, kind):
        return self.variables[kind]


class Program:
    def __init__(self, number, rng):
        self.name, self.rng, self.lines = f"Random{number}", rng, []
        self.fields = {"int": ["i0", "i1"], "long": ["j0"], "byte": ["b0"], "char": ["c0"], "short": ["s0"], "boolean": ["z0"]}
        self.methods = []  # the name, the kinds of the parameters, and the result
        self.fresh = 0

    # ---- expressions

    def leaf(self, kind, scope):
        rng = self.rng
        choices = [lambda: self.literal(kind)]
        if scope.names(kind):
            choices += [lambda: rng.choice(scope.names(kind))] * 4
        choices.append(lambda: rng.choice(self.fields[kind]))
        if kind == "int":
            choices += [lambda: rng.choice(["b0", "c0", "s0"]), lambda: f"ints[{self.index(scope)}]", lambda: f"bytes[{self.index(scope)}]",
                        lambda: f"chars[{self.index(scope)}]", lambda: "ints.length"]
        else:
            choices += [lambda: f"longs[{self.index(scope)}]"]
        return rng.choice(choices)()

    def literal(self, kind):
        text = self.rng.choice(INTS if kind == "int" else LONGS)
        return NAMED.get(text, text if not text.startswith("-") else f"({text})")

    def index(self, scope):
        """An index that is mostly inside."""
        rng = self.rng
        if rng.random() < 0.02:
            return rng.choice(["-1", "16", "99"])
        if scope.names("int") and rng.random() < 0.6:
            return f"{rng.choice(scope.names('int'))} & 15"
        return str(rng.randrange(16))

    def expression(self, kind, scope, depth):
        rng = self.rng
        if depth == 0 or rng.random() < 0.15:
            return self.leaf(kind, scope)
        other = "long" if kind == "int" else "int"
        a = lambda k=kind: self.expression(k, scope, depth - 1)
        forms = [
            lambda: f"({a()} {rng.choice(['+', '-', '*', '&', '|', '^'])} {a()})",
            lambda: f"({a()} {rng.choice(['+', '-', '*'])} {a()})",
            lambda: f"({a()} {rng.choice(['/', '%'])} {self.divisor(kind, scope, depth - 1)})",
            lambda: f"({a()} {rng.choice(['<<', '>>', '>>>'])} {a('int')})",
            lambda: f"(-{a()})" if rng.random() < 0.5 else f"(~{a()})",
            lambda: f"({kind}) {a(other)}" if rng.random() < 0.8 else f"({kind}) ({a(other)})",
            lambda: f"({self.condition(scope, depth - 1)} ? {a()} : {a()})",
        ]
        if kind == "int":
            forms += [lambda: f"(int) ({rng.choice(['byte', 'char', 'short'])}) {a()}", lambda: f"text({a('long')}).length()",
                      lambda: f"text({a('long')}).hashCode()"]
        if self.methods:
            forms += [lambda: self.call(kind, scope, depth - 1)] * 2
        return "(" + rng.choice(forms)() + ")"

    def divisor(self, kind, scope, depth):
        """A divisor that mostly isn't 0."""
        divisor = self.expression(kind, scope, depth)
        return divisor if self.rng.random() < 0.1 else f"({divisor} | 1)"

    def call(self, kind, scope, depth):
        fitting = [m for m in self.methods if m[2] == kind]
        if not fitting:
            return self.leaf(kind, scope)
        name, kinds, _ = self.rng.choice(fitting)
        return f"{name}({', '.join(self.expression(k, scope, max(depth - 1, 0)) for k in kinds)})"

    def condition(self, scope, depth):
        rng = self.rng
        kind = rng.choice(["int", "int", "long"])
        simple = lambda: f"{self.expression(kind, scope, depth)} {rng.choice(['<', '<=', '>', '>=', '==', '!='])} {self.expression(kind, scope, depth)}"
        if rng.random() < 0.25:
            return f"({simple()} {rng.choice(['&&', '||'])} {simple()})"
        return f"({simple()})" if rng.random() < 0.9 else "z0"

    # ---- statements

    def put(self, depth, text):
        self.lines.append("    " * depth + text)

    def statement(self, scope, depth, loops):
        rng = self.rng
        forms = [self.declare, self.assign, self.assign, self.compound, self.store, self.branch, self.print]
        if depth < 5:
            forms += [self.switch, self.attempt]
            if loops < 2:
                forms += [self.loop]
        rng.choice(forms)(scope, depth, loops)

    def block(self, scope, depth, loops, most=3):
        inner = Scope(scope)
        for _ in range(self.rng.randrange(1, most + 1)):
            self.statement(inner, depth, loops)

    def declare(self, scope, depth, loops):
        kind = self.rng.choice(["int", "long"])
        name, self.fresh = f"v{self.fresh}", self.fresh + 1
        self.put(depth, f"{kind} {name} = {self.expression(kind, scope, 2)};")
        scope.names(kind).append(name)

    def target(self, scope):
        rng = self.rng
        kind = rng.choice(["int", "long"])
        names = [n for n in scope.names(kind) if not n.startswith("n")] + self.fields[kind]
        return kind, rng.choice(names)

    def assign(self, scope, depth, loops):
        kind, name = self.target(scope)
        self.put(depth, f"{name} = {self.expression(kind, scope, 3)};")

    def compound(self, scope, depth, loops):
        rng = self.rng
        if rng.random() < 0.4:
            name = rng.choice(["b0", "c0", "s0"])
            self.put(depth, rng.choice([f"{name}++;", f"{name} += {self.expression('int', scope, 1)};", f"{name} <<= {rng.randrange(9)};"]))
            return
        kind, name = self.target(scope)
        operator = rng.choice(["+=", "-=", "*=", "&=", "|=", "^="])
        self.put(depth, rng.choice([f"{name} {operator} {self.expression(kind, scope, 2)};", f"{name}++;", f"{name}--;"]))

    def store(self, scope, depth, loops):
        rng = self.rng
        array, kind, cast = rng.choice([("ints", "int", ""), ("longs", "long", ""), ("bytes", "int", "(byte) "), ("chars", "int", "(char) "),
                                        ("shorts", "int", "(short) "), ("rows", "int", None)])
        if cast is None:
            self.put(depth, f"rows[{self.index(scope)} & 3][{self.index(scope)}] = {self.expression('int', scope, 2)};")
        else:
            self.put(depth, f"{array}[{self.index(scope)}] = {cast}({self.expression(kind, scope, 2)});")

    def branch(self, scope, depth, loops):
        self.put(depth, f"if ({self.condition(scope, 2)}) {{")
        self.block(scope, depth + 1, loops)
        if self.rng.random() < 0.5:
            self.put(depth, "} else {")
            self.block(scope, depth + 1, loops)
        self.put(depth, "}")

    def print(self, scope, depth, loops):
        kind = self.rng.choice(["int", "long"])
        self.put(depth, f"System.out.println({self.expression(kind, scope, 2)});")

    def loop(self, scope, depth, loops):
        name, self.fresh = f"n{self.fresh}", self.fresh + 1
        self.put(depth, f"for (int {name} = 0; {name} < {self.rng.randrange(1, 6)}; {name}++) {{")
        inner = Scope(scope)
        inner.names("int").append(name)
        self.block(inner, depth + 1, loops + 1)
        if self.rng.random() < 0.3:
            self.put(depth + 1, f"if ({self.condition(inner, 1)}) {self.rng.choice(['break', 'continue'])};")
        self.put(depth, "}")

    def switch(self, scope, depth, loops):
        rng = self.rng
        labels = rng.sample(range(-2, 6), 3) if rng.random() < 0.5 else rng.sample([-1000, -1, 0, 5, 77, 4096, 1 << 30], 3)
        self.put(depth, f"switch (0 + {self.expression('int', scope, 2)}) {{")
        for label in labels:
            self.put(depth, f"case {label}:")
            self.block(scope, depth + 1, loops, 2)
            if rng.random() < 0.7:
                self.put(depth + 1, "break;")
        self.put(depth, "default:")
        self.block(scope, depth + 1, loops, 1)
        self.put(depth, "}")

    def attempt(self, scope, depth, loops):
        rng = self.rng
        self.put(depth, "try {")
        self.block(scope, depth + 1, loops)
        if rng.random() < 0.3:
            self.put(depth + 1, f"if ({self.condition(scope, 1)}) throw new Refused({self.expression('int', scope, 1)});")
        caught = rng.sample(["ArithmeticException", "ArrayIndexOutOfBoundsException", "Refused"], rng.randrange(0, 3))
        for name in caught:
            self.put(depth, f"}} catch ({name} e) {{")
            self.put(depth + 1, "i0 += e.code();" if name == "Refused" else f"i1 ^= {rng.randrange(1000)};")
        if not caught or rng.random() < 0.4:
            self.put(depth, "} finally {")
            self.block(scope, depth + 1, loops, 1)
        self.put(depth, "}")

    # ---- the whole

    def method(self, number):
        rng = self.rng
        kinds = [rng.choice(["int", "long"]) for _ in range(rng.randrange(0, 4))]
        result = rng.choice(["int", "long"])
        scope = Scope()
        parameters = []
        for place, kind in enumerate(kinds):
            scope.names(kind).append(f"p{place}")
            parameters.append(f"{kind} p{place}")
        self.put(1, f"static {result} m{number}({', '.join(parameters)}) {{")
        self.put(2, "if (--fuel < 0) return 0;")
        for _ in range(rng.randrange(2, 6)):
            self.statement(scope, 2, 0)
        self.put(2, f"return {self.expression(result, scope, 3)};")
        self.put(1, "}")
        self.methods.append((f"m{number}", kinds, result))

    def text(self):
        self.lines = [
            f"public class {self.name} {{",
            "    static class Refused extends RuntimeException {",
            "        private final int code;",
            "        Refused(int code) { this.code = code; }",
            "        int code() { return code; }",
            "    }",
            "    static int i0 = 5, i1 = -9, fuel = 400;",
            "    static long j0 = 1234567890123L;",
            "    static byte b0 = 100; static char c0 = 'x'; static short s0 = -7; static boolean z0 = true;",
            "    static final int[] ints = new int[16];",
            "    static final long[] longs = new long[16];",
            "    static final byte[] bytes = new byte[16];",
            "    static final char[] chars = new char[16];",
            "    static final short[] shorts = new short[16];",
            "    static final int[][] rows = new int[4][16];",
            "    static String text(long n) { return \"<\" + n + '>'; }",
        ]
        for number in range(self.rng.randrange(2, 7)):
            self.method(number)
        self.put(1, "public static void main(String[] args) {")
        for name, kinds, _ in self.methods:
            for _ in range(2):
                self.put(2, "try {")
                arguments = ", ".join(self.literal(kind) for kind in kinds)
                self.put(3, f"System.out.println(\"{name} \" + {name}({arguments}));")
                self.put(2, "} catch (ArithmeticException e) {")
                self.put(3, f"System.out.println(\"{name} divides by zero\");")
                self.put(2, "} catch (ArrayIndexOutOfBoundsException e) {")
                self.put(3, f"System.out.println(\"{name} is outside\");")
                self.put(2, "}")
        self.put(2, "long sum = i0 + 31L * i1 + j0 + b0 + c0 + s0;")
        self.put(2, "for (int i = 0; i < 16; i++) sum = sum * 31 + ints[i] + longs[i] + bytes[i] + chars[i] + shorts[i] + rows[i & 3][i];")
        self.put(2, "System.out.println(sum);")
        self.put(2, "if (z0 && fuel < -1000000) throw new Refused(1);")
        self.put(1, "}")
        self.lines.append("}")
        return "\n".join(self.lines) + "\n"


def main():
    count, out = int(sys.argv[1]), Path(sys.argv[2])
    rng = random.Random(int(sys.argv[3]) if len(sys.argv) > 3 else 1)
    out.mkdir(parents=True, exist_ok=True)
    for number in range(count):
        program = Program(number, rng)
        (out / f"{program.name}.java").write_text(program.text())


if __name__ == "__main__":
    main()
