#!/usr/bin/env python3
"""Rows `exec` with random units of several threads, most of which come to an undefined step.

Usage: tools/random_units.py COUNT SEED > ROWS. The rows are for `hc_suite_c` and for a second machine, whose answers must be
the same: `crates/hc_suite_c/out/hc_suite_c < ROWS` and `tools/machine.py --rows < ROWS`.
"""
import random
import sys

SIGNS = ["+", "-", "*", "<", "<=", "==", "!=", ">=", ">", "&&", "||"]
PRIMITIVES = """fr_set fr_set fr_move fr_add fr_sub fr_mul fr_div fr_neg fr_cmp fr_sign out_delay out_comm out_log out_log out_end
m_lock m_unlock c_wait c_wake""".split()
GIVE = {"fr_add", "fr_sub", "fr_mul", "fr_div", "fr_cmp", "fr_sign"}
FRACTIONS = [(1, 2), (3, 1), (-5, 7), (0, 1)]
ODD_FRACTIONS = [(9223372036854775807, 1), (1, 9223372036854775807), (2, 4), (1, 0)]


class Unit:
    """A random unit: its arrays, its functions so far, and the locals of the body at hand."""

    def __init__(self, draw):
        self.draw = draw
        self.arrays = ["a_x", "a_y"][: draw.randrange(3)]
        self.functions = []
        self.thread, self.locals = 0, []

    def one_in(self, chance):
        return self.draw.random() < chance

    def number(self, below):
        return str(self.draw.randrange(below))

    def expression(self, depth=0):
        kind = self.draw.random()
        if depth > 3 or kind < 0.3:
            return str(self.draw.choice([0, 1, 2, 3, 7, 64, 20479, 2147483647]))
        if kind < 0.55 and self.locals:
            return self.draw.choice(self.locals)
        if kind < 0.65 and self.arrays:
            return f"{self.draw.choice(self.arrays)}[{self.expression(depth + 2)}]"
        if kind < 0.72:
            return f"{self.draw.choice('-!')}({self.expression(depth + 1)})"
        return f"({self.expression(depth + 1)} {self.draw.choice(SIGNS)} {self.expression(depth + 1)})"

    def row(self):
        return self.draw.choice(["64", "64", str(self.thread), str(self.thread), self.number(3)]) if self.one_in(0.97) else "65"

    def register(self):
        return self.number(4) if self.one_in(0.97) else self.draw.choice(["20480", "-1"])

    def arguments(self, name):
        if name == "fr_set":
            above, below = self.draw.choice(FRACTIONS + ODD_FRACTIONS if self.one_in(0.2) else FRACTIONS)
            return [self.row(), self.register(), str(above), str(below)]
        if name == "fr_move":
            return [self.row(), self.register(), self.row(), self.register()]
        if name == "out_comm":
            return [self.row(), self.register(), self.number(3), self.number(3), self.number(3), self.register()]
        if name == "out_log":
            return [self.row(), self.register(), self.number(3), self.register()]
        if name == "out_end":
            return [self.number(6), self.row(), self.register(), self.draw.choice(["-1", "0", "1", "5"])]
        if name in ("c_wait", "c_wake"):
            return [self.number(3) if self.one_in(0.95) else "64"]
        if name in ("m_lock", "m_unlock"):
            return []
        count = {"fr_sign": 1, "fr_neg": 2, "fr_cmp": 2, "out_delay": 2}.get(name, 3)
        return [self.row()] + [self.register() for _ in range(count)]

    def taking(self, call, gives, chance):
        """The call, whose result a local may take."""
        return f"{self.draw.choice(self.locals)} = {call};" if gives and self.locals and self.one_in(chance) else f"{call};"

    def primitive(self):
        name = self.draw.choice(PRIMITIVES)
        return self.taking(f"{name}({', '.join(self.arguments(name))})", name in GIVE, 0.7)

    def call(self):
        name, gives, count = self.draw.choice(self.functions)
        return self.taking(f"{name}({', '.join(self.expression(2) for _ in range(count))})", gives, 0.8)

    def block(self, depth):
        return "{ " + " ".join(self.statements(depth)) + " }"

    def choice(self, depth):
        numbers = self.draw.sample(range(4), self.draw.randrange(3))
        cases = "".join(f"case {number}: {self.block(depth)} break; " for number in numbers)
        return f"switch ({self.expression()}) {{ {cases}default: {self.block(depth)} break; }}"

    def statement(self, depth):
        kind = self.draw.random()
        if kind < 0.45:
            return self.primitive()
        if kind < 0.6 and self.locals:
            return f"{self.draw.choice(self.locals)} = {self.expression()};"
        if kind < 0.68 and self.arrays:
            return f"{self.draw.choice(self.arrays)}[{self.expression(2)}] = {self.expression(1)};"
        if kind < 0.78 and depth < 3:
            other = f" else {self.block(depth + 1)}" if self.one_in(0.5) else ""
            return f"if ({self.expression()}) {self.block(depth + 1)}{other}"
        if kind < 0.84 and depth < 3:
            return f"while ({self.expression()}) {self.block(depth + 1)}"
        if kind < 0.89 and depth < 3:
            return self.choice(depth + 1)
        return self.call() if self.functions else self.primitive()

    def statements(self, depth):
        return [self.statement(depth) for _ in range(self.draw.randrange(1, 5))]

    def function(self, number):
        gives, parameters = self.one_in(0.6), [f"v_p{k}" for k in range(self.draw.randrange(3))]
        own = [f"v_l{k}" for k in range(self.draw.randrange(2))]
        self.thread, self.locals = 0, parameters + own
        body = [f"int {name} = 0;" for name in own] + self.statements(2)
        if gives and self.one_in(0.85):
            body.append(f"return {self.expression()};")
        name = f"f_{chr(97 + number)}"
        declared = ", ".join(f"int {parameter}" for parameter in parameters) or "void"
        self.functions.append((name, gives, len(parameters)))
        return f"static {'int' if gives else 'void'} {name}({declared}) {{ {' '.join(body)} }}"

    def thread_body(self, number):
        self.thread, self.locals = number, ["v_a", "v_b"][: self.draw.randrange(1, 3)]
        body = [f"int {name} = 0;" for name in self.locals]
        for _ in range(self.draw.randrange(1, 4)):
            section = self.one_in(0.75)
            body += (["m_lock();"] if section else []) + self.statements(1) + (["m_unlock();"] if section else [])
        return f"static void *t{number}(void *v_u) {{ {' '.join(body)} return 0; }}"

    def text(self):
        threads = self.draw.randrange(1, 4)
        names = ", ".join(f'"P{number}"' for number in range(threads))
        table = ", ".join(f"t{number}" for number in range(threads))
        parts = [f"static int {array}[{self.draw.randrange(1, 4)}];" for array in self.arrays]
        parts += ['const char *const chan_name[2] = { "c", "d" };', f"const char *const proc_name[{threads}] = {{ {names} }};"]
        parts += [self.function(number) for number in range(self.draw.randrange(4))]
        parts += [self.thread_body(number) for number in range(threads)]
        parts += [f"static void *(*const hc_threads[{threads}])(void *) = {{ {table} }};", f"int main(void) {{ return hc_main({threads}, hc_threads); }}"]
        return " ".join(parts)


def main():
    count, draw = int(sys.argv[1]), random.Random(int(sys.argv[2]))
    for _ in range(count):
        unit = Unit(draw).text()
        print(f"exec | {draw.randrange(1 << 32)} {draw.choice([50, 200, 1000])} | {unit}")


if __name__ == "__main__":
    main()
