#!/usr/bin/env python3
"""Compiles units of the subset of C by gcc, runs them on real threads, and compares what they print with the thread machine.

Usage: tools/units.py [--hcsp PROGRAM] [--few] [--random N [--seed K]]
The machine is `PROGRAM cexec`, or else tools/machine.py. The order of lines is fixed in each unit, by one thread alone or by
conditions, so that every schedule prints the same; each is run under several seeds. --few takes two of them, and --random N
adds N units of one thread with random code whose steps are all defined. The status is 0 where none differs.
"""
import random
import shutil
import subprocess
import sys
import tempfile
from math import gcd
from pathlib import Path

import machine

STEPS = 10_000_000
SEEDS = [0, 1, 2]
MOST_SECONDS = 120


def unit(threads, arrays="", functions="", channels=("",), processes=None):
    """The text of a unit with these bodies of threads."""
    processes = processes or ["P", "Q", "R"][: len(threads)]
    bodies = "\n".join(f"static void *t{number}(void *v_u) {{\n{body}\nreturn 0;\n}}" for number, body in enumerate(threads))
    quoted = [", ".join(f'"{name}"' for name in names) for names in (channels, processes)]
    return f"""{arrays}
const char *const chan_name[{len(channels)}] = {{ {quoted[0]} }};
const char *const proc_name[{len(processes)}] = {{ {quoted[1]} }};
{functions}
{bodies}
static void *(*const hc_threads[{len(threads)}])(void *) = {{ {", ".join(f"t{number}" for number in range(len(threads)))} }};
int main(void) {{ return hc_main({len(threads)}, hc_threads); }}
"""


# an int becomes a fraction in register 1 of the common row, under the mutex, and is logged
LOGGED = """static void f_log(int v_n) {
  int v_s = 0;
  fr_set(64, 1, 0, 1); fr_set(64, 2, 1, 1);
  if (v_n < 0) { v_s = 1; v_n = -v_n; }
  while (v_n > 0) { fr_add(64, 1, 1, 2); v_n = v_n - 1; }
  if (v_s) { fr_neg(64, 1, 1); }
  out_log(64, 0, 0, 1);
}"""

# the sums 1, 1 + 1/2, 1 + 1/2 + 1/3 and on, as long as they fit
HARMONIC = unit(["""int v_fits = 0;
  m_lock();
  fr_set(0, 1, 1, 1);
  v_fits = 1;
  while (v_fits) {
    out_log(0, 2, 0, 3);
    fr_add(0, 2, 2, 1);
    fr_div(0, 4, 1, 2);
    v_fits = fr_add(0, 3, 3, 4);
  }
  out_end(1, 0, 2, -1);
  m_unlock();"""])

PRIMES = unit(["""int v_n = 0; int v_k = 0;
  m_lock();
  v_n = 2;
  while (v_n < 100) {
    if (!a_out[v_n]) {
      f_log(v_n);
      v_k = v_n * v_n;
      while (v_k < 100) { a_out[v_k] = 1; v_k = v_k + v_n; }
    }
    v_n = v_n + 1;
  }
  out_end(0, 64, 1, 0);
  m_unlock();"""], arrays="static int a_out[100];", functions=LOGGED)

COLLATZ = unit(["""int v_n = 0; int v_m = 0; int v_c = 0;
  m_lock();
  v_n = 1;
  while (v_n <= 12) {
    v_m = v_n; v_c = 0;
    while (v_m != 1 && v_c < 200) { v_m = f_next(v_m); v_c = v_c + 1; }
    f_log(v_c);
    switch (v_c) {
      case 0: { f_log(-1); } break;
      case 7: { f_log(-v_n); } break;
      default: { } break;
    }
    v_n = v_n + 1;
  }
  out_end(2, 64, 1, -1);
  m_unlock();"""], functions=LOGGED + """
static int f_half(int v_n) {
  int v_h = 0;
  while (v_h + v_h < v_n) { v_h = v_h + 1; }
  return v_h;
}
static int f_next(int v_n) {
  int v_h = 0;
  v_h = f_half(v_n);
  if (v_h + v_h == v_n) { return v_h; }
  return 3 * v_n + 1;
}""")

# every operation on every pair of these, at both sides of what fits
LIMITS = unit(["""int v_r = 0; int v_i = 0; int v_j = 0;
  m_lock();
  fr_set(0, 0, 0, 1); fr_set(0, 1, 1, 1); fr_set(0, 2, -1, 2);
  fr_set(0, 3, 9223372036854775807, 1); fr_set(0, 4, -9223372036854775806, 1);
  fr_set(0, 5, 1, 9223372036854775807); fr_set(0, 6, -1, 9223372036854775806);
  fr_set(0, 7, 9223372036854775807, 9223372036854775806); fr_set(0, 8, -3037000500, 3037000499);
  while (v_i < 9) {
    v_j = 0;
    while (v_j < 9) {
      v_r = fr_add(0, 10, v_i, v_j); f_log(v_r); out_log(0, v_i, 0, 10);
      v_r = fr_sub(0, 10, v_i, v_j); f_log(v_r); out_log(0, v_i, 0, 10);
      v_r = fr_mul(0, 10, v_i, v_j); f_log(v_r); out_log(0, v_i, 0, 10);
      if (v_j) { v_r = fr_div(0, 10, v_i, v_j); f_log(v_r); out_log(0, v_i, 0, 10); }
      v_r = fr_cmp(0, v_i, v_j); f_log(v_r);
      v_j = v_j + 1;
    }
    v_r = fr_sign(0, v_i); f_log(v_r);
    fr_neg(0, 11, v_i); out_delay(0, 11, v_i);
    v_i = v_i + 1;
  }
  v_i = -2147483647 - 1;
  v_r = (v_i < -2147483647) + (v_i * 1 == v_i) + (46340 * 46340 < 2147483647) + (v_i + 2147483647 == -1);
  f_log(v_r);
  out_end(4, 0, 2, -1);
  m_unlock();"""], functions=LOGGED)

TURNS = unit([
    f"""int v_i = 0;
  while (v_i < 20) {{
    m_lock();
    while (a_turn[0] != {number}) {{ c_wait({number}); }}
    fr_set(64, 1, 1, 3); fr_add(64, 0, 0, 1);
    out_comm(64, 0, {number % 2}, {number}, {(number + 1) % 3}, 1);
    a_turn[0] = {(number + 1) % 3};
    c_wake({(number + 1) % 3});
    {"if (v_i == 19) { out_end(3, 64, 0, -1); }" if number == 2 else ""}
    m_unlock();
    v_i = v_i + 1;
  }}""" for number in range(3)
], arrays="static int a_turn[1];", channels=("c", "d"))

BUFFER = unit(["""int v_i = 0;
  while (v_i < 50) {
    m_lock();
    while (a_full[0]) { c_wait(0); }
    fr_set(64, 2, 1, 7); fr_add(64, 1, 1, 2); fr_mul(64, 3, 1, 1);
    a_full[0] = 1;
    c_wake(1);
    m_unlock();
    v_i = v_i + 1;
  }""", """int v_i = 0; int v_r = 0;
  while (v_i < 50) {
    m_lock();
    while (!a_full[0]) { c_wait(1); }
    fr_move(1, v_i, 64, 3);
    v_r = fr_add(1, 100, 100, v_i);
    out_log(1, v_i, 1, 100);
    a_full[0] = 0;
    c_wake(0);
    if (v_i == 49) { out_end(0, 1, 100, 1); }
    m_unlock();
    v_i = v_i + 1;
  }"""], arrays="static int a_full[1];")

DEEP = unit(["""int v_r = 0;
  m_lock();
  v_r = f_a198(1); f_log(v_r);
  v_r = 0 && a_x[5] || a_x[0] == 0 && !(1 && 0); f_log(v_r);
  v_r = f_last(); a_x[1] = v_r; f_log(a_x[1]);
  out_end(0, 64, 1, 0);
  m_unlock();"""], arrays="static int a_x[2];", functions=LOGGED + """
static int f_last(void) {
  while (1) {
    a_x[0] = a_x[0] + 1;
    while (1) {
      if (a_x[0] == 9) { return -a_x[0]; }
      a_x[0] = a_x[0] + 2;
    }
  }
}
static int f_a1(int v_n) { return v_n; }
""" + "".join(f"static int f_a{k}(int v_n) {{ int v_r = 0; v_r = f_a{k - 1}(v_n + {k % 3}); return v_r - 1; }}\n" for k in range(2, 199)))

UNITS = {"harmonic": HARMONIC, "turns": TURNS, "primes": PRIMES, "collatz": COLLATZ, "limits": LIMITS, "buffer": BUFFER, "deep": DEEP}


# ---- random units of one thread

class Code:
    """Random statements. Ints stay within 1000 in magnitude after each assignment, elements too, and no fraction is divided by
    0, so that every step is defined."""

    INTS = [f"v_{letter}" for letter in "abcd"]
    MOST = 1000

    def __init__(self, seed):
        self.drawn = random.Random(seed)
        self.loops = 0

    def register(self):
        return self.drawn.randrange(8)

    def part(self):
        """At most 1000 in magnitude."""
        return self.drawn.choice([*self.INTS, str(self.drawn.randrange(20)), f"a_x[{self.index()}]", f"-{self.drawn.choice(self.INTS)}"])

    def index(self):
        local = self.drawn.choice(self.INTS)
        return self.drawn.choice([str(self.drawn.randrange(4)), f"({local} > 3) + ({local} < -5) * 2", f"!{local} + 1"])

    def int_value(self):
        one, two, three = self.part(), self.part(), self.part()
        return self.drawn.choice([f"{one} + {two}", f"{one} * {two} - {three}", f"-({one} - {two}) * {three}", self.test(), f"({self.test()}) + {one}"])

    def test(self, depth=0):
        if depth < 2 and self.drawn.random() < 0.4:
            return f"({self.test(depth + 1)}) {self.drawn.choice(['&&', '||'])} ({self.test(depth + 1)})"
        sign = self.drawn.choice(["<", "<=", "==", "!=", ">=", ">"])
        return self.drawn.choice([f"{self.part()} {sign} {self.part()}", f"!({self.part()} {sign} {self.part()})", self.part()])

    def kept_small(self, name):
        return f"if ({name} > {self.MOST} || {name} < -{self.MOST}) {{ {name} = {self.drawn.randrange(-9, 9)}; }} "

    def fraction(self):
        top = self.drawn.choice([10, 1000, 2**31, 2**63 - 1])
        n, m = self.drawn.randrange(-top, top + 1), self.drawn.randrange(1, top + 1)
        return f"fr_set(0, {self.register()}, {n // gcd(n, m)}, {m // gcd(n, m)}); "

    def combined(self):
        result = self.drawn.choice([*(name + " = " for name in self.INTS), ""])
        name = self.drawn.choice(["add", "sub", "mul"])
        return f"{result}fr_{name}(0, {self.register()}, {self.register()}, {self.register()}); "

    def divided(self):
        by, local = self.register(), self.drawn.choice(self.INTS)
        return f"{local} = fr_sign(0, {by}); if ({local}) {{ {local} = fr_div(0, {self.register()}, {self.register()}, {by}); }} "

    def looked_at(self):
        local = self.drawn.choice(self.INTS)
        return self.drawn.choice([f"{local} = fr_cmp(0, {self.register()}, {self.register()}); ", f"fr_neg(0, {self.register()}, {self.register()}); ",
                                  f"fr_move(64, 5, 0, {self.register()}); ", f"fr_move(0, {self.register()}, 64, 5); "])

    def assigned(self, calls=True):
        local = self.drawn.choice(self.INTS)
        value = f"f_x({self.part()}, {self.part()})" if calls and self.drawn.random() < 0.2 else self.int_value()
        return f"{local} = {value}; " + self.kept_small(local)

    def stored(self):
        place = self.drawn.randrange(4)
        return f"a_x[{place}] = {self.int_value()}; " + self.kept_small(f"a_x[{place}]")

    def printed(self):
        return f"out_log(0, {self.register()}, 0, {self.register()}); "

    def branched(self, depth):
        other = f" else {{ {self.statements(depth + 1)}}}" if self.drawn.random() < 0.5 else ""
        return f"if ({self.test()}) {{ {self.statements(depth + 1)}}}{other} "

    def chosen(self, depth):
        cases = "".join(f"case {number}: {{ {self.statements(depth + 1)}}} break; " for number in self.drawn.sample(range(5), self.drawn.randrange(3)))
        return f"switch ({self.part()}) {{ {cases}default: {{ {self.statements(depth + 1)}}} break; }} "

    def looped(self, depth):
        counter = f"v_i{self.loops}"
        self.loops += 1
        body = self.statements(depth + 1)
        return f"{counter} = 0; while ({counter} < {self.drawn.randrange(1, 6)}) {{ {body}{counter} = {counter} + 1; }} "

    def statements(self, depth=0):
        simple = [self.fraction, self.combined, self.combined, self.divided, self.looked_at, self.assigned, self.stored, self.printed]
        nested = [self.branched, self.chosen, self.looped]
        text = ""
        for _ in range(self.drawn.randrange(1, 6 if depth else 14)):
            if depth < 3 and self.loops < 40 and self.drawn.random() < 0.3:
                text += self.drawn.choice(nested)(depth)
            else:
                text += self.drawn.choice(simple)()
        return text


def random_unit(seed):
    code = Code(seed)
    function = "static int f_x(int v_a, int v_b) { int v_c = 0; int v_d = 0; " + code.assigned(calls=False) + "return v_a; }"
    body = code.statements()
    shown = "".join(f"f_log({name}); " for name in [*Code.INTS, *(f"a_x[{place}]" for place in range(4))])
    shown += "".join(f"out_delay(0, {register}, {register}); " for register in range(8))
    names = "".join(f"int {name} = 0; " for name in [*Code.INTS, *(f"v_i{number}" for number in range(code.loops))])
    return unit([f"{names}\nm_lock();\n{body}\n{shown}\nout_end({seed % 5}, 0, 0, {seed % 2 - 1});\nm_unlock();"], arrays="static int a_x[4];", functions=LOGGED + "\n" + function)


# ---- both sides

def compiled(text, work):
    """What the text prints where gcc compiles it; real threads and real C."""
    source, program = work / "text.c", work / "program"
    source.write_text(text)
    subprocess.run(["gcc", "-std=c11", "-w", "-O1", "-pthread", "-o", program, source], check=True)
    return subprocess.run([program], capture_output=True, text=True, timeout=MOST_SECONDS, check=True).stdout


def on_machine(program, text, seed):
    if program is None:
        return machine.run(text.removeprefix(machine.PRELUDE), seed, STEPS)[0]
    told = subprocess.run([program, "cexec", "--seed", str(seed), "--steps", str(STEPS)], input=text, capture_output=True, text=True, timeout=MOST_SECONDS)
    return told.stdout + told.stderr


def differs(name, text, program, seeds, work):
    real = compiled(text, work)
    if "\nend " not in real:
        print(f"{name}: no end line")
        return True
    for seed in seeds:
        printed = on_machine(program, text, seed)
        if printed != real:
            print(f"{name}: differs with seed {seed}\n--- gcc\n{real}--- machine\n{printed}")
            return True
    return False


def setting(name, otherwise=None):
    return sys.argv[sys.argv.index(name) + 1] if name in sys.argv else otherwise


def main():
    program, few = setting("--hcsp"), "--few" in sys.argv
    units = list(UNITS.items())[: 2 if few else None]
    first = int(setting("--seed", 0))
    units += [(f"random {seed}", random_unit(seed)) for seed in range(first, first + int(setting("--random", 0)))]
    if shutil.which("gcc") is None:
        print("gcc: skipped, it isn't there")
        units = []
    with tempfile.TemporaryDirectory() as work:
        differ = sum(
            differs(name, machine.PRELUDE + text, program, SEEDS[:1] if name.startswith("random") else SEEDS, Path(work)) for name, text in units
        )
    print(f"{len(units)} units, {differ} differ")
    return 1 if differ else 0


if __name__ == "__main__":
    sys.exit(main())
