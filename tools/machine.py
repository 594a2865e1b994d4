#!/usr/bin/env python3
"""Runs a text of the subset of C on the thread machine, under the schedule that a seed draws.

Usage: tools/machine.py [--seed K] [--steps K] [--report] < TEXT
       tools/machine.py --rows < crates/hc_suite_c/stdin
It prints what `hcsp cexec` prints, with its status and its lines on error. With --rows it answers the rows `exec` of that suite
and leaves every other line out. A text is taken to be a correct one: what the subset refuses may be taken here, or end in an
assertion. Written from the rules of the subset and of the machine alone: it shares nothing with the crates whose rows it gives.
"""
import re
import sys
from fractions import Fraction
from math import gcd
from pathlib import Path

from made import words

PRELUDE = (Path(__file__).resolve().parent.parent / "crates/hc_suite_c/prelude.text").read_text()
MOST_STEPS = 10_000_000
ROWS, REGISTERS, CONDITIONS = 65, 20_480, 64
COMMON = 64
ENDS = ["terminated", "deadlock", "horizon", "limit", "overflow"]
STATUSES = [0, 10, 0, 12, 11]
INTS = range(-(2**31), 2**31)
# how many arguments each primitive has
PRIMITIVES = {
    "fr_set": 4, "fr_move": 4, "fr_add": 4, "fr_sub": 4, "fr_mul": 4, "fr_div": 4, "fr_neg": 3, "fr_cmp": 3, "fr_sign": 2,
    "out_delay": 3, "out_comm": 6, "out_log": 4, "out_end": 4, "m_lock": 0, "m_unlock": 0, "c_wait": 1, "c_wake": 1,
}  # fmt: skip


# ---- reading: expressions and statements are tuples, their form first

LEVELS = [("||",), ("&&",), ("<", "<=", "==", "!=", ">=", ">"), ("+", "-"), ("*",)]
COMPARED = 2


class Reader:
    """The program of a unit: its arrays, the names of channels and processes, its functions and the bodies of its threads."""

    def __init__(self, unit):
        sign = r"<=|==|!=|>=|&&|\|\||[-+*<>=!(){}\[\],;:]"
        self.tokens = re.findall(rf'[A-Za-z][A-Za-z0-9_]*|[0-9]+|"[A-Za-z0-9_]*"|{sign}|[^ \t\r\n]', unit)
        self.at = 0
        self.arrays, self.functions, self.threads = {}, {}, []
        while self.next_is("static", "int") and self.tokens[self.at + 2].startswith("a_"):
            self.array()
        self.channels, self.processes = self.names("chan_name"), self.names("proc_name")
        while not self.next_is("static", "void", "*"):
            self.function()
        while self.tokens[self.at + 3] != "(":
            self.thread()
        self.table_and_main()
        assert self.at == len(self.tokens), self.tokens[self.at :]
        if self.channels == [""]:
            self.channels = []

    def next_is(self, *tokens):
        return self.tokens[self.at : self.at + len(tokens)] == list(tokens)

    def has(self, *tokens):
        if not self.next_is(*tokens):
            return False
        self.at += len(tokens)
        return True

    def take(self):
        self.at += 1
        return self.tokens[self.at - 1]

    def expect(self, text):
        for token in text.split():
            assert self.has(token), (token, self.tokens[max(0, self.at - 6) : self.at + 6])

    def number(self):
        return int(self.take())

    def list_of(self, part):
        parts = [part()]
        while self.has(","):
            parts.append(part())
        return parts

    def array(self):
        self.expect("static int")
        name = self.take()
        self.expect("[")
        self.arrays[name] = self.number()
        self.expect("] ;")

    def names(self, of):
        self.expect(f"const char * const {of} [")
        count = self.number()
        self.expect("] = {")
        names = self.list_of(lambda: self.take()[1:-1])
        self.expect("} ;")
        assert len(names) == count
        return names

    def parameter(self):
        self.expect("int")
        return self.take()

    def function(self):
        self.expect("static")
        gives = self.take() == "int"
        name = self.take()
        self.expect("(")
        parameters = [] if self.has("void") else self.list_of(self.parameter)
        self.expect(") {")
        self.functions[name] = (gives, parameters, *self.body())

    def thread(self):
        self.expect("static void *")
        assert self.take() == f"t{len(self.threads)}"
        self.expect("( void * v_u ) {")
        self.threads.append(self.body())

    def body(self):
        """The locals, and the statements."""
        locals_ = []
        while self.has("int"):
            locals_.append(self.take())
            self.expect("= 0 ;")
        return locals_, self.statements()

    def statements(self):
        """Those up to a closing bracket, behind an opening one."""
        found = []
        while not self.has("}"):
            found.append(self.statement())
        return found

    def block(self):
        self.expect("{")
        return self.statements()

    def statement(self):
        word = self.take()
        if word in ("if", "while", "switch"):
            self.expect("(")
            test = self.expression()
            self.expect(")")
            return getattr(self, "rest_of_" + word)(test)
        if word == "return":
            value = None if self.next_is(";") else self.expression()
            self.expect(";")
            return ("return", value)
        if word.startswith("a_"):
            return self.store(word)
        if word.startswith("v_"):
            self.expect("=")
            if self.tokens[self.at + 1] == "(" and self.tokens[self.at][0].isalpha():
                return self.call(word, self.take())
            value = self.expression()
            self.expect(";")
            return ("set", word, value)
        return self.call(None, word)

    def rest_of_if(self, test):
        yes = self.block()
        return ("if", test, yes, self.block() if self.has("else") else [])

    def rest_of_while(self, test):
        return ("while", test, self.block())

    def rest_of_switch(self, on):
        self.expect("{")
        cases = {}
        while self.has("case"):
            number = self.number()
            self.expect(":")
            cases[number] = self.block()
            self.expect("break ;")
        self.expect("default :")
        otherwise = self.block()
        self.expect("break ; }")
        return ("switch", on, cases, otherwise)

    def store(self, array):
        self.expect("[")
        index = self.expression()
        self.expect("] =")
        value = self.expression()
        self.expect(";")
        return ("store", array, index, value)

    def call(self, result, callee):
        self.expect("(")
        arguments = [] if self.next_is(")") else self.list_of(self.expression)
        self.expect(") ;")
        count = PRIMITIVES[callee] if callee in PRIMITIVES else len(self.functions[callee][1])
        assert len(arguments) == count, callee
        return ("call", result, callee, arguments)

    def expression(self, level=0):
        if level == len(LEVELS):
            return self.unary()
        left = self.expression(level + 1)
        while self.tokens[self.at] in LEVELS[level]:
            left = (self.take(), left, self.expression(level + 1))
            if level == COMPARED:
                break
        return left

    def unary(self):
        token = self.take()
        if token in ("-", "!"):
            return ("minus" if token == "-" else "not", self.unary())
        if token == "(":
            part = self.expression()
            self.expect(")")
            return part
        if token.isdigit():
            return ("number", int(token))
        if token.startswith("v_"):
            return ("local", token)
        assert token in self.arrays, token
        self.expect("[")
        index = self.expression()
        self.expect("]")
        return ("element", token, index)

    def table_and_main(self):
        self.expect("static void * ( * const hc_threads [")
        assert self.number() == len(self.threads) == len(self.processes)
        self.expect("] ) ( void * ) = {")
        assert self.list_of(self.take) == [f"t{number}" for number in range(len(self.threads))]
        self.expect("} ; int main ( void ) { return hc_main (")
        assert self.number() == len(self.threads)
        self.expect(", hc_threads ) ; }")


# ---- the machine

class Undefined(Exception):
    """A step is undefined, for this reason."""


def require(holds, kind):
    if not holds:
        raise Undefined(kind)


def integer(value):
    require(value in INTS, "int overflow")
    return value


def fits(value):
    return abs(value.numerator) < 2**63 and value.denominator < 2**63


def order(left, right):
    return (left > right) - (left < right)


ARITHMETIC = {"+": lambda x, y: x + y, "-": lambda x, y: x - y, "*": lambda x, y: x * y}
COMPARISONS = {
    "<": lambda x, y: x < y, "<=": lambda x, y: x <= y, "==": lambda x, y: x == y,
    "!=": lambda x, y: x != y, ">=": lambda x, y: x >= y, ">": lambda x, y: x > y,
}  # fmt: skip


class Frame:
    """A body that is under way: its locals, the statements still to do with the next one last, whether it gives an int, and the
    local of the frame below in which that is stored."""

    def __init__(self, locals_, body, gives, result):
        self.locals, self.todo, self.gives, self.result = locals_, body[::-1], gives, result


class Thread:
    def __init__(self, names, body):
        self.frames = [Frame(dict.fromkeys(names, 0), body, False, None)]
        # the condition on which it waits or from which it was woken
        self.condition, self.woken = None, False

    def waits(self):
        return self.condition is not None and not self.woken


class Machine:
    def __init__(self, program):
        self.program = program
        self.registers = {}
        self.arrays = {name: [0] * length for name, length in program.arrays.items()}
        self.owner = None
        self.threads = [Thread(*body) for body in program.threads]
        self.moved = 0
        self.end = None

    def wake(self, number):
        thread = self.threads[number]
        if thread.waits():
            thread.woken = True

    def step(self, number):
        """One step of a thread; the line that it prints, or `None`."""
        thread = self.threads[number]
        if not thread.frames or thread.waits():
            return None
        if thread.woken:
            if self.owner is None:
                self.owner, thread.condition, thread.woken = number, None, False
                self.moved += 1
            return None
        frame = thread.frames[-1]
        if not frame.todo:
            require(not frame.gives, "no value")
            thread.frames.pop()
            self.moved += 1
            return None
        head = frame.todo[-1]
        if head == ("call", None, "m_lock", []) and self.owner not in (None, number):
            return None
        line = getattr(self, "do_" + head[0])(number, thread, frame, head)
        self.moved += 1
        return line

    # each act of a thread: what may be undefined comes first, then the changes

    def do_set(self, number, thread, frame, head):
        value = self.worth(head[2], number, frame)
        frame.todo.pop()
        frame.locals[head[1]] = value

    def do_store(self, number, thread, frame, head):
        index, value = self.worth(head[2], number, frame), self.worth(head[3], number, frame)
        self.element(head[1], index, number)
        frame.todo.pop()
        self.arrays[head[1]][index] = value

    def do_if(self, number, thread, frame, head):
        test = self.worth(head[1], number, frame)
        frame.todo.pop()
        frame.todo.extend(reversed(head[2] if test else head[3]))

    def do_while(self, number, thread, frame, head):
        if self.worth(head[1], number, frame):
            frame.todo.extend(reversed(head[2]))
        else:
            frame.todo.pop()

    def do_switch(self, number, thread, frame, head):
        on = self.worth(head[1], number, frame)
        frame.todo.pop()
        frame.todo.extend(reversed(head[2].get(on, head[3])))

    def do_return(self, number, thread, frame, head):
        value = None if head[1] is None else self.worth(head[1], number, frame)
        thread.frames.pop()
        if frame.result is not None:
            thread.frames[-1].locals[frame.result] = value

    def do_call(self, number, thread, frame, head):
        _, result, callee, arguments = head
        if callee in PRIMITIVES:
            return self.primitive(number, thread, frame, head)
        values = [self.worth(argument, number, frame) for argument in arguments]
        frame.todo.pop()
        gives, parameters, names, body = self.program.functions[callee]
        locals_ = {**dict(zip(parameters, values)), **dict.fromkeys(names, 0)}
        thread.frames.append(Frame(locals_, body, gives, result))
        return None

    def primitive(self, number, thread, frame, head):
        _, result, callee, arguments = head
        values = []
        for place, argument in enumerate(arguments):
            written = callee == "fr_set" and place >= 2
            values.append(literal(argument) if written else self.worth(argument, number, frame))
        gives, line = None, None
        if callee.startswith("out_"):
            line = getattr(self, callee)(number, *values)
        else:
            gives = getattr(self, callee)(number, *values)
        frame.todo.pop()
        if result is not None:
            frame.locals[result] = gives
        return line

    # expressions

    def worth(self, tree, number, frame):
        form = tree[0]
        if form == "number":
            return tree[1]
        if form == "local":
            return frame.locals[tree[1]]
        left = self.worth(tree[2] if form == "element" else tree[1], number, frame)
        if form == "element":
            self.element(tree[1], left, number)
            return self.arrays[tree[1]][left]
        if form == "minus":
            return integer(-left)
        if form == "not":
            return int(left == 0)
        if form in ("||", "&&"):
            if (left != 0) == (form == "||"):
                return int(form == "||")
            return int(self.worth(tree[2], number, frame) != 0)
        right = self.worth(tree[2], number, frame)
        if form in ARITHMETIC:
            return integer(ARITHMETIC[form](left, right))
        return int(COMPARISONS[form](left, right))

    def element(self, array, index, number):
        require(0 <= index < len(self.arrays[array]), "index")
        require(self.owner == number, "shared without mutex")

    # registers and primitives, with the reasons in their order

    def known(self, *places):
        """The rows and registers of these pairs are there."""
        for row, register in places:
            require(0 <= row < ROWS and 0 <= register < REGISTERS, "index")

    def allowed(self, number, *rows):
        """The common row is touched under the mutex alone, and each other row by its thread alone."""
        for row in rows:
            require(row != COMMON or self.owner == number, "shared without mutex")
        for row in rows:
            require(row in (COMMON, number), "foreign row")

    def at(self, row, register):
        return self.registers.get((row, register), Fraction(0))

    def fr_set(self, number, r, d, n, m):
        self.known((r, d))
        require(m >= 1 and gcd(n, m) == 1, "literal")
        self.allowed(number, r)
        self.registers[r, d] = Fraction(n, m)

    def fr_move(self, number, q, d, r, a):
        self.known((q, d), (r, a))
        self.allowed(number, q, r)
        self.registers[q, d] = self.at(r, a)

    def fr_add(self, number, r, d, a, b):
        return self.combined(number, r, d, a, b, lambda x, y: x + y)

    def fr_sub(self, number, r, d, a, b):
        return self.combined(number, r, d, a, b, lambda x, y: x - y)

    def fr_mul(self, number, r, d, a, b):
        return self.combined(number, r, d, a, b, lambda x, y: x * y)

    def fr_div(self, number, r, d, a, b):
        self.known((r, d), (r, a), (r, b))
        require(self.at(r, b) != 0, "zero divisor")
        return self.combined(number, r, d, a, b, lambda x, y: x / y)

    def combined(self, number, r, d, a, b, operation):
        self.known((r, d), (r, a), (r, b))
        self.allowed(number, r)
        value = operation(self.at(r, a), self.at(r, b))
        if fits(value):
            self.registers[r, d] = value
        return int(fits(value))

    def fr_neg(self, number, r, d, a):
        self.known((r, d), (r, a))
        self.allowed(number, r)
        self.registers[r, d] = -self.at(r, a)

    def fr_cmp(self, number, r, a, b):
        self.known((r, a), (r, b))
        self.allowed(number, r)
        return order(self.at(r, a), self.at(r, b))

    def fr_sign(self, number, r, a):
        self.known((r, a))
        self.allowed(number, r)
        return order(self.at(r, a), 0)

    def may_print(self, number, row):
        require(self.owner == number, "shared without mutex")
        self.allowed(number, row)

    def out_delay(self, number, r, a, b):
        self.known((r, a), (r, b))
        self.may_print(number, r)
        return f"{self.at(r, a)} delay {self.at(r, b)}\n"

    def out_comm(self, number, r, a, c, p, q, b):
        self.known((r, a), (r, b))
        channels, processes = self.program.channels, self.program.processes
        require(0 <= c < len(channels) and 0 <= p < len(processes) and 0 <= q < len(processes), "index")
        self.may_print(number, r)
        return f"{self.at(r, a)} comm {channels[c]} {processes[p]} {processes[q]} {self.at(r, b)}\n"

    def out_log(self, number, r, a, p, b):
        self.known((r, a), (r, b))
        require(0 <= p < len(self.program.processes), "index")
        self.may_print(number, r)
        return f"{self.at(r, a)} log {self.program.processes[p]} {self.at(r, b)}\n"

    def out_end(self, number, k, r, a, w):
        self.known((r, a))
        require(0 <= k < len(ENDS) and -1 <= w < len(self.program.processes), "index")
        self.may_print(number, r)
        self.end = k if self.end is None else self.end
        who = "" if ENDS[k] != "overflow" else " *" if w < 0 else f" {self.program.processes[w]}"
        return f"end {ENDS[k]} {self.at(r, a)}{who}\n"

    # the mutex and the conditions

    def m_lock(self, number):
        require(self.owner != number, "locked twice")
        self.owner = number

    def m_unlock(self, number):
        require(self.owner == number, "not owner")
        self.owner = None

    def c_wait(self, number, k):
        require(0 <= k < CONDITIONS, "index")
        require(self.owner == number, "not owner")
        self.owner, self.threads[number].condition = None, k

    def c_wake(self, number, k):
        require(0 <= k < CONDITIONS, "index")
        require(self.owner == number, "shared without mutex")
        for thread in self.threads:
            if thread.waits() and thread.condition == k:
                thread.woken = True


def literal(tree):
    """A number as it is written, or its negative."""
    return -literal(tree[1]) if tree[0] == "minus" else tree[1]


# ---- the schedule of a seed

def performed(program, seed, steps):
    """The text, how it ended as words, the status, the line on error, and how many steps moved."""
    machine = Machine(program)
    text, count = ["hcsp-trace 2\n"], len(program.threads)
    drawn = words(seed, 0)
    for item in range(1, steps + 1):
        word = next(drawn)
        number = word % count
        if machine.threads[number].waits():
            if word // count % 8 == 0:
                machine.wake(number)
            continue
        try:
            line = machine.step(number)
        except Undefined as undefined:
            return "".join(text), f"undefined {undefined} at {item}", 14, f"undefined at step {item}: {undefined}", machine.moved
        if line is not None:
            text.append(line)
        if machine.end is not None:
            return "".join(text), f"ended {machine.end}", STATUSES[machine.end], None, machine.moved
    return "".join(text), "used up", 13, "machine steps used up", machine.moved


def run(unit, seed, steps):
    return performed(Reader(unit), seed, steps)


def repeated(row):
    """A row's text: in it `@64 (@` stands for 64 brackets, and in what is repeated `$` counts from 100."""
    parts = row.split("@")
    for place in range(1, len(parts), 2):
        times, part = parts[place].split(" ", 1)
        parts[place] = "".join(part.replace("$", str(100 + number)) for number in range(int(times)))
    return "".join(parts)


def answer(row):
    """The answer to a row `SEED STEPS | UNIT`."""
    settings, unit = row.split(" | ", 1)
    seed, steps = map(int, settings.split())
    unit = re.sub(r"\\([nrt])", lambda found: {"n": "\n", "r": "\r", "t": "\t"}[found[1]], repeated(unit))
    text, end, _, _, moved = run(unit, seed, steps)
    return f"{end} | moved {moved} | " + text.replace("\n", "\\n")


def setting(name, otherwise):
    return int(sys.argv[sys.argv.index(name) + 1]) if name in sys.argv else otherwise


def main():
    if "--rows" in sys.argv:
        for line in sys.stdin:
            if line.startswith("exec | "):
                print(answer(line.rstrip("\n").removeprefix("exec | ")))
        return 0
    text = sys.stdin.read()
    if not text.startswith(PRELUDE):
        print("hcsp: prelude", file=sys.stderr)
        return 1
    printed, _, status, line, moved = run(text.removeprefix(PRELUDE), setting("--seed", 0), setting("--steps", 100_000))
    sys.stdout.write(printed)
    sys.stdout.flush()
    if line is not None:
        print("hcsp: " + line, file=sys.stderr)
    if "--report" in sys.argv:
        print(f"moved {moved}", file=sys.stderr)
    return status


if __name__ == "__main__":
    sys.exit(main())
