#!/usr/bin/env python3
"""Passes of the core's C from states drawn at random, beside a plain model of the pass.

Usage: tools/core_states.py [COUNT [SEED]] (2000 states, seed 1). The C is written from crates/hc_core_c/specs/Code.antt, whose trees
`core_tree` and `core_arrays` make, and is run by tools/machine.py. The model is written from the language's definitions alone: meetings
until none is ready, the least channel first; then, where nobody is able, a delay or a stop. Compared are row 64, the arrays, the lines,
the wakes and the mutex. The last line is `N passes, all as the model has them`, with the kinds of their ends; else the first state that
differs is shown, with status 1.
"""
import random
import re
import sys
from collections import Counter
from fractions import Fraction
from pathlib import Path

import machine

CODE = Path(__file__).resolve().parent.parent / "crates/hc_core_c/specs/Code.antt"
ENDS = ["terminated", "deadlock", "horizon", "limit", "overflow"]
GOING, ARRIVED, ENDED = range(3)
SHARED = machine.COMMON


# ---- the C, from its definition


def body(parts):
    return "{ " + " ".join(parts) + " }"


def function(gives, name, params, locals_, statements):
    head = ", ".join("int " + param for param in params) or "void"
    parts = [f"int {local} = 0;" for local in locals_] + statements
    return f"static {gives} {name}({head}) " + body(parts)


def call(callee, arguments):
    return f"{callee}({', '.join(arguments)});"


def sign(text):
    return lambda left, right: f"({left} {text} {right})"


WORDS = {
    "codes": lambda text: text,
    "max": max,
    "array": lambda name, length: (name, length),
    "number": str,
    "minus_one": "-1",
    "local": lambda name: name,
    "element": lambda array, index: f"{array}[{index}]",
    "first_of": lambda array: f"{array}[0]",
    "sum": sign("+"),
    "difference": sign("-"),
    "times": lambda part, number: f"({part} * {number})",
    "less": sign("<"),
    "equals": sign("=="),
    "both": sign("&&"),
    "either": sign("||"),
    "denies": lambda part: f"!{part}",
    "above_zero": lambda part: f"(0 < {part})",
    "below_one": lambda part: f"({part} < 1)",
    "call": call,
    "take_call": lambda local, callee, arguments: f"{local} = {call(callee, arguments)}",
    "if_then": lambda test, yes: f"if ({test}) {body(yes)}",
    "if_else": lambda test, yes, no: f"if ({test}) {body(yes)} else {body(no)}",
    "count_to": lambda name, most, parts: f"while ({name} < {most}) {body([*parts, f'{name} = {name} + 1;'])}",
    "return_value": lambda part: f"return {part};",
    "Set": lambda name, value: f"{name} = {value};",
    "Store": lambda array, index, value: f"{array}[{index}] = {value};",
    "procedure": lambda *parts: function("void", *parts),
    "function": lambda *parts: function("int", *parts),
}


class Definitions:
    """The definitions of a file: `NAME PARAMETERS = TERM`, a term of names, numbers, strings, `∷`, `*` and brackets."""

    def __init__(self, text):
        self.of = {}
        for block in text.split("abbrev pub ")[1:]:
            lines = [line.split("-- ")[0] for line in block.split("\n")[1:]]
            head, term = "\n".join(lines).split("=", 1)
            name, *parameters = head.split()
            self.of[name] = (parameters, re.findall(r'"[^"]*"|\w+|\[\]|[∷*()]', term))

    def value(self, name, arguments=()):
        parameters, tokens = self.of[name]
        term = Term(self, tokens, dict(zip(parameters, arguments)))
        found = term.list_or_part()
        assert term.at == len(tokens), (name, tokens[term.at :])
        return found


class Term:
    def __init__(self, definitions, tokens, known):
        self.definitions, self.tokens, self.known, self.at = definitions, tokens, known, 0

    def next(self):
        return self.tokens[self.at] if self.at < len(self.tokens) else ""

    def take(self):
        self.at += 1
        return self.tokens[self.at - 1]

    def list_or_part(self):
        part = self.applied()
        if self.next() == "*":
            self.take()
            return part * self.applied()
        if self.next() == "∷":
            self.take()
            return [part, *self.list_or_part()]
        return part

    def applied(self):
        token = self.next()
        if not re.match(r"[A-Za-z]", token) or token in self.known:
            return self.part()
        name = self.take()
        arguments = []
        while self.next() not in ("", ")", "∷", "*"):
            arguments.append(self.part())
        if name in WORDS:
            return WORDS[name](*arguments) if callable(WORDS[name]) else WORDS[name]
        return self.definitions.value(name, arguments)

    def part(self):
        token = self.take()
        if token == "(":
            found = self.list_or_part()
            assert self.take() == ")"
            return found
        if token == "[]":
            return []
        if token.startswith('"'):
            return token[1:-1]
        if token.isdigit():
            return int(token)
        if token in self.known:
            return self.known[token]
        if token in WORDS:
            return WORDS[token]
        return self.definitions.value(token)


def unit_of(definitions, processes, channels):
    arrays = definitions.value("core_arrays", (processes, channels))
    functions = definitions.value("core_functions", (processes, channels))
    names = [f'"c{channel}"' for channel in range(channels)] or ['""']
    threads = [f"t{thread}" for thread in range(processes)]
    return "\n".join(
        [
            *(f"static int {name}[{length}];" for name, length in arrays),
            f"const char *const chan_name[{len(names)}] = {{ {', '.join(names)} }};",
            f"const char *const proc_name[{processes}] = {{ " + ", ".join(f'"P{thread}"' for thread in range(processes)) + " };",
            *functions,
            *(f"static void *{name}(void *v_u) {{ f_pass(); return 0; }}" for name in threads),
            f"static void *(*const hc_threads[{processes}])(void *) = {{ {', '.join(threads)} }};",
            f"int main(void) {{ return hc_main({processes}, hc_threads); }}",
        ]
    )


# ---- states


class Process:
    def __init__(self):
        self.phase, self.bound, self.offers = GOING, None, []
        self.moving = {}  # a rate for each variable that moves
        self.variables = {}

    def is_able(self):
        return self.phase == GOING or self.bound == 0

    def goes(self):
        self.phase, self.bound, self.offers, self.moving = GOING, None, [], {}


class Drawn:
    """A state: offers are `(sends, channel, value, slope)`, with slope 0 unless the process evolves."""

    def __init__(self, draw):
        self.draw = draw
        large = draw.random() < 0.05
        self.processes = [Process() for _ in range(draw.randrange(1, 65 if large else 7))]
        count = len(self.processes)
        channels = draw.randrange(0, 257 if large else 8) if count > 1 else 0
        self.ends = [draw.sample(range(count), 2) for _ in range(channels)]
        self.into = [draw.randrange(64) for _ in range(channels)]
        self.met = [draw.randrange(33) for _ in range(count)]
        self.woke = [draw.randrange(2) for _ in range(count)]
        self.logged = [self.fraction() for _ in range(count)]
        self.clock = abs(self.fraction())
        self.horizon = self.clock if draw.random() < 0.15 else self.clock + abs(self.fraction())
        if not machine.fits(self.horizon):
            self.horizon = self.clock
        self.steps = draw.randrange(4)
        self.limit = self.steps + draw.choice([0, 1, 1, 2, 2, 3, 5, 100])
        self.own = draw.randrange(count)
        quiet = draw.random() < 0.6
        ended = draw.random() < 0.3
        for number, process in enumerate(self.processes):
            self.fill(number, process, quiet, ended)

    def fraction(self):
        kind = self.draw.random()
        if kind < 0.04:
            return Fraction(self.draw.randrange(2**62, 2**63), self.draw.choice([1, 1, 2, 3]))
        if kind < 0.08:
            return Fraction(self.draw.randrange(1, 9), self.draw.randrange(2**61, 2**63))
        return Fraction(self.draw.randrange(-12, 13), self.draw.choice([1, 1, 1, 2, 3, 4]))

    def fill(self, number, process, quiet, ended):
        draw = self.draw
        for variable in draw.sample(range(64), 3) + [into for ends, into in zip(self.ends, self.into) if ends[1] == number]:
            process.variables[variable] = self.fraction()
        process.phase = draw.choice([ARRIVED, ENDED]) if ended else ARRIVED
        if not quiet and draw.random() < 0.3:
            process.phase = GOING
        if process.phase != ARRIVED:
            return
        if draw.random() < 0.4:
            bound = abs(self.fraction())
            if bound == 0 and (quiet or draw.random() < 0.5):
                bound = Fraction(1, 2)
            process.bound = bound if machine.fits(self.clock + bound) else None
        if draw.random() < 0.4:
            process.moving = {variable: self.fraction() for variable in process.variables if draw.random() < 0.5}
        if process.bound == 0:
            return
        share = draw.choice([0.2, 0.5, 0.9])
        for channel, ends in enumerate(self.ends):
            if number in ends and draw.random() < share and len(process.offers) < 32:
                sends = number == ends[0]
                slope = self.fraction() if process.moving else Fraction(0)
                process.offers.append((sends, channel, self.fraction() if sends else None, slope))
        draw.shuffle(process.offers)


# ---- the model


class Stopped(Exception):
    pass


class Model:
    """The pass of the language."""

    def __init__(self, state):
        self.state, self.lines, self.stop = state, [], None
        self.before = [process.is_able() for process in state.processes]
        self.met, self.values = {}, {}
        try:
            self.limit()
            while self.meets():
                pass
            if not any(process.is_able() for process in state.processes):
                self.passes()
        except Stopped:
            pass
        others = [number for number in range(len(state.processes)) if number != state.own]
        became = [number for number in others if not self.before[number] and state.processes[number].is_able()]
        self.wakes = became if self.stop is None else others

    def ends(self, kind):
        self.stop = kind
        self.lines.append(f"end {kind} {self.state.clock}" + (" *" if kind == "overflow" else ""))
        raise Stopped

    def limit(self):
        if self.state.steps >= self.state.limit:
            self.ends("limit")

    def step(self, line):
        self.lines.append(line)
        self.state.steps += 1

    def offer(self, number, sends, channel):
        offers = self.state.processes[number].offers
        return next((place for place, offer in enumerate(offers) if offer[:2] == (sends, channel)), None)

    def meets(self):
        for channel, (sender, receiver) in enumerate(self.state.ends):
            sent, received = self.offer(sender, True, channel), self.offer(receiver, False, channel)
            if sent is not None and received is not None:
                value = self.state.processes[sender].offers[sent][2]
                self.met[sender], self.met[receiver] = sent + 1, received + 1
                self.state.processes[receiver].variables[self.state.into[channel]] = value
                self.state.processes[sender].goes()
                self.state.processes[receiver].goes()
                self.step(f"{self.state.clock} comm c{channel} P{sender} P{receiver} {value}")
                self.limit()
                return True
        return False

    def rests(self):
        """The stop where no process is able, if one holds before any delay."""
        processes = self.state.processes
        if not any(process.bound is not None or process.moving for process in processes):
            self.ends("terminated" if all(process.phase == ENDED for process in processes) else "deadlock")
        if self.state.clock == self.state.horizon:
            self.ends("horizon")

    def passes(self):
        state = self.state
        self.rests()
        length = min([state.horizon - state.clock] + [process.bound for process in state.processes if process.bound is not None])
        working = [length, state.clock + length]
        for process in state.processes:
            if process.bound is not None:
                working.append(process.bound - length)
            for variable, rate in process.moving.items():
                working += [rate * length, process.variables[variable] + rate * length]
            for sends, _, value, slope in process.offers:
                if sends and process.moving:
                    working += [slope * length, value + slope * length]
        if not all(map(machine.fits, working)):
            self.ends("overflow")
        line = f"{state.clock} delay {length}"
        state.clock += length
        for process in state.processes:
            for variable, rate in process.moving.items():
                process.variables[variable] += rate * length
            moved = [(sends, channel, value + slope * length if sends else None, slope) for sends, channel, value, slope in process.offers]
            process.offers = moved if process.moving else process.offers
            if process.bound is not None:
                process.bound -= length
                if process.bound == 0:
                    process.offers = None  # none any more, though the process goes on evolving
        for process in state.processes:
            process.offers = process.offers or []
        self.step(line)
        self.limit()
        if not any(process.is_able() for process in state.processes):
            self.rests()


# ---- a state in the machine, and what is there behind the pass


class Watched(machine.Machine):
    def __init__(self, program):
        super().__init__(program)
        self.wakes = []

    def c_wake(self, number, k):
        self.wakes.append(k)
        return super().c_wake(number, k)


def placed(state, at):
    """Row 64 and the arrays that stand for a state, but for what is scratch and for `a_met` and `a_woke`."""
    count = len(state.processes)
    at.arrays["a_phase"] = [process.phase for process in state.processes]
    at.arrays["a_bounded"] = [int(process.bound is not None) for process in state.processes]
    at.arrays["a_moves"] = [int(variable in process.moving) for process in state.processes for variable in range(64)]
    for name in ("a_send", "a_receive"):
        at.arrays[name] = [0] * max(len(state.ends), 1)
    at.arrays["a_into"] = state.into or [0]
    for number, process in enumerate(state.processes):
        base = 320 * number
        for variable, value in process.variables.items():
            at.registers[SHARED, base + variable] = value
        for variable, rate in process.moving.items():
            at.registers[SHARED, base + 128 + variable] = rate
        if process.bound is not None:
            at.registers[SHARED, base + 66] = process.bound
        at.registers[SHARED, base + 65] = state.logged[number]
        for branch, (sends, channel, value, slope) in enumerate(process.offers):
            at.arrays["a_send" if sends else "a_receive"][channel] = 32 * number + branch + 1
            if sends:
                at.registers[SHARED, base + 192 + branch] = value
                at.registers[SHARED, base + 256 + branch] = slope
    # the registers of process 0 and those of all share no place but these
    at.registers[SHARED, 64], at.registers[SHARED, 67] = state.clock, state.horizon
    at.arrays["a_steps"], at.arrays["a_limit"], at.arrays["a_self"] = [state.steps], [state.limit], [state.own]
    assert count == len(at.arrays["a_phase"])


def differences(state, model, at, lines):
    """What of the machine isn't as the model has it."""
    wanted = Watched(at.program)
    branches = {}
    placed(state, wanted)
    for name in ("a_phase", "a_bounded", "a_moves", "a_into", "a_steps", "a_limit", "a_self"):
        if at.arrays[name] != wanted.arrays[name]:
            yield name, wanted.arrays[name], at.arrays[name]
    for name in ("a_send", "a_receive"):
        if [code > 0 for code in at.arrays[name]] != [code > 0 for code in wanted.arrays[name]]:
            yield name, wanted.arrays[name], at.arrays[name]
        branches[name] = at.arrays[name]
    for place in set(at.registers) | set(wanted.registers):
        scratch = place[0] == SHARED and 68 <= place[1] < 128
        if not scratch and place in wanted.registers and at.at(*place) != wanted.at(*place):
            yield place, wanted.at(*place), at.at(*place)
        if place[0] != SHARED:
            yield place, None, at.at(*place)
    if at.arrays["a_met"] != [model.met.get(number, met) for number, met in enumerate(state.met)]:
        yield "a_met", model.met, at.arrays["a_met"]
    stop = 0 if model.stop is None else 1 + ENDS.index(model.stop)
    if at.arrays["a_stop"] != [stop]:
        yield "a_stop", stop, at.arrays["a_stop"]
    if lines != model.lines:
        yield "lines", model.lines, lines
    if sorted(at.wakes) != sorted(model.wakes):
        yield "wakes", model.wakes, at.wakes
    if at.owner != state.own:
        yield "owner", state.own, at.owner


def main():
    count = int(sys.argv[1]) if len(sys.argv) > 1 else 2000
    draw = random.Random(int(sys.argv[2]) if len(sys.argv) > 2 else 1)
    definitions = Definitions(CODE.read_text())
    programs, kinds, most = {}, Counter(), 0
    for number in range(count):
        state = Drawn(draw)
        size = len(state.processes), len(state.ends)
        if size not in programs:
            programs[size] = machine.Reader(unit_of(definitions, *size))
        at = Watched(programs[size])
        placed(state, at)
        at.arrays["a_met"], at.arrays["a_woke"], at.owner = list(state.met), list(state.woke), state.own
        lines = []
        while at.threads[state.own].frames:
            line = at.step(state.own)
            if line is not None:
                lines.append(line.strip())
        processes, channels = size
        assert at.moved - 2 <= 12 * channels**2 + 22 * processes * channels + 459 * channels + 1601 * processes + 88, size
        most = max(most, at.moved)
        model = Model(state)
        found = list(differences(state, model, at, lines))
        if found:
            print(f"state {number}, of {size}:", *found, sep="\n  ")
            sys.exit(1)
        kinds[model.stop or "goes on"] += 1
        kinds["meetings"] += bool(model.met)
    print(f"{count} passes, all as the model has them; {most} steps at most:", *(f"{kind} {n}" for kind, n in sorted(kinds.items())))


if __name__ == "__main__":
    main()
