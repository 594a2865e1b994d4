#!/usr/bin/env python3
"""Says whether a trace is one of a behaviour of a system, by trying all runs, and writes rows for `hc_suite_top`.

Usage: tools/verify.py SEED HORIZON LIMIT < SOURCE-AND-TRACE
Written from docs/SEMANTICS.md and docs/TRACE.md alone: it shares nothing with the crates whose rows it gives. All steps of all
processes are tried in every order, layer by layer, so it serves small systems alone. It takes sources without modules that
are in order, and knows of the working values of a step those of expressions, the clock and the length of a delay.
"""
import re
import sys
from fractions import Fraction

MOST = 2**63 - 1


class Unfit(Exception):
    pass


def fit(value):
    if abs(value.numerator) > MOST or value.denominator > MOST:
        raise Unfit
    return value


# ---- reading: trees are tuples, so that configurations can be members of sets

class Reader:
    def __init__(self, text):
        text = re.sub(r"#[^\n]*", "", text)
        self.tokens = re.findall(r"-->|:=|\|\||\|>|\+\+|\*\*|\[\]|&&|<=|>=|==|!=|\d+\.\d+|\w+|[^\s]", text) + ["the end"]
        self.at = 0
        self.channels = []

    def peek(self, ahead=0):
        return self.tokens[self.at + ahead]

    def take(self, *wanted):
        for one in wanted or [None]:
            token = self.tokens[self.at]
            assert one is None or token == one, (one, self.tokens[max(0, self.at - 4):self.at + 4])
            self.at += 1
        return token

    def has(self, token):
        if self.peek() == token:
            self.at += 1
            return True
        return False

    def system(self):
        self.take("system")
        processes = []
        while True:
            name = self.take()
            self.take("=", "(")
            processes.append((name, self.sequence()))
            self.take(")")
            if not self.has("||"):
                break
        self.take("endsystem")
        return processes

    def sequence(self):
        parts = [self.statement()]
        while self.has(";"):
            parts.append(self.statement())
        return tuple(parts)

    def statement(self):
        word = self.take()
        if word == "skip":
            return ("skip",)
        if word in ("wait", "log"):
            self.take("(")
            value = self.expression()
            self.take(")")
            return (word, value)
        if word == "if":
            test = self.condition()
            self.take("then")
            first = self.sequence()
            other = self.sequence() if self.has("else") else ()
            self.take("endif")
            return ("if", test, first, other)
        if word == "(":
            body = self.sequence()
            self.take(")")
            if self.has("++"):
                self.take("(")
                other = self.sequence()
                self.take(")")
                return ("pick", body, other)
            if self.has("**"):
                return ("forever", body)
            self.take("{")
            test = self.condition()
            self.take("}", "**")
            return ("loop", body, test)
        if word == "[]":
            return ("choice", self.branches())
        if word == "<":
            rates = [self.rate()]
            while self.has(","):
                rates.append(self.rate())
            self.take("&")
            domain = self.condition()
            self.take(">")
            branches = ()
            if self.has("|>"):
                self.take("[]")
                branches = self.branches()
            return ("evolve", tuple(rates), domain, branches)
        if self.has(":="):
            return ("set", word, self.expression())
        return ("choice", ((self.offer(word), ()),), "alone")

    def offer(self, channel):
        if channel not in self.channels:
            self.channels.append(channel)
        if self.has("!"):
            return ("send", channel, self.expression())
        self.take("?")
        return ("receive", channel, self.take())

    def branches(self):
        self.take("(")
        found = []
        while True:
            offer = self.offer(self.take())
            self.take("-->")
            found.append((offer, self.sequence()))
            if not self.has(","):
                break
        self.take(")")
        return tuple(found)

    def rate(self):
        name = self.take()
        self.take("=")
        return (name[:-len("_dot")], self.expression())

    def chain(self, signs, part):
        left = part()
        while self.peek() in signs:
            sign = self.take()
            left = (sign, left, part())
        return left

    def expression(self):
        return self.chain(("+", "-"), self.term)

    def term(self):
        return self.chain(("*", "/"), self.factor)

    def factor(self):
        token = self.take()
        if token == "-":
            return ("neg", self.factor())
        if token == "(":
            value = self.expression()
            self.take(")")
            return value
        return ("number", Fraction(token)) if token[0].isdigit() else ("variable", token)

    def condition(self):
        return self.chain(("||",), self.both)

    def both(self):
        return self.chain(("&&",), self.one)

    def one(self):
        if self.has("!"):
            return ("not", self.one())
        if self.peek() in ("true", "false"):
            return (self.take(),)
        if self.has("["):
            test = self.condition()
            self.take("]")
            return test
        left = self.expression()
        return (self.take(), left, self.expression())


# ---- values

def worth(tree, store):
    kind = tree[0]
    if kind == "number":
        return fit(tree[1])
    if kind == "variable":
        return store.get(tree[1], Fraction(0))
    if kind == "neg":
        return fit(-worth(tree[1], store))
    left, right = worth(tree[1], store), worth(tree[2], store)
    return fit({"+": lambda: left + right, "-": lambda: left - right, "*": lambda: left * right, "/": lambda: left / right}[kind]())


def holds(tree, store):
    kind = tree[0]
    if kind in ("true", "false"):
        return kind == "true"
    if kind == "not":
        return not holds(tree[1], store)
    if kind in ("&&", "||"):
        left, right = holds(tree[1], store), holds(tree[2], store)
        return left and right if kind == "&&" else left or right
    left, right = worth(tree[1], store), worth(tree[2], store)
    return {"<": left < right, "<=": left <= right, "==": left == right, "!=": left != right, ">=": left >= right,
            ">": left > right}[kind]


def moved(store, rates, time):
    return {**store, **{name: store.get(name, Fraction(0)) + rate * time for name, rate in rates.items()}}


def comparisons(tree):
    kind = tree[0]
    if kind in ("true", "false"):
        return []
    if kind == "not":
        return comparisons(tree[1])
    if kind in ("&&", "||"):
        return comparisons(tree[1]) + comparisons(tree[2])
    return [tree]


def end_moment(domain, store, rates):
    """The greatest lower bound of the times from now at which the domain is false, or None."""
    def difference(one, time):
        there = moved(store, rates, time)
        return worth(one[1], there) - worth(one[2], there)

    times = set()
    for one in comparisons(domain):
        now, slope = difference(one, 0), difference(one, 1) - difference(one, 0)
        if slope and now / slope < 0:
            times.add(fit(-now / slope))
    times = [Fraction(0)] + sorted(times)
    for place, time in enumerate(times):
        later = (time + times[place + 1]) / 2 if place + 1 < len(times) else time + 1
        if not holds(domain, moved(store, rates, time)) or not holds(domain, moved(store, rates, later)):
            return time
    return None


# ---- one process: (todo, store, picks, mark); the mark is None while it is going, else (bound, rates)

def stored(store):
    return tuple(sorted(store.items()))


class System:
    def __init__(self, source, seed, horizon, limit):
        reader = Reader(source)
        processes = reader.system()
        self.names = [name for name, body in processes]
        self.channels = reader.channels
        self.seed, self.horizon, self.limit = seed, horizon, limit
        self.opening = (Fraction(0), tuple((body, (), 0, None) for name, body in processes))
        self.ends = {}
        for number, (name, body) in enumerate(processes):
            self.find_ends(body, number)

    def find_ends(self, parts, number):
        for part in parts:
            if isinstance(part, tuple):
                if part and part[0] in ("send", "receive") and len(part) == 3:
                    self.ends.setdefault(part[1], {})[part[0]] = number
                self.find_ends(part, number)

    def silent(self, clock, number, process):
        """The process after its silent step and what it logs; None where it has none."""
        todo, kept, picks, mark = process
        if not todo:
            return None
        head, rest, store = todo[0], todo[1:], dict(kept)
        kind = head[0]
        if mark is not None:
            return ((rest, kept, picks, None), None) if mark[0] == 0 else None
        if kind == "skip":
            return (rest, kept, picks, None), None
        if kind == "set":
            store[head[1]] = worth(head[2], store)
            return (rest, stored(store), picks, None), None
        if kind == "log":
            return (rest, kept, picks, None), worth(head[1], store)
        if kind == "if":
            return ((head[2] if holds(head[1], store) else head[3]) + rest, kept, picks, None), None
        if kind == "pick":
            bit = self.seed >> (picks + 7 * number) % 64 & 1
            return (head[1 + bit] + rest, kept, picks + 1, None), None
        if kind == "forever":
            return (head[1] + todo, kept, picks, None), None
        if kind == "loop":
            return (head[1] + todo if holds(head[2], store) else rest, kept, picks, None), None
        if kind == "wait":
            bound = max(Fraction(0), worth(head[1], store))
            fit(clock + bound)
            return (todo, kept, picks, (bound, ())), None
        if kind == "choice":
            for offer, then in head[1]:
                if offer[0] == "send":
                    worth(offer[2], store)
            return (todo, kept, picks, (None, ())), None
        rates = {name: worth(rate, store) for name, rate in head[1]}
        bound = end_moment(head[2], store, rates)
        if bound:
            fit(clock + bound)
        return (todo, kept, picks, (bound, tuple(sorted(rates.items())))), None

    def offers(self, process):
        todo, kept, picks, mark = process
        if not todo or mark is None or todo[0][0] not in ("choice", "evolve"):
            return []
        if todo[0][0] == "evolve":
            return [] if mark[0] == 0 else todo[0][3]
        return todo[0][1]

    def meetings(self, state):
        clock, processes = state
        for p, sender in enumerate(processes):
            for offer, then in self.offers(sender):
                if offer[0] != "send":
                    continue
                for q, receiver in enumerate(processes):
                    for other, behind in self.offers(receiver):
                        if other[0] == "receive" and other[1] == offer[1]:
                            value = worth(offer[2], dict(sender[1]))
                            store = dict(receiver[1])
                            store[other[2]] = value
                            new = list(processes)
                            new[p] = (then + sender[0][1:], sender[1], sender[2], None)
                            new[q] = (behind + receiver[0][1:], stored(store), receiver[2], None)
                            yield ("comm", offer[1], p, q, value), (clock, tuple(new))

    def silents(self, state):
        """The silent steps, and the processes whose next step doesn't fit."""
        steps, unfit = [], []
        for number, process in enumerate(state[1]):
            try:
                done = self.silent(state[0], number, process)
            except Unfit:
                unfit.append(number)
                continue
            if done:
                new = state[1][:number] + (done[0],) + state[1][number + 1:]
                steps.append((("silent",) if done[1] is None else ("log", number, done[1]), (state[0], new)))
        return steps, unfit

    def delay(self, state):
        """`None` where nothing has a bound or evolves; else the delay's length with the state behind it, or `Unfit`."""
        clock, processes = state
        bounds = [process[3][0] for process in processes if process[3] is not None and process[3][0] is not None]
        if not bounds and not any(process[3] is not None and process[3][1] for process in processes):
            return None
        if clock >= self.horizon:
            return ("horizon",)
        length = min(bounds + [self.horizon - clock])
        new = []
        for todo, kept, picks, mark in processes:
            if mark is not None:
                store = moved(dict(kept), dict(mark[1]), length)
                for value in store.values():
                    fit(value)
                mark = (mark[0] if mark[0] is None else fit(mark[0] - length), mark[1])
                kept = stored(store)
            new.append((todo, kept, picks, mark))
        return ("delay", length), (fit(clock + length), tuple(new))

    def steps(self, state):
        silent, unfit = self.silents(state)
        found = silent + list(self.meetings(state))
        if not found and not unfit:
            try:
                done = self.delay(state)
            except Unfit:
                return []
            if done and done[0][0] == "delay":
                return [done]
        return found

    def stops(self, state):
        """The stops of a state short of the limit."""
        silent, unfit = self.silents(state)
        found = {("overflow", self.names[number]) for number in unfit}
        if silent or unfit or list(self.meetings(state)):
            return found
        if all(not process[0] for process in state[1]):
            return {("terminated",)}
        try:
            done = self.delay(state)
        except Unfit:
            return {("overflow", "*")}
        return {("deadlock",)} if done is None else {("horizon",)} if done[0] == "horizon" else set()

    # ---- traces

    def fits_line(self, line, clock, step, version):
        words = line.split(" ")
        if words[0] != text(clock):
            return False
        if step[0] == "delay":
            return words[1:] == ["delay", text(step[1])]
        if step[0] == "log":
            return words[1:] == ["log", self.names[step[1]], text(step[2])]
        named = [self.names[step[2]], self.names[step[3]]] if version == 2 else []
        return words[1:] == ["comm", step[1]] + named + [text(step[4])]

    def verdict(self, trace):
        """('yes', lines, steps) or ('no', line)."""
        lines = trace.split("\n")
        assert lines.pop() == ""
        version = int(lines[0][-1])
        lines = lines[1:]
        end = lines.pop().split(" ")[1:] if lines and lines[-1].startswith("end ") else None
        layer, furthest, ended = {(self.opening, 0)}, 0, None
        least = None
        for count in range(self.limit + 1):
            for state, place in layer:
                furthest = max(furthest, place)
                if place == len(lines):
                    if end is None:
                        least = count if least is None else least
                    elif end[0] == "limit":
                        if count == self.limit and end[1:] == [text(state[0])]:
                            least = count
                    elif count < self.limit and end[1] == text(state[0]):
                        if (end[0],) + tuple(end[2:]) in self.stops(state):
                            least = count if least is None else least
            if least is not None and not (end and end[0] == "limit"):
                break
            new = set()
            if count < self.limit:
                for state, place in layer:
                    for step, after in self.steps(state):
                        if step[0] == "silent":
                            new.add((after, place))
                        elif place < len(lines) and self.fits_line(lines[place], state[0], step, version):
                            new.add((after, place + 1))
            layer = new
        if least is not None:
            return ("yes", len(lines), least)
        return ("no", furthest + 2)


def text(value):
    return str(value.numerator) if value.denominator == 1 else f"{value.numerator}/{value.denominator}"


def answer(source, trace, seed=0, horizon=Fraction(100), limit=10_000):
    said = System(source, seed, horizon, limit).verdict(trace)
    return f"verified lines {said[1]} steps {said[2]}" if said[0] == "yes" else f"not a behaviour at line {said[1]}"


if __name__ == "__main__":
    both = sys.stdin.read()
    cut = re.search(r"^hcsp-trace [12]$", both, re.M).start()
    print(answer(both[:cut], both[cut:], int(sys.argv[1]), Fraction(sys.argv[2]), int(sys.argv[3])))
