#!/usr/bin/env python3
"""Writes rows of runs of many processes for `hc_suite_core`, with their answers by plain scans.

Usage: tools/plain.py rows|answers|known. `rows` prints the rows and `answers` their answers, line by line. `known` prints the
answers to a few rows that stand in the suite with answers worked out by hand.
Written from the rules of the language alone: each choice looks through all processes or all channels, and nothing is kept
from one step to the next. It shares nothing with the crates whose rows it gives.
"""
import sys
from fractions import Fraction


class Process:
    """What is left to do, whether it has arrived at the first of it, what is left to wait, and the value received last."""

    def __init__(self, todo):
        self.todo, self.arrived, self.left, self.value = list(todo), False, None, 0

    def wants(self):
        return bool(self.todo) and (not self.arrived or self.left == 0)

    def offers(self, kind):
        """The places of the offers of this kind, by channel."""
        if not self.todo or not self.arrived or self.todo[0][0] not in ("send", "receive", "choice"):
            return []
        offers = self.todo[0][1] if self.todo[0][0] == "choice" else [self.todo[0]]
        return [offer for offer in offers if offer[0] == kind]

    def go_on(self, more=()):
        self.todo, self.arrived, self.left = list(more) + self.todo[1:], False, None

    def step(self):
        """One silent step: the value that it logs, where it logs one."""
        word = self.todo[0]
        if self.arrived or word[0] == "skip":
            self.go_on()
        elif word[0] == "log":
            self.go_on()
            return self.value if word[1] is None else word[1]
        else:
            self.arrived, self.left = True, word[1] if word[0] == "wait" else None
        return None


def text(number):
    return str(Fraction(number))


def meeting(processes, channels):
    """The ready channel of least number, with the processes that send and receive on it."""
    for channel in range(channels):
        for sender in processes:
            for receiver in processes:
                for sent in sender.offers("send"):
                    for received in receiver.offers("receive"):
                        if sent[1] == received[1] == channel:
                            return channel, sender, sent, receiver, received
    return None


def run(bodies, channels):
    processes, clock, said, turns = [Process(body) for body in bodies], Fraction(0), [], 0
    while True:
        able = [number for number, process in enumerate(processes) if process.wants()]
        if not able:
            break
        turns += 1
        process = processes[able[0]]
        while process.wants():
            logged = process.step()
            said.append(f"{text(clock)} silent {able[0]}" + ("" if logged is None else f" log {text(logged)}"))
            if logged is not None:
                break
        while found := meeting(processes, channels):
            channel, sender, sent, receiver, received = found
            said.append(f"{text(clock)} comm {channel} {text(sent[2])}")
            sender.go_on(sent[3:])
            receiver.value = sent[2]
            receiver.go_on(received[2:])
        bounds = [process.left for process in processes if process.arrived and process.left is not None]
        if bounds and not any(process.wants() for process in processes):
            by = min(bounds)
            said.append(f"{text(clock)} delay {text(by)}")
            clock += by
            for process in processes:
                if process.arrived and process.left is not None:
                    process.left -= by
    end = "deadlock" if any(process.todo for process in processes) else "terminated"
    return ", ".join(said + [end, f"turns {turns}"])


# ---- the text of a source

def spelled(word, names):
    kind = word[0]
    if kind == "skip":
        return "skip"
    if kind == "wait":
        return f"wait({text(word[1])})"
    if kind == "log":
        return "log(x)" if word[1] is None else f"log({text(word[1])})"
    if kind == "send":
        return f"{names[word[1]]}!{text(word[2])}"
    if kind == "receive":
        return f"{names[word[1]]}?x"
    return "[](" + ", ".join(branch(offer, names) for offer in word[1]) + ")"


def branch(offer, names):
    size = 3 if offer[0] == "send" else 2
    return spelled(offer[:size], names) + " --> " + "; ".join(spelled(word, names) for word in offer[size:])


def row(bodies, names):
    processes = " || ".join(f"P{number} = (" + "; ".join(spelled(word, names) for word in body) + ")" for number, body in enumerate(bodies))
    return f"run - 10000 0 | system {processes} endsystem"


def named(bodies):
    """The channels by first occurrence, as a checked source numbers them."""
    order = []

    def look(word):
        if word[0] in ("send", "receive") and word[1] not in order:
            order.append(word[1])
        for offer in word[1] if word[0] == "choice" else ():
            look(offer)

    for body in bodies:
        for word in body:
            look(word)
    return order


def numbered(bodies):
    """The same bodies over the numbers of their channels."""
    order = named(bodies)

    def change(word):
        if word[0] in ("send", "receive"):
            return (word[0], order.index(word[1])) + word[2:]
        if word[0] == "choice":
            return ("choice", [change(offer) for offer in word[1]])
        return word

    return [[change(word) for word in body] for body in bodies], order


def wait(time):
    return "wait", Fraction(time)


SKIP = ("skip",)
LOG = ("log", None)

MANY = [
    # 64 processes that wait, the last the shortest, some as long as another: who wants a step is found by its number
    [[wait(1 + (63 - number) // 2), ("log", number)] for number in range(64)],
    # the first of 64 and the last, between others that have ended
    [[("receive", "c"), LOG]] + [[SKIP]] * 62 + [[wait(1), wait(1), ("send", "c", 7)]],
    # 31 channels that are ready at one moment, in the other order than their senders; then 32 that become ready one by one
    [[wait(1), ("choice", [("receive", f"c{channel}", LOG) for channel in range(31)])]] + [[("send", f"c{30 - number}", number)] for number in range(31)],
    [[wait(2), ("send", f"c{number}", number)] for number in range(32)]
    + [[wait(Fraction(number + 1, 16)), ("receive", f"c{31 - number}"), LOG] for number in range(32)],
    # channels beyond the first 64: the last is ready first, and of two that are ready the least meets
    [[("choice", [("send", f"d{16 * number + channel}", channel, SKIP) for channel in range(16)])] for number in range(5)]
    + [[wait(1), ("choice", [("receive", "d79", LOG), ("receive", "d64", LOG)])],
       [wait(Fraction(1, 2)), ("receive", "d34"), LOG], [wait(1), ("receive", "d15"), LOG]],
]

KNOWN = [
    [[wait(Fraction(3, 2)), ("send", "c", 2)], [("receive", "c"), LOG]],
    [[("send", "c", 1)], [("receive", "d")]],
    [[("send", "a", 1)], [("send", "b", 2)], [("choice", [("receive", "b", LOG), ("receive", "a", LOG)])]],
    [[wait(1), wait(Fraction(1, 2)), ("log", 1)], [wait(Fraction(4, 3)), ("log", 2)]],
    [[wait(1), ("log", 1)], [wait(1), ("log", 2)]],
]


def main():
    for bodies in KNOWN if sys.argv[1] == "known" else MANY:
        changed, order = numbered(bodies)
        print(row(changed, order) if sys.argv[1] == "rows" else run(changed, len(order)))


if __name__ == "__main__":
    main()
