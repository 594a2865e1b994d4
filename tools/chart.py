#!/usr/bin/env python3
"""Draws a trace as a picture in SVG.

Usage: tools/chart.py [--from T] [--to T] < TRACE > PICTURE
       tools/chart.py --values CHANNEL .. [--from T] [--to T] < TRACE > PICTURE
Without --values: the processes as lifelines, time downwards. What happens at one moment stands in one band, in the order of
the trace; between two bands time passes, in proportion to the delay within bounds, and a dashed axis tells that a delay is
out of scale. With --values: what passes on these channels over time, each value holding until the next. --from and --to cut
a long trace by moments. Reads traces of version 2 (docs/TRACE.md), with or without an end line; a process that the trace doesn't
name isn't drawn. A number of more than 14 characters is drawn as a decimal, and its text shows as a tooltip. Asks for Python 3.10 or later.
"""
import argparse
import sys
from dataclasses import dataclass
from fractions import Fraction
from itertools import groupby
from xml.sax.saxutils import escape

FONT = "system-ui, -apple-system, 'Segoe UI', 'DejaVu Sans', sans-serif"
INK, MUTED, LINE, BAND, PAPER = "#1f2933", "#6b7783", "#c5ccd3", "#f2f5f8", "#ffffff"
COLOURS = ["#0b6bb5", "#c2410c", "#18794e", "#8e3fae", "#a16207", "#0e7490", "#be1856", "#4b5563"]
LETTER = 7.2  # the width of a letter at most, as a rule, at 12 pixels
ROW = 26  # the height of an event
DELAY = 54  # the height of a delay of mean length
LEAST_DELAY, MOST_DELAY = 22, 170
MOST_HEIGHT = 20_000  # of a picture: what is longer is drawn closer
LEGIBLE = 13  # the least height of an event with its text
LONGEST = 14  # characters of a number that is spelled out


class NotATrace(Exception):
    """The line that can't be read, and why."""


@dataclass
class Event:
    """A line of the trace at a moment. The kinds are those of its lines; an end has its word as the channel."""

    kind: str
    clock: Fraction
    channel: str = ""
    sender: str = ""
    receiver: str = ""
    value: Fraction | None = None


def event_of(words):
    """The event that these words of a line say."""
    match words:
        case [clock, "delay", value]:
            return Event("delay", Fraction(clock), value=Fraction(value))
        case [clock, "comm", channel, sender, receiver, value]:
            return Event("comm", Fraction(clock), channel, sender, receiver, Fraction(value))
        case [clock, "log", process, value]:
            return Event("log", Fraction(clock), sender=process, value=Fraction(value))
        case ["end", "overflow", clock, place]:
            return Event("end", Fraction(clock), "overflow", sender="" if place == "*" else place)
        case ["end", word, clock]:
            return Event("end", Fraction(clock), word)
    raise ValueError("no line of a trace")


def events_of(text):
    """The events of a trace, or the first line that is none."""
    header, *lines = text.splitlines() or [""]
    if header != "hcsp-trace 2":
        raise NotATrace("line 1: no header `hcsp-trace 2`")
    events = []
    for number, line in enumerate(lines, 2):
        try:
            events.append(event_of(line.split(" ")))
        except (ValueError, ZeroDivisionError) as error:
            raise NotATrace(f"line {number}: {error}") from None
    return events


def spelled(number):
    """A number as text: a fraction, or where that is long a decimal."""
    text = str(number)
    return text if len(text) <= LONGEST else f"≈{float(number):.6g}"


def width_of(text):
    return LETTER * len(text)


def attribute(name, value):
    """An attribute; `_` in its name stands for `-`."""
    return f'{name.replace("_", "-")}="{value:.5g}"' if isinstance(value, float) else f'{name.replace("_", "-")}="{value}"'


def tag(name, content=None, **given):
    """An element with these attributes and this content."""
    begin = " ".join([name, *(attribute(key, value) for key, value in given.items())])
    return f"<{begin}/>" if content is None else f"<{begin}>{content}</{name}>"


def line(x1, y1, x2, y2, **given):
    return tag("line", x1=float(x1), y1=float(y1), x2=float(x2), y2=float(y2), **{"stroke": LINE, **given})


def words(x, y, content, **given):
    """Text at a place. The content is escaped by who makes it, where it holds names."""
    return tag("text", content, x=float(x), y=float(y), **{"fill": INK, **given})


def said(channel, number, colour):
    """A channel's name in its colour with a value behind it."""
    tooltip = tag("title", str(number)) if spelled(number) != str(number) else ""
    return f'<tspan fill="{colour}" font-weight="600">{escape(channel)}</tspan> {spelled(number)}{tooltip}'


def picture(width, height, label, parts):
    """A whole SVG file."""
    begin = (
        f'<svg xmlns="http://www.w3.org/2000/svg" viewBox="0 0 {width:.0f} {height:.0f}" width="{width:.0f}" height="{height:.0f}" '
        f'role="img" aria-label="{escape(label)}" font-family="{FONT}" font-size="12">'
    )
    paper = tag("rect", width=float(width), height=float(height), rx=6, fill=PAPER)
    return "\n".join([begin, paper, *parts, "</svg>"]) + "\n"


class Lifelines:
    """Processes from left to right and time downwards."""

    def __init__(self, events):
        self.events = events
        happened = [it for it in events if it.kind in ("comm", "log")]
        self.processes = list(dict.fromkeys(name for it in events for name in (it.sender, it.receiver) if name))
        channels = list(dict.fromkeys(it.channel for it in events if it.kind == "comm"))
        self.colour = {it: COLOURS[number % len(COLOURS)] for number, it in enumerate(channels)}
        labels = [f"{it.channel or 'log'} {spelled(it.value)}" for it in happened] + self.processes
        widest = max([width_of(it) for it in labels] + [60])
        self.gap = max(150, widest + 56)
        self.left = 44 + max([width_of(spelled(it.clock)) for it in events] + [20])
        self.right = max(self.x_of(self.processes[-1]) if self.processes else self.left, self.left + 120) + self.gap / 2
        delays = [it.value for it in events if it.kind == "delay" and it.value > 0]
        self.mean = sum(delays, Fraction(0)) / len(delays) if delays else Fraction(1)
        self.squeeze = min(1, MOST_HEIGHT / max(self.natural_height(), 1))
        self.row = ROW * self.squeeze

    def x_of(self, process):
        return self.left + self.gap * (0.5 + self.processes.index(process))

    def natural_height(self):
        return sum(DELAY if it.kind == "delay" else ROW for it in self.events)

    def height_of(self, delay):
        """The height of a delay, and whether it is in scale."""
        wanted = float(delay / self.mean) * DELAY
        return min(max(wanted, LEAST_DELAY), MOST_DELAY) * self.squeeze, wanted <= MOST_DELAY

    def comm(self, it, y):
        x1, x2, colour = self.x_of(it.sender), self.x_of(it.receiver), self.colour[it.channel]
        side = 1 if x2 > x1 else -1
        size = min(5, self.row / 3)
        head = f"M{x2:.1f} {y:.1f}l{-side * 1.8 * size:.1f} {-size:.1f}v{2 * size:.1f}z"
        parts = [line(x1, y, x2 - side * size, y, stroke=colour, stroke_width=1.6), tag("path", d=head, fill=colour)]
        parts.append(tag("circle", cx=x1, cy=y, r=2.6, fill=colour))
        if self.row >= LEGIBLE:
            # the label stands at the middle of the first gap, where no other lifeline passes
            label = said(it.channel, it.value, colour)
            parts.append(words(x1 + side * self.gap / 2, y - 5, label, text_anchor="middle"))
        return parts

    def log(self, it, y):
        x = self.x_of(it.sender)
        parts = [tag("path", d=f"M{x:.1f} {y - 5:.1f}l5 5l-5 5l-5 -5z", fill=INK)]
        if self.row >= LEGIBLE:
            parts.append(words(x + 10, y + 4, said("log", it.value, INK)))
        return parts

    def end(self, it, y):
        """The double line behind which nothing is, and why. The lifelines end there."""
        where = f" of {escape(it.sender)}" if it.sender else ""
        label = f'<tspan font-weight="600" fill="{INK}">end</tspan> {escape(it.channel)}{where}'
        ruled = [line(self.left, self.bottom + up, self.right, self.bottom + up, stroke=INK, stroke_width=1.4) for up in (-3, 0)]
        return [*ruled, words(self.left, y, label, fill=MUTED)]

    def delay(self, it, y, height, in_scale):
        """The axis while time passes, with the delay's length."""
        x = self.left - 12
        dashes = {} if in_scale else {"stroke_dasharray": "3 3"}
        parts = [line(x, y, x, y + height, stroke=MUTED, stroke_width=1.4, **dashes)]
        if height >= LEGIBLE:
            parts.append(words(x + 7, y + height / 2 + 4, f"+{spelled(it.value)}", fill=MUTED, font_size=11))
        return parts

    def start(self, clock, y):
        """A moment at which nothing is shown: the first one, or one between two delays."""
        tick = line(self.left - 16, y, self.left - 8, y, stroke=MUTED, stroke_width=1.4)
        return [tick, words(self.left - 26, y + 4, spelled(clock), text_anchor="end", font_weight=600)]

    def moment(self, clock, y, height):
        """The band of what happens at one moment."""
        band = [tag("rect", x=float(self.left - 20), y=float(y), width=float(self.right - self.left + 20), height=float(height), fill=BAND, rx=3)]
        if height >= LEGIBLE:
            band.append(words(self.left - 26, y + min(height / 2, 13) + 4.5, spelled(clock), text_anchor="end", font_weight=600))
        return band

    def draw(self):
        top, bands, marks = 52, [], []
        y = top
        for is_delay, group in groupby(self.events, lambda it: it.kind == "delay"):
            group = list(group)
            if is_delay:
                for it in group:
                    height, in_scale = self.height_of(it.value)
                    if height >= LEGIBLE and (y == top or it is not group[0]):
                        marks += self.start(it.clock, y)
                    marks += self.delay(it, y, height, in_scale)
                    y += height
                continue
            height = self.row * (len(group) + 0.2) + 6 * self.squeeze
            bands += self.moment(group[0].clock, y, height)
            ends = group[-1].kind == "end"
            self.bottom = y + self.row * (len(group) - 0.8) + 8 * self.squeeze if ends else y + height
            for number, it in enumerate(group):
                marks += getattr(self, it.kind)(it, y + self.row * (number + (0.95 if it.kind == "end" else 0.75)) + 2 * self.squeeze)
            y += height
        last = self.bottom if self.events[-1].kind == "end" else y
        lives = [line(self.x_of(it), top - 8, self.x_of(it), last, stroke=MUTED, stroke_width=1.2) for it in self.processes]
        heads = [part for it in self.processes for part in self.head(it)]
        return picture(self.right + 20, y + 20, "a trace: processes and what passes between them over time", [*bands, *lives, *heads, *marks])

    def head(self, process):
        x, wide = self.x_of(process), max(width_of(process) + 24, 56)
        box = tag("rect", x=x - wide / 2, y=16.0, width=float(wide), height=28.0, rx=6, fill=INK)
        return [box, words(x, 34, escape(process), text_anchor="middle", fill=PAPER, font_weight=600)]


def ticks(least, most, count):
    """Round moments or values between two numbers, some `count` of them."""
    step = Fraction(1)
    while (most - least) / step > count:
        step *= 10
    while (most - least) / step <= Fraction(count, 10):
        step /= 10
    step = next(step / part for part in (10, 5, 2, 1) if (most - least) / (step / part) <= count)
    first = -(-least // step)
    return [step * number for number in range(first, most // step + 1)]


class Values:
    """What passes on channels over time, one panel a channel."""

    WIDTH, PANEL, TOP = 760, 180, 34

    def __init__(self, events, channels):
        self.channels = channels
        self.passed = {name: [it for it in events if it.kind == "comm" and it.channel == name] for name in channels}
        self.begin = min(it.clock for it in events)
        ends = [it.clock + it.value if it.kind == "delay" else it.clock for it in events]
        self.finish = max([*ends, self.begin + Fraction(1, 1000)])
        self.end = next((it for it in events if it.kind == "end"), None)
        widest = max(width_of(spelled(it.value)) for name in channels for it in self.passed[name])
        self.left, self.right = 34 + widest, 24 + widest

    def x_of(self, clock):
        return self.left + float((clock - self.begin) / (self.finish - self.begin)) * (self.WIDTH - self.left - self.right)

    def labelled(self, passed, y_of):
        """Dots and values, where they have room."""
        if len(passed) > 80:
            return
        edge = None
        for it in passed:
            x, text = self.x_of(it.clock), spelled(it.value)
            yield tag("circle", cx=x, cy=y_of(it.value), r=3.4, fill=PAPER, stroke_width=1.8)
            if edge is None or x > edge:
                yield words(x + 6, y_of(it.value) - 7, text, stroke="none", font_weight=600)
                edge = x + width_of(text) + 4

    def levels(self, known, y_of):
        """Lines at values, with their names where they have room."""
        edge = None
        for value in known:
            y = y_of(value)
            yield line(self.left, y, self.WIDTH - self.right, y, stroke_dasharray="2 4")
            if edge is None or edge - y >= 13:
                yield words(self.left - 8, y + 4, spelled(value), text_anchor="end", fill=MUTED)
                edge = y

    def steps(self, passed, y_of):
        """The step line: each value holds until the next, and the last one to the end."""
        first, *rest = passed
        corners = "".join(f"H{self.x_of(it.clock):.1f}V{y_of(it.value):.1f}" for it in rest)
        path = f"M{self.x_of(first.clock):.1f} {y_of(first.value):.1f}{corners}H{self.x_of(self.finish):.1f}"
        return tag("path", d=path, fill="none", stroke_width=2, stroke_linejoin="round")

    def panel(self, name, top, colour):
        """A channel with its ends, its levels, its step line and its values."""
        passed = self.passed[name]
        known = sorted({it.value for it in passed})
        least, most = (known[0], known[-1]) if len(known) > 1 else (known[0] - 1, known[0] + 1)
        low, high = top + self.PANEL - 22, top + 34

        def y_of(value):
            return low - float((value - least) / (most - least)) * (low - high)

        ends = f'<tspan fill="{MUTED}" font-weight="400">{escape(passed[0].sender)} → {escape(passed[0].receiver)}</tspan>'
        title = words(self.left, top + 10, f"{escape(name)} {ends}", fill=colour, font_weight=600, font_size=13)
        levels = self.levels(known if len(known) <= 5 else ticks(least, most, 5), y_of)
        inside = [self.steps(passed, y_of), *self.labelled(passed, y_of)]
        return [title, *levels, tag("g", "\n".join(inside), stroke=colour)]

    def axis(self, y):
        """The moments below all panels, and the end."""
        moments = sorted({it.clock for name in self.channels for it in self.passed[name]} | {self.begin, self.finish})
        widest = max(width_of(spelled(it)) for it in moments) + 12
        if any(self.x_of(b) - self.x_of(a) < widest for a, b in zip(moments, moments[1:])):
            moments = ticks(self.begin, self.finish, 10)
        parts = [line(self.left, y, self.WIDTH - self.right, y, stroke=MUTED)]
        for it in moments:
            x = self.x_of(it)
            parts += [line(x, y, x, y + 5, stroke=MUTED), words(x, y + 19, spelled(it), text_anchor="middle", fill=MUTED)]
        if self.end:
            x = self.x_of(self.end.clock)
            label = f'<tspan font-weight="600" fill="{INK}">end</tspan> {escape(self.end.channel)}'
            parts += [line(x, self.TOP - 10, x, y, stroke_width=1.4), words(x, self.TOP - 16, label, text_anchor="end", fill=MUTED)]
        return parts

    def draw(self):
        bottom = self.TOP + len(self.channels) * self.PANEL
        parts = self.axis(bottom)
        for number, name in enumerate(self.channels):
            parts += self.panel(name, self.TOP + number * self.PANEL, COLOURS[number % len(COLOURS)])
        return picture(self.WIDTH, bottom + 32, f"values over time on {', '.join(self.channels)}", parts)


def moment(text):
    try:
        return Fraction(text)
    except (ValueError, ZeroDivisionError):
        raise argparse.ArgumentTypeError(f"{text!r} is no moment") from None


def main():
    parser = argparse.ArgumentParser(description="Draws a trace as a picture in SVG.")
    parser.add_argument("--values", metavar="CHANNEL", nargs="+", default=[], help="the values of these channels over time, in place of lifelines")
    parser.add_argument("--from", dest="first", metavar="T", type=moment, help="leave out what is before this moment")
    parser.add_argument("--to", dest="last", metavar="T", type=moment, help="leave out what is after this moment")
    given = parser.parse_args()
    try:
        events = events_of(sys.stdin.read())
    except NotATrace as error:
        sys.exit(f"chart: {error}")
    first, last = given.first or 0, given.last
    events = [it for it in events if it.clock >= first and (last is None or it.clock <= last)]
    if not events:
        sys.exit("chart: nothing to draw")
    carried = {it.channel for it in events if it.kind == "comm"}
    silent = [it for it in given.values if it not in carried]
    if silent:
        sys.exit(f"chart: nothing passes on {silent[0]}")
    sys.stdout.write(Values(events, given.values).draw() if given.values else Lifelines(events).draw())


if __name__ == "__main__":
    main()
