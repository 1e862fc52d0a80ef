"""Compares the main program of foilcalls with the second hand, on random scripts.

    python3 compare/calls.py [SCRIPTS [SEED]]

Each script goes to crates/foilcalls/out/foilcalls and to reference/foilcalls.py, and
their answers are compared byte by byte. Ends at the first difference with
status 1, after all scripts with 0, and with 2 where it cannot begin. A script
follows from SEED and its index alone. Every second of the first few hundred is
the same for every seed: a worked example, a full roll, or one of the faults.
"""

from __future__ import annotations

import importlib.util
import random
import struct
import subprocess
import sys
from collections import Counter
from dataclasses import dataclass, field
from pathlib import Path

TOP = Path(__file__).resolve().parent.parent
PROGRAM = TOP / "crates" / "foilcalls" / "out" / "foilcalls"
REFERENCE = TOP / "reference" / "foilcalls.py"
SECONDS = 60  # the program has to answer a script within these

GREATEST = 4_294_967_295

# REALs, as bit patterns.

INFINITIES = [0x7F800000, 0xFF800000]
NOT_NUMBERS = [0x7FC00000, 0xFFC00000, 0x7F800001, 0xFF800001, 0x7FFFFFFF, 0xFFFFFFFF, 0x7FA00000]
ZEROS = [0x00000000, 0x80000000]
SUBNORMALS = [0x00000001, 0x80000001, 0x007FFFFF, 0x807FFFFF]
FINITE_ENDS = [0x7F7FFFFF, 0xFF7FFFFF, 0x00800000, 0x80800000]
ODD_REALS = INFINITIES + NOT_NUMBERS + ZEROS + SUBNORMALS + FINITE_ENDS


def odd_real(rng: random.Random) -> int:
    return rng.choice(ODD_REALS) if rng.random() < 0.8 else rng.getrandbits(32)


def bits(value: float) -> int:
    return struct.unpack(">I", struct.pack(">f", value))[0]


def step(pattern: int, by: int) -> int:
    """The REAL that stands `by` places above (or below) a finite one."""
    place = pattern if pattern < 0x80000000 else 0x80000000 - pattern
    place += by
    return place if place >= 0 else 0x80000000 - place


LIMITS = [
    (bits(1.0), bits(2.0)),
    (bits(-1.0), bits(1.0)),
    (bits(0.1), bits(0.3)),
    (bits(-7.5), bits(-2.25)),
    (bits(16777215.0), bits(16777216.0)),
    (bits(5.0), bits(5.0)),
    (0x00000000, 0x00000000),
    (0x00000000, 0x80000000),
    (0x80000000, 0x00000000),
    (0x80000001, 0x00000001),
    (0x00000001, 0x007FFFFF),
    (0x807FFFFF, 0x80000000),
    (0xFF7FFFFF, 0x7F7FFFFF),
    (0x00000000, 0x7F7FFFFF),
]


@dataclass(frozen=True)
class Palette:
    """Limits, with a few values inside and outside of them."""

    low: int
    high: int
    inside: list[int]
    outside: list[int]


def palette(rng: random.Random) -> Palette:
    low, high = rng.choice(LIMITS)
    inside = [low, high]
    if step(low, 1) != high and low != high and {low, high} != set(ZEROS):
        inside += [step(low, 1), step(high, -1)]
    if {low, high} <= set(ZEROS):
        inside += ZEROS
    outside = [step(low, -1), step(high, 1), rng.choice(NOT_NUMBERS), rng.choice(NOT_NUMBERS), *INFINITIES]
    return Palette(low, high, inside, outside)


# Rolls. A kind of roll says what may be asked of it, since the reference tries all choices.


@dataclass
class Size:
    cells: int
    sheet: int
    parameters: int
    places: int
    counts: int = 100  # so many counts at most
    plans: int = 100  # so many plans with a work table that is long enough at most


def few_parameters(rng: random.Random) -> int:
    return rng.randint(1, 3) if rng.random() < 0.85 else rng.randint(4, 8)


def few_places(rng: random.Random, parameters: int) -> int:
    if rng.random() < 0.01:
        return rng.choice([65_536, 65_537, 100_000])
    return rng.randint(8, 12 + parameters) if rng.random() < 0.85 else rng.randint(0, 7)


def small_roll(rng: random.Random) -> Size:
    sheet = rng.choice([1, 2, 2, 3, 3, 3, 4, 4, 5, 6])
    cells = rng.randint(1, 14)
    if rng.random() < 0.85:
        cells = max(cells, min(2 * sheet + rng.randint(0, 3), 14))
    if sheet == 1:
        cells = min(cells, 10)
    if rng.random() < 0.02:
        sheet = rng.choice([cells + 1, 15, 4095, 4096])
    if rng.random() < 0.03:
        sheet = cells
    parameters = few_parameters(rng)
    return Size(cells, sheet, parameters, few_places(rng, parameters))


def long_sheets(rng: random.Random) -> Size:
    """Sheets long enough for the classes B and C, and few choices."""
    sheet = rng.choice([19, 20, 21, 39, 40, 41, 49, 50, 50, 51, 60, 60, 100, 101])
    cells = rng.choice([sheet + rng.randint(0, 25), 2 * sheet + rng.randint(0, 12), 3 * sheet + rng.randint(0, 3)])
    return Size(cells, sheet, rng.randint(1, 3), rng.randint(8, 30), plans=8)


def many_cells(rng: random.Random) -> Size:
    """Rolls for counting alone."""
    return Size(rng.randint(60, 250), rng.randint(2, 30), rng.randint(1, 3), rng.randint(10, 40), counts=4, plans=0)


def longest_sheets(rng: random.Random) -> Size:
    return Size(4096 + rng.randint(0, 3), 4096, rng.randint(1, 2), rng.randint(0, 8), counts=1, plans=2)


def longest_roll(rng: random.Random) -> Size:
    cells = rng.choice([32768, 32768, 32767, rng.randint(1000, 32768)])
    counts = 1 if rng.random() < 0.1 else 0
    return Size(cells, rng.choice([1, 2, 3, 7, 100, 4096]), rng.randint(1, 2), rng.randint(0, 12), counts, plans=0)


def refused_roll(rng: random.Random) -> Size:
    """A size, or several, out of range: the script ends at `new`."""
    size = small_roll(rng)
    for out in rng.choices(["cells", "sheet", "parameters"], k=rng.choice([1, 1, 1, 2, 3])):
        if out == "cells":
            size.cells = rng.choice([0, 0, 32769, GREATEST])
        elif out == "sheet":
            size.sheet = rng.choice([0, 0, 4097, GREATEST])
        else:
            size.parameters = rng.choice([0, 0, 9, GREATEST])
    return size


ROLLS = [
    (small_roll, 790),
    (long_sheets, 120),
    (many_cells, 40),
    (refused_roll, 35),
    (longest_roll, 10),
    (longest_sheets, 5),
]


# Criteria.


def simple(rng: random.Random) -> str:
    kind = rng.choice(["single", "ladder", "tally"])
    if kind != "single":
        return kind
    return "single " + str(rng.choice([1, 1, 1, 2, 2, 3, rng.randint(0, 9), rng.randint(0, 9), GREATEST]))


def ranked(rng: random.Random, ranks: int) -> str:
    """Any criterion that nests at most `ranks` deep."""
    if ranks == 0 or rng.random() < 0.4:
        return simple(rng)
    return f"ranked {ranked(rng, ranks - 1)} {ranked(rng, ranks - 1)}"


# Scripts that are well formed.


@dataclass
class Writer:
    """Writes a script, and keeps what its calls are likely to have recorded."""

    rng: random.Random
    size: Size
    lines: list[str] = field(default_factory=list)
    positions: dict[int, list[int]] = field(default_factory=dict)  # of the readings, by parameter
    trial_stands: bool = False

    def write(self) -> list[str]:
        rng, size = self.rng, self.size
        self.lively = rng.random() < 0.8  # mostly good sheets, with outliers in many of them
        length = rng.randint(25, 60) if self.lively else rng.randint(5, 60)
        shared = palette(rng)
        alike = rng.random() < 0.7
        self.palettes = [shared if alike else palette(rng) for _ in range(8)]
        self.outside_often = rng.choice([0.1, 0.2, 0.3, 0.4, 0.5] if self.lively else [0.0, 0.2, 0.5, 0.8])
        self.strides = rng.choice([[1], [1, 2], [1, 1, 2, 3], [2], [2, 4], [3, 4, 5]])
        if size.cells > 30:
            self.strides = rng.choice([[1, 1, size.sheet], [1, 1, 1, 7], [size.sheet // 2 + 1, 1], [10, 20]])

        self.put(f"places {size.places}")
        self.put(f"new {size.cells} {size.sheet} {size.parameters}")
        opening = self.opening()
        for call in opening if self.lively else opening[: length - 3]:
            call()
        calls = [self.reading, self.withdraw, self.bar, self.limits, self.count, self.plan, self.trial]
        weights = rng.choice(
            [
                [30, 8, 1, 3, 14, 30, 8],
                [15, 6, 1, 2, 10, 40, 4],
                [40, 20, 0, 1, 10, 25, 5],
                [15, 6, 4, 12, 15, 25, 20],
            ]
        )
        for _ in range(2 * length):
            if len(self.lines) < length - 1:
                rng.choices(calls, weights)[0]()
        if self.trial_stands:
            self.put("end")
        rng.choice([self.count, self.plan])()
        return self.lines

    def put(self, line: str) -> None:
        self.lines.append(line)

    def opening(self) -> list:
        """Readings of every parameter, and limits for all of them, mostly."""
        rng, size = self.rng, self.size
        parameters = range(1, min(size.parameters, 8) + 1)
        calls = []
        if self.lively:
            span = rng.choice([size.cells, size.cells, size.cells * 3 // 4])
            each = min(30, size.places // len(parameters)) if parameters else 0
            for parameter in parameters:
                for position, value in self.some_readings(parameter, span, rng.randint(min(1, each), each)):
                    calls.append(lambda at=(parameter, position, value): self.plain_reading(*at))
        else:
            calls += [self.reading] * rng.randint(0, min(12, size.places + 1))
        if rng.random() < 0.95:
            for parameter in parameters:
                at = rng.randint(0, len(calls))
                calls.insert(at, lambda parameter=parameter: self.plain_limits(parameter))
        return calls

    def some_readings(self, parameter: int, span: int, number: int) -> list[tuple[int, int]]:
        """Rising positions with values: anywhere, or small groups of outliers on a long roll."""
        rng, colours = self.rng, self.palette(parameter)
        number = min(number, span + 1)
        if span <= 18 or rng.random() < 0.2:
            return [(position, self.value(parameter)) for position in sorted(rng.sample(range(span + 1), number))]
        found = {rng.randint(0, span): rng.choice(colours.inside)}
        while len(found) < number:
            first, length = rng.randint(0, span), rng.choice([3, 3, 3, 4, 5])
            for position in range(first, min(first + length, span + 1)):
                within = position in (first, first + length - 1)
                found[position] = rng.choice(colours.inside if within else colours.outside)
        return sorted(found.items())[:number]

    def parameter(self, most: int) -> int:
        """A parameter, now and then one that does not exist."""
        if self.rng.random() < 0.03:
            return self.rng.choice([0, most + 1, 8, 9, GREATEST])
        return self.rng.randint(1, max(1, min(most, 8)))

    def palette(self, parameter: int) -> Palette:
        return self.palettes[(parameter - 1) % 8]

    def value(self, parameter: int) -> int:
        chance = self.rng.random()
        if chance < 0.03:
            return odd_real(self.rng)
        if chance < 0.03 + self.outside_often:
            return self.rng.choice(self.palette(parameter).outside)
        return self.rng.choice(self.palette(parameter).inside)

    def plain_reading(self, parameter: int, position: int, value: int) -> None:
        self.put(f"reading {parameter} {position} {value:08X}")
        self.positions.setdefault(parameter, []).append(position)

    def reading(self) -> None:
        rng, cells = self.rng, self.size.cells
        parameter = self.parameter(self.size.parameters)
        bare = [i for i in range(1, min(self.size.parameters, 8) + 1) if not self.positions.get(i)]
        if bare and rng.random() < 0.5:
            parameter = rng.choice(bare)
        positions = self.positions.setdefault(parameter, [])
        last = positions[-1] if positions else -1
        if rng.random() < 0.1:
            position = rng.choice([0, max(last, 0), max(last - 1, 0), cells, cells + 1, cells + 1, GREATEST])
        elif positions:
            position = last + rng.choice(self.strides)
        else:
            position = rng.choice([0, 0, 1, rng.randint(0, min(cells, 5))])
        if position > cells and rng.random() < 0.9:
            # The end of the roll is reached: another value at its last reading, mostly.
            if not positions:
                return
            position = last
            self.withdraw(parameter)
            last = positions[-1] if positions else -1
        self.put(f"reading {parameter} {position} {self.value(parameter):08X}")
        held = sum(len(others) for others in self.positions.values())
        if 1 <= parameter <= self.size.parameters and last < position <= cells and held < self.size.places:
            positions.append(position)

    def withdraw(self, parameter: int | None = None) -> None:
        if parameter is None:
            parameter = self.parameter(self.size.parameters)
        self.put(f"withdraw {parameter}")
        if self.positions.get(parameter):
            self.positions[parameter].pop()

    def bar(self) -> None:
        rng, cells = self.rng, self.size.cells
        first = rng.randint(1, max(cells, 1))
        last = min(first + rng.choice([0, 0, 0, 1, 2]), max(cells, 1))
        if rng.random() < 0.15:
            first, last = rng.choice(
                [(0, last), (0, 0), (first, cells + 1), (cells + 1, cells + 1)]
                + [(first + 1, first), (first, GREATEST), (GREATEST, 1)]
            )
        self.put(f"bar {first} {last}")

    def share(self) -> int:
        rng, sheet = self.rng, self.size.sheet
        chance = rng.random()
        if self.lively and chance < 0.7:
            # Generous: what a sheet lacks shows in its mark.
            return rng.choice([400, 500, 667, 750, 1000, 1000] if sheet < 19 else [50, 60, 100, 500, 1000, 1000])
        chance = rng.random()
        if chance < 0.5 and sheet > 0:
            # Just enough for some outliers, or one thousandth too little.
            outliers = rng.randint(1, 2) if rng.random() < 0.6 else rng.randint(1, min(sheet, 4096))
            enough = min(1000, -(-1000 * outliers // sheet))
            return max(0, enough - rng.choice([0, 0, 1]))
        if chance < 0.9:
            return rng.choice([0, 20, 50, 400, 400, 500, 500, 1000])
        return rng.randint(0, 1000)

    def plain_limits(self, parameter: int) -> None:
        colours = self.palette(parameter)
        self.put(f"limits {parameter} {colours.low:08X} {colours.high:08X} {self.share()}")

    def limits(self) -> None:
        rng = self.rng
        parameter = self.parameter(self.size.parameters)
        if rng.random() < 0.1:
            parameter = rng.choice([0, 8, 9, GREATEST])
        colours = self.palette(parameter)
        low, high, share = colours.low, colours.high, self.share()
        chance = rng.random()
        if chance < 0.1:
            low, high = rng.choice([(high, low), (step(high, 1), high), (low, step(low, -1))])
        elif chance < 0.2:
            low, high = rng.choice([(odd_real(rng), high), (low, odd_real(rng))])
        elif chance < 0.25:
            low, high = odd_real(rng), odd_real(rng)
        elif chance < 0.35:
            low = high = rng.choice(colours.inside)
        elif chance < 0.5 and rng.random() < 0.5:
            low, high = 0xFF7FFFFF, 0x7F7FFFFF
        if rng.random() < 0.08:
            share = rng.choice([1001, 1001, GREATEST])
        self.put(f"limits {parameter} {low:08X} {high:08X} {share}")

    def count(self) -> None:
        if self.size.counts > 0:
            self.size.counts -= 1
            self.put("count")

    def plan(self) -> None:
        rng, cells = self.rng, self.size.cells
        enough = cells + 1
        chance = rng.random()
        if self.size.plans == 0 and chance < 0.8:
            return
        if self.size.plans == 0 or chance < 0.06:
            work = rng.choice([enough - 1, enough - 1, rng.randint(0, cells), 0])
        elif chance < 0.6:
            work = enough
        elif chance < 0.99:
            work = enough + rng.randint(1, 9)
        else:
            work = 100_000
        work = min(work, 100_000)
        if work >= enough:
            self.size.plans -= 1
        most = cells // max(self.size.sheet, 1)  # sheets that the roll may give
        chance = rng.random()
        if chance < 0.72:
            ends = most + rng.choice([0, 0, 1, 2])
        elif chance < 0.8:
            ends = max(most - 1, 0)
        elif chance < 0.99:
            ends = rng.randint(0, most)
        else:
            ends = 100_000
        self.put(f"plan {work} {min(ends, 100_000)} {ranked(rng, rng.choice([0, 1, 2, 2]))}")

    def trial(self) -> None:
        self.put("end" if self.trial_stands else "trial")
        self.trial_stands = not self.trial_stands
        if self.trial_stands and self.rng.random() < 0.8:
            self.plain_limits(self.rng.randint(1, max(1, min(self.size.parameters, 8))))


def well_formed(rng: random.Random) -> list[str]:
    roll = rng.choices([roll for roll, _ in ROLLS], [weight for _, weight in ROLLS])[0]
    writer = Writer(rng, roll(rng))
    lines = writer.write()
    if rng.random() < 0.012:
        # About as many bars as a roll holds, or more, and the questions once more.
        cells = max(1, min(writer.size.cells, 32768))
        cell = rng.randint(1, cells)
        lines += [f"bar {cell} {cell}"] * 63
        for _ in range(rng.randint(1, 4)):
            writer.bar()
        writer.count()
        writer.plan()
    return lines


# Scripts that are not well formed: each function puts one fault into the lines.

BAD_NUMBERS = ["-1", "+1", "1.0", "x", "0x1", "1,000", "1e3", "4294967296", "99999999999999999999", "1" * 40, "#1"]
BAD_REALS = ["3f800000", "3F80000a", "3F80000", "3F8000000", "0x3F800000", "3F80000G", "1.5", "-3F80000", "NaN", "0", "F"]
BAD_CALLS = [
    "foo", "1", "Reading 1 0 3F800000", "readings", "COUNT", "counts", "places 5", "new 3 1 1", "places", "plans 1 1 tally",
    "recipe", "limit 1 3F800000 3F800000 0", "count# 1", "ladder", "//",
]
BAD_CRITERIA = [
    "", "single", "single -1", "single 4294967296", "single x", "single 1 2", "Ladder", "ladder ladder", "tally 1", "double 1",
    "ranked", "ranked ladder", "ranked ladder tally ladder", "ranked single ladder", "ranked single 1", "ranked 1 2",
    "ranked ranked ladder tally", "ranked tally ranked ladder", "ranked ranked ranked ladder tally ladder tally",
    "ranked ladder ranked ranked ladder tally ladder", "ranked ranked ladder ranked ladder tally ladder",
    "ranked ranked ladder tally ranked ladder tally ladder", "ranked ladder ranked ladder ranked ladder tally",
    "single1", "3",
]


def insert(rng: random.Random, lines: list[str], line: str) -> None:
    """Somewhere behind `places` and `new`."""
    lines.insert(rng.randint(min(2, len(lines)), len(lines)), line)


def bad_word(rng: random.Random, lines: list[str]) -> None:
    index = rng.choice([0, 1, *range(len(lines))])
    words = lines[index].split(" ")
    if len(words) > 1:
        place = rng.randrange(1, len(words))
        words[place] = rng.choice(BAD_REALS if len(words[place]) == 8 else BAD_NUMBERS)
    else:
        words.append(rng.choice(["1", "x", "#"]))
    lines[index] = " ".join(words)


def bad_real(rng: random.Random, lines: list[str]) -> None:
    bad = rng.choice(BAD_REALS)
    good = "3F800000"
    line = rng.choice([f"reading 1 0 {bad}", f"limits 1 {bad} {good} 0", f"limits 1 {good} {bad} 0", f"limits 1 {bad} {bad} 0"])
    insert(rng, lines, line)


def word_too_many(rng: random.Random, lines: list[str]) -> None:
    index = rng.choice([0, 1, *range(len(lines))])
    lines[index] += " " + rng.choice(["1", "0", "count", "ladder", "x", "#", "3F800000"])


def word_too_few(rng: random.Random, lines: list[str]) -> None:
    index = rng.choice([0, 1, *range(len(lines))])
    words = lines[index].split(" ")
    if len(words) > 1:
        del words[rng.randrange(len(words))]
    else:
        words = ["limits", "1"]
    lines[index] = " ".join(words)


def bad_call(rng: random.Random, lines: list[str]) -> None:
    if rng.random() < 0.2:
        lines[rng.randrange(len(lines))] = rng.choice(BAD_CALLS)
    else:
        insert(rng, lines, rng.choice(BAD_CALLS))


def bad_criterion(rng: random.Random, lines: list[str]) -> None:
    insert(rng, lines, f"plan {rng.randint(0, 20)} {rng.randint(0, 20)} {rng.choice(BAD_CRITERIA)}")


def bad_size(rng: random.Random, lines: list[str]) -> None:
    size = rng.choice([100_001, 100_001, 1_000_000, GREATEST])
    chance = rng.randrange(3)
    if chance == 0:
        lines[0] = f"places {size}"
    else:
        insert(rng, lines, f"plan {size} 3 tally" if chance == 1 else f"plan 3 {size} tally")


def bad_beginning(rng: random.Random, lines: list[str]) -> None:
    chance = rng.randrange(5)
    if chance == 0:
        del lines[0]
    elif chance == 1:
        del lines[1]
    elif chance == 2:
        lines[0], lines[1] = lines[1], lines[0]
    elif chance == 3:
        del lines[:2]
    else:
        lines.insert(rng.randint(0, 1), rng.choice(["count", "places 3", "trial", "end", "x"]))


def bad_end(rng: random.Random, lines: list[str]) -> None:
    """Ends too soon."""
    chance = rng.randrange(4)
    if chance == 0:
        lines.clear()
    elif chance == 1:
        lines[:] = ["# " + line for line in lines[: rng.randint(1, 4)]]
    elif chance == 2:
        del lines[1:]
    else:
        lines[1:] = ["#", "# new 3 1 1"]


def bad_trial(rng: random.Random, lines: list[str]) -> None:
    chance = rng.randrange(7)
    if chance == 0:
        lines += ["trial", *["count"] * rng.randint(0, 3), "trial"]
    elif chance == 1:
        lines += ["trial", *["count"] * rng.randint(0, 3), "trial", "end", "end"]
    elif chance == 2:
        lines += ["trial", *["count"] * rng.randint(0, 3)]
    elif chance == 3:
        lines += [*["count"] * rng.randint(0, 3), "end"]
    elif chance == 4:
        insert(rng, lines, rng.choice(["trial", "end"]))
    elif chance == 5:
        lines += rng.choice([["end 1"], ["end end"]])
    else:
        lines += rng.choice([["trial", "trial 1"], ["trial", "trial trial"], ["trial", "end end"]])


def bad_space(rng: random.Random, lines: list[str]) -> None:
    """Only spaces separate words, and only byte 10 ends a line."""
    index = rng.randrange(len(lines))
    odd = rng.choice(["\t", "\r", "\f", "\v"])
    line = lines[index]
    lines[index] = rng.choice(
        [line + odd, odd + line, line.replace(" ", odd), line + odd + "count", line + " " + odd, odd + "# " + line]
    )


FAULTS = [
    bad_word, bad_word, bad_real, word_too_many, word_too_few, bad_call, bad_call,
    bad_criterion, bad_criterion, bad_size, bad_beginning, bad_end, bad_trial, bad_trial, bad_space,
]


def not_well_formed(rng: random.Random) -> list[str]:
    lines = well_formed(rng)
    rng.choice(FAULTS)(rng, lines)
    if len(lines) > 2 and rng.random() < 0.25:
        rng.choice(FAULTS)(rng, lines)
    return lines


# The look of a script: spaces, lines without a call, and the last line's end.


def with_spaces(rng: random.Random, line: str) -> str:
    words = line.split(" ")
    spaced = words[0] + "".join(" " * rng.choice([1, 1, 1, 2, 5]) + word for word in words[1:])
    return " " * rng.choice([0, 0, 1, 4]) + spaced + " " * rng.choice([0, 0, 0, 1, 3])


def with_zeros(rng: random.Random, line: str) -> str:
    """Whole numbers may begin with zeros."""
    words = line.split(" ")
    for place in range(1, len(words)):
        if words[place].isdigit() and len(words[place]) < 8 and rng.random() < 0.2:
            words[place] = "0" * rng.choice([1, 2, 15]) + words[place]
            if len(words[place]) == 8:
                words[place] = "0" + words[place]  # not to look like a REAL
    return " ".join(words)


PASSED_OVER = ["", "", " ", "     ", "#", "# a comment", "  # places 3", "#count", "##", "# end", "# trial", "# \u00e9\u2026 \t"]


def looks(rng: random.Random, lines: list[str]) -> str:
    if rng.random() < 0.1:
        lines = [with_zeros(rng, line) for line in lines]
    if rng.random() < 0.3:
        lines = [with_spaces(rng, line) if rng.random() < 0.5 else line for line in lines]
    if rng.random() < 0.3:
        often = rng.choice([0.05, 0.3])
        spread = []
        for line in lines:
            while rng.random() < often:
                spread.append(rng.choice(PASSED_OVER))
            spread.append(line)
        while rng.random() < 0.3:
            spread.append(rng.choice(PASSED_OVER))
        lines = spread
    text = "".join(line + "\n" for line in lines)
    return text[:-1] if rng.random() < 0.1 else text


# Scripts that are the same for every seed: the worked examples, a roll full of readings, and every kind of fault.


def worked_examples() -> list[list[str]]:
    one, middle, two, three = "3F800000", "3FC00000", "40000000", "40400000"
    sample = [
        "places 8", "new 10 3 1", f"limits 1 {one} {two} 400",
        f"reading 1 0 {middle}", f"reading 1 4 {three}", f"reading 1 7 {middle}",
        "count", "plan 11 2 single 1", "plan 10 2 single 1", "plan 11 1 single 1", "bar 9 9", "count", "plan 11 2 single 1",
    ]
    three_cells = [
        "places 4", "new 3 2 2", f"limits 1 {one} {two} 500", f"limits 2 {one} {two} 500",
        f"reading 1 0 {three}", f"reading 1 1 {middle}", f"reading 2 1 {middle}", f"reading 2 3 {three}",
        "count", "plan 4 1 ladder", "plan 4 1 tally", "plan 4 1 ranked tally ladder",
    ]
    scripts = [sample, three_cells]
    for cells in (3, 2):
        scripts.append(
            ["places 1", f"new {cells} 3 1", f"limits 1 {one} {two} 0", f"reading 1 0 {one}", "count", "plan 4 1 ladder"]
        )
    # The first `outliers` cells of one sheet, and its share.
    for sheet, outliers, share in (
        (20, 1, 50), (19, 1, 50), (19, 1, 52), (19, 1, 53),
        (1000, 0, 1000), (1000, 1, 1000), (1000, 20, 1000), (1000, 21, 1000), (1000, 50, 1000), (1000, 51, 1000),
    ):
        readings = [f"reading 1 0 {three}", f"reading 1 {2 * outliers - 1} {one}"] if outliers else [f"reading 1 0 {one}"]
        scripts.append(
            ["places 2", f"new {sheet} {sheet} 1", f"limits 1 {one} {two} {share}", *readings]
            + ["count", f"plan {sheet + 1} 1 ranked tally single 1"]
        )
    return scripts


def full_roll() -> list[str]:
    lines = ["places 100000", "new 32768 1 3"]
    lines += [f"reading {parameter} {position} 3F800000" for position in range(21846) for parameter in (1, 2, 3)]
    return lines + ["withdraw 2", "reading 1 30000 3F800000", "reading 1 30001 3F800000", "count"]


def faults() -> list[list[str]]:
    begun = ["places 3", "new 3 1 1"]
    off = list(BAD_CALLS)
    off += [f"plan 4 3 {criterion}" for criterion in BAD_CRITERIA]
    for bad in BAD_REALS:
        off += [f"reading 1 0 {bad}", f"limits 1 {bad} 3F800000 0", f"limits 1 3F800000 {bad} 0"]
    for bad in [*BAD_NUMBERS, ""]:
        off += [f"reading {bad} 0 3F800000", f"reading 1 {bad} 3F800000", f"withdraw {bad}", f"bar {bad} 1", f"bar 1 {bad}"]
        off += [f"limits {bad} 3F800000 3F800000 0", f"limits 1 3F800000 3F800000 {bad}"]
        off += [f"plan {bad} 3 tally", f"plan 4 {bad} tally", f"plan 4 3 single {bad}"]
    for size in (100_001, GREATEST):
        off += [f"plan {size} 3 tally", f"plan 4 {size} tally"]
    for call in ("reading 1 0 3F800000", "withdraw 1", "bar 1 1", "limits 1 3F800000 3F800000 0", "count", "plan 4 3 tally"):
        off += [call + " 1", call + " #"] + [call + odd for odd in "\t\r\f\v"]
    off += ["trial 1", "end", "end 1"]
    scripts = [[*begun, line, "count"] for line in off]
    scripts += [[*begun, "trial", line, "end"] for line in ("trial", "trial 1", "end 1")]
    scripts += [[*begun, "trial"], [*begun, "trial", "", "# end"], ["places 3", "new 0 1 1", "count 1"]]
    scripts += [[], [""], ["#"], ["# places 3", " ", "#"], ["places 3"], ["places 3", "", "# new 3 1 1"]]
    scripts += [["new 3 1 1", "places 3"], ["places 3", "places 3"], ["count"], ["places 3", "count"], ["x"], ["places 3", "x"]]
    for bad in [*BAD_NUMBERS, "", "3 3", "100001", "4294967295"]:
        scripts += [[f"places {bad}", begun[1]]]
    for bad in [*BAD_NUMBERS, ""]:
        scripts += [[begun[0], f"new {bad} 1 1"], [begun[0], f"new 3 {bad} 1"], [begun[0], f"new 3 1 {bad}"]]
    return scripts + [[begun[0], "new 3 1 1 1"]]


def fixed_scripts() -> list[str]:
    scripts = [*worked_examples(), full_roll(), *faults()]
    return ["".join(line + "\n" for line in lines) for lines in scripts]


FIXED = fixed_scripts()


def script(seed: int, index: int) -> str:
    """The script of a seed at an index."""
    if index % 2 == 0 and index // 2 < len(FIXED):
        return FIXED[index // 2]
    rng = random.Random(f"{seed} {index}")
    lines = not_well_formed(rng) if rng.random() < 0.05 else well_formed(rng)
    return looks(rng, lines)


# The comparison.

KINDS = ["accepted", *(f"refused {number}" for number in range(1, 17)), "counts", "plans", "lines off"]


def kind(answer: str) -> str:
    words = answer.split(" ")
    if words[0] == "refused":
        return f"refused {words[1]}"
    if words[0] == "sheets":
        return "counts" if words[2] == "looks" else "plans"
    return "lines off" if words[0] == "line" else words[0]


def load_reference():
    sys.dont_write_bytecode = True
    spec = importlib.util.spec_from_file_location("reference_foilcalls", REFERENCE)
    module = importlib.util.module_from_spec(spec)
    sys.modules[spec.name] = module
    spec.loader.exec_module(module)
    return module


def run_program(text: str) -> tuple[bytes, str]:
    """What the program prints, and how it ends: nothing to say, or what is amiss."""
    try:
        done = subprocess.run([PROGRAM], input=text.encode(), stdout=subprocess.PIPE, timeout=SECONDS)
    except subprocess.TimeoutExpired as late:
        return late.stdout or b"", f"no end within {SECONDS} seconds"
    return done.stdout, f"status {done.returncode}" if done.returncode != 0 else ""


def show_difference(seed: int, index: int, text: str, found: bytes, expected: bytes, amiss: str) -> None:
    print(f"difference at seed {seed}, script {index}")
    print("--- script")
    print(text, end="" if text.endswith("\n") else "\n")
    print(f"--- {PROGRAM.relative_to(TOP)}" + (f" ({amiss})" if amiss else ""))
    print(found.decode("utf-8", "backslashreplace"), end="")
    print(f"--- {REFERENCE.relative_to(TOP)}")
    print(expected.decode(), end="")
    theirs, ours = found.split(b"\n"), expected.split(b"\n")
    for number, (one, other) in enumerate(zip(theirs, ours), 1):
        if one != other:
            print(f"--- first different line of the answers: {number}")
            break


def main(arguments: list[str]) -> int:
    try:
        scripts, seed = (int(word) for word in (arguments + ["20000", "1"][len(arguments) :]))
    except ValueError:
        print("usage: calls.py [SCRIPTS [SEED]]", file=sys.stderr)
        return 2
    for path in (PROGRAM, REFERENCE):
        if not path.is_file():
            print(f"calls.py: {path} is not there", file=sys.stderr)
            return 2
    reference = load_reference()
    kinds: Counter[str] = Counter()
    for index in range(scripts):
        text = script(seed, index)
        expected = reference.answers(text).encode()
        found, amiss = run_program(text)
        if found != expected or amiss:
            show_difference(seed, index, text, found, expected, amiss)
            return 1
        kinds.update(kind(answer) for answer in expected.decode().splitlines())
    print(f"{scripts} scripts compared, {kinds.total()} answers, no difference")
    print(", ".join(f"{name}: {kinds[name]}" for name in KINDS))
    return 0


if __name__ == "__main__":
    sys.exit(main(sys.argv[1:]))
