"""The second hand of foilcalls: a script of calls in, its answers out.

Written from the documents alone (RULES, REFUSALS and the section foilcalls of
FORMATS), without sight of the main code, so that a difference between the two
programs shows a mistake in one of them. Plain and slow on purpose: every rule
stands here in its own words, and plans are found by trying all choices.

    python3 reference/foilcalls.py < SCRIPT
"""

from __future__ import annotations

import math
import re
import struct
import sys
from dataclasses import dataclass, field
from typing import Iterator

MOST_CELLS = 32_768
MOST_SHEET = 4_096
MOST_PARAMETERS = 8
MOST_READINGS = 65_536
MOST_BARS = 64
MOST_SHARE = 1_000
MOST_WHOLE = 4_294_967_295
MOST_SIZE = 100_000

# what separates words: the characters that Unicode calls white space
WHITE_SPACE = re.compile("[\t\v\f\r \x85\xa0\u1680\u2000-\u200a\u2028\u2029\u202f\u205f\u3000]+")


class Refused(Exception):
    """A call is refused, by its number, with the values told."""

    def __init__(self, number: int, *told: int):
        super().__init__(number, *told)
        self.number = number
        self.told = told


# Roll: what the accepted calls have recorded.


@dataclass(frozen=True)
class Reading:
    parameter: int
    position: int
    value: float


@dataclass(frozen=True)
class Bar:
    first: int
    last: int

    def covers(self, cell: int) -> bool:
        return self.first <= cell <= self.last


@dataclass
class Roll:
    """An idle roll over its places, until `new` has set its sizes."""

    places: int
    cells: int = 1
    sheet: int = 1
    parameters: int = 1
    readings: list[Reading] = field(default_factory=list)
    bars: list[Bar] = field(default_factory=list)

    def new(self, cells: int, sheet: int, parameters: int) -> None:
        if not 1 <= parameters <= MOST_PARAMETERS:
            raise Refused(1)
        if not 1 <= cells <= MOST_CELLS:
            raise Refused(2)
        if not 1 <= sheet <= MOST_SHEET:
            raise Refused(3)
        self.cells = cells
        self.sheet = sheet
        self.parameters = parameters
        self.readings = []
        self.bars = []

    def check_parameter(self, parameter: int) -> None:
        if not 1 <= parameter <= self.parameters:
            raise Refused(4)

    def latest(self, parameter: int) -> int | None:
        """The index of the latest reading of a parameter, or None."""
        for index in reversed(range(len(self.readings))):
            if self.readings[index].parameter == parameter:
                return index
        return None

    def reading(self, parameter: int, position: int, value: float) -> None:
        self.check_parameter(parameter)
        if position > self.cells:
            raise Refused(5)
        latest = self.latest(parameter)
        if latest is not None and position <= self.readings[latest].position:
            raise Refused(6)
        if len(self.readings) >= self.places or len(self.readings) >= MOST_READINGS:
            raise Refused(7)
        self.readings.append(Reading(parameter, position, value))

    def withdraw(self, parameter: int) -> None:
        self.check_parameter(parameter)
        latest = self.latest(parameter)
        if latest is None:
            raise Refused(8)
        del self.readings[latest]

    def bar(self, first: int, last: int) -> None:
        if first == 0 or last > self.cells or first > last:
            raise Refused(9)
        if len(self.bars) >= MOST_BARS:
            raise Refused(10)
        self.bars.append(Bar(first, last))

    def value(self, parameter: int, cell: int) -> float | None:
        """The value that serves a cell: that of the reading nearest to its middle, the earlier of two."""
        serving = None
        for reading in self.readings:
            if reading.parameter == parameter:
                distance = abs(2 * reading.position - (2 * cell - 1))
                rank = (distance, reading.position)
                if serving is None or rank < serving[0]:
                    serving = (rank, reading.value)
        return None if serving is None else serving[1]

    def barred(self, cell: int) -> bool:
        return any(bar.covers(cell) for bar in self.bars)


# Recipe.


@dataclass(frozen=True)
class Row:
    low: float
    high: float
    share: int

    def gives_limits(self) -> bool:
        return in_order(self.low, self.high) and self.share <= MOST_SHARE

    def outlier(self, value: float | None) -> bool:
        return value is None or math.isnan(value) or value < self.low or value > self.high


def in_order(low: float, high: float) -> bool:
    """Both limits are finite, and low is not above high."""
    return math.isfinite(low) and math.isfinite(high) and low <= high


def fresh_rows() -> list[Row]:
    return [Row(math.nan, math.nan, 0)] * MOST_PARAMETERS


@dataclass
class Recipe:
    rows: list[Row] = field(default_factory=fresh_rows)

    def row(self, parameter: int) -> Row:
        return self.rows[parameter - 1]

    def limits(self, parameter: int, low: float, high: float, share: int) -> None:
        if not 1 <= parameter <= MOST_PARAMETERS:
            raise Refused(11)
        if not in_order(low, high):
            raise Refused(12)
        if share > MOST_SHARE:
            raise Refused(13)
        self.rows[parameter - 1] = Row(low, high, share)


# Sheets: a roll judged by a recipe.


@dataclass(frozen=True)
class Sheet:
    end: int
    counts: tuple[int, ...]  # b(1) to b(8)
    good: bool


class Judged:
    """Every cell of a roll, judged once for a question."""

    def __init__(self, roll: Roll, recipe: Recipe):
        self.roll = roll
        self.shares = [recipe.row(i).share for i in range(1, roll.parameters + 1)]
        # The lists are by cell number; place 0 is no cell.
        self.outliers = [
            [False] + [recipe.row(i).outlier(roll.value(i, cell)) for cell in range(1, roll.cells + 1)]
            for i in range(1, roll.parameters + 1)
        ]
        self.barred = [False] + [roll.barred(cell) for cell in range(1, roll.cells + 1)]

    def sheet(self, end: int) -> Sheet:
        """The sheet that ends at `end`: it covers the cells end - l + 1 to end."""
        length = self.roll.sheet
        cells = slice(end - length + 1, end + 1)
        counts = [outliers[cells].count(True) for outliers in self.outliers]
        good = not any(self.barred[cells]) and all(
            1000 * count <= share * length for count, share in zip(counts, self.shares)
        )
        counts += [0] * (MOST_PARAMETERS - len(counts))
        return Sheet(end, tuple(counts), good)

    def good_sheets(self) -> list[Sheet]:
        sheets = [self.sheet(end) for end in range(self.roll.sheet, self.roll.cells + 1)]
        return [sheet for sheet in sheets if sheet.good]

    def excess(self, sheet: Sheet) -> int:
        """The greatest excess of outliers over what the share allows."""
        length = self.roll.sheet
        return max(count - share * length // 1000 for count, share in zip(sheet.counts, self.shares))


def check_limits(roll: Roll, recipe: Recipe) -> None:
    for parameter in range(1, roll.parameters + 1):
        if not recipe.row(parameter).gives_limits():
            raise Refused(14, parameter)


# Count.


def count(roll: Roll, recipe: Recipe) -> tuple[int, int]:
    """The sheets and the looks."""
    check_limits(roll, recipe)
    judged = Judged(roll, recipe)
    sheets = looks = 0
    end = roll.sheet
    while end <= roll.cells:
        looks += 1
        sheet = judged.sheet(end)
        if sheet.good:
            sheets += 1
            end += roll.sheet
        else:
            end += max(1, judged.excess(sheet))
    return sheets, looks


# Criteria. Each has `mark`, `nothing` (the total of no sheets), `add`,
# `compare` (below 0 for less, 0 for equal, above 0 for greater) and `numbers`
# (the total as it is printed).


def compare_in_turn(left, right) -> int:
    """Two lists of numbers as long as each other, by the first difference."""
    for one, other in zip(left, right):
        if one != other:
            return -1 if one < other else 1
    return 0


@dataclass(frozen=True)
class Single:
    parameter: int

    def mark(self, length: int, counts: tuple[int, ...]) -> int:
        k = self.parameter if 1 <= self.parameter <= MOST_PARAMETERS else 1
        return counts[k - 1]

    def nothing(self) -> int:
        return 0

    def add(self, total: int, mark: int) -> int:
        return total + mark

    def compare(self, left: int, right: int) -> int:
        return compare_in_turn([left], [right])

    def numbers(self, total: int) -> list[int]:
        return [total]


@dataclass(frozen=True)
class Ladder:
    def mark(self, length: int, counts: tuple[int, ...]) -> tuple[int, ...]:
        return counts

    def nothing(self) -> tuple[int, ...]:
        return (0,) * MOST_PARAMETERS

    def add(self, total: tuple[int, ...], mark: tuple[int, ...]) -> tuple[int, ...]:
        return tuple(one + other for one, other in zip(total, mark))

    def compare(self, left: tuple[int, ...], right: tuple[int, ...]) -> int:
        return compare_in_turn(left, right)

    def numbers(self, total: tuple[int, ...]) -> list[int]:
        return list(total)


@dataclass(frozen=True)
class Tally:
    """Totals hold the sheets of the classes A, B, C and D, in this order."""

    def mark(self, length: int, counts: tuple[int, ...]) -> str:
        worst = max(counts)
        if worst == 0:
            return "A"
        if 1000 * worst <= 20 * length:
            return "B"
        if 1000 * worst <= 50 * length:
            return "C"
        return "D"

    def nothing(self) -> tuple[int, ...]:
        return (0, 0, 0, 0)

    def add(self, total: tuple[int, ...], mark: str) -> tuple[int, ...]:
        return tuple(number + (name == mark) for number, name in zip(total, "ABCD"))

    def compare(self, left: tuple[int, ...], right: tuple[int, ...]) -> int:
        return compare_in_turn(left[::-1], right[::-1])

    def numbers(self, total: tuple[int, ...]) -> list[int]:
        return list(total)


@dataclass(frozen=True)
class Ranked:
    first: Criterion
    second: Criterion

    def mark(self, length: int, counts: tuple[int, ...]):
        return self.first.mark(length, counts), self.second.mark(length, counts)

    def nothing(self):
        return self.first.nothing(), self.second.nothing()

    def add(self, total, mark):
        return self.first.add(total[0], mark[0]), self.second.add(total[1], mark[1])

    def compare(self, left, right) -> int:
        order = self.first.compare(left[0], right[0])
        return order if order != 0 else self.second.compare(left[1], right[1])

    def numbers(self, total) -> list[int]:
        return self.first.numbers(total[0]) + self.second.numbers(total[1])


Criterion = Single | Ladder | Tally | Ranked


# Plan.


def choices(good: list[Sheet], length: int, choice: tuple[Sheet, ...] = ()) -> Iterator[tuple[Sheet, ...]]:
    """The choice itself, and every choice that goes on from it with sheets of `good`."""
    yield choice
    for index, sheet in enumerate(good):
        if not choice or sheet.end - choice[-1].end >= length:
            yield from choices(good[index + 1 :], length, choice + (sheet,))


def total_of(choice: tuple[Sheet, ...], length: int, criterion: Criterion):
    total = criterion.nothing()
    for sheet in choice:
        total = criterion.add(total, criterion.mark(length, sheet.counts))
    return total


def better(ends: list[int], total, best_ends: list[int], best_total, criterion: Criterion) -> bool:
    """More sheets; or as many and a lesser total; or an equal one and, from the last end backwards, an earlier end."""
    if len(ends) != len(best_ends):
        return len(ends) > len(best_ends)
    order = criterion.compare(total, best_total)
    if order == 0:
        order = compare_in_turn(ends[::-1], best_ends[::-1])
    return order < 0


def best_choice(good: list[Sheet], length: int, criterion: Criterion):
    """The best of all choices, as its ends and its total."""
    best_ends, best_total = [], criterion.nothing()
    for choice in choices(good, length):
        if len(choice) >= len(best_ends):
            ends = [sheet.end for sheet in choice]
            total = total_of(choice, length, criterion)
            if better(ends, total, best_ends, best_total, criterion):
                best_ends, best_total = ends, total
    return best_ends, best_total


def plan(roll: Roll, recipe: Recipe, work: int, places: int, criterion: Criterion):
    """The ends and the total of the best choice."""
    check_limits(roll, recipe)
    if work < roll.cells + 1:
        raise Refused(15)
    good = Judged(roll, recipe).good_sheets()
    ends, total = best_choice(good, roll.sheet, criterion)
    if len(ends) > places:
        raise Refused(16, len(ends))
    return ends, total


# The script: its lines read into calls.


class LineOff(Exception):
    """The script is not well formed: the first line that is off, and a message."""

    def __init__(self, number: int, message: str):
        super().__init__(number, message)
        self.number = number
        self.message = message


class NotOfThisForm(Exception):
    """A word is not what the form of its line asks for."""


FORM = {
    "places": "places N",
    "new": "new CELLS SHEET PARAMETERS",
    "reading": "reading PARAMETER POSITION VALUE",
    "withdraw": "withdraw PARAMETER",
    "bar": "bar FROM TO",
    "limits": "limits PARAMETER LOW HIGH SHARE",
    "count": "count",
    "plan": "plan WORK ENDS CRITERION",
    "trial": "trial",
    "end": "end",
}
SIZES = ("N", "WORK", "ENDS")
REALS = ("VALUE", "LOW", "HIGH")


@dataclass(frozen=True)
class Call:
    name: str
    arguments: list


def whole(word: str, most: int = MOST_WHOLE) -> int:
    """One or more decimal digits, of a value that is not above `most`."""
    if not word or any(letter not in "0123456789" for letter in word):
        raise NotOfThisForm
    digits = word.lstrip("0") or "0"
    if len(digits) > len(str(most)) or int(digits) > most:
        raise NotOfThisForm
    return int(digits)


def real(word: str) -> float:
    """The bit pattern of a REAL, in eight hexadecimal digits with capitals."""
    if len(word) != 8 or any(letter not in "0123456789ABCDEF" for letter in word):
        raise NotOfThisForm
    return struct.unpack(">f", bytes.fromhex(word))[0]


def read_criterion(words: list[str], ranks: int = 2) -> Criterion:
    """Takes one criterion off the front of `words`; `ranked` may nest `ranks` deep."""
    name = words.pop(0) if words else ""
    if name == "single" and words:
        return Single(whole(words.pop(0)))
    if name == "ladder":
        return Ladder()
    if name == "tally":
        return Tally()
    if name == "ranked" and ranks > 0:
        first = read_criterion(words, ranks - 1)
        second = read_criterion(words, ranks - 1)
        return Ranked(first, second)
    raise NotOfThisForm


def read_call(words: list[str], form: str) -> Call:
    """The call of a line that has the given form."""
    name, *fields = form.split(" ")
    words = list(words)
    if not words or words.pop(0) != name:
        raise NotOfThisForm
    arguments = []
    for kind in fields:
        if kind == "CRITERION":
            arguments.append(read_criterion(words))
            continue
        if not words:
            raise NotOfThisForm
        word = words.pop(0)
        if kind in SIZES:
            arguments.append(whole(word, MOST_SIZE))
        elif kind in REALS:
            arguments.append(real(word))
        else:
            arguments.append(whole(word))
    if words:
        raise NotOfThisForm
    return Call(name, arguments)


def numbered_lines(text: str) -> list[tuple[int, list[str]]]:
    """The words of each line, with its number."""
    lines = text.split("\n")
    if lines[-1] == "":
        lines.pop()  # nothing stands behind the last line's end
    return [(number, [word for word in WHITE_SPACE.split(line) if word]) for number, line in enumerate(lines, 1)]


def read_script(text: str) -> list[Call]:
    calls: list[Call] = []
    trial_stands = False
    behind = 1  # the line behind the last
    for number, words in numbered_lines(text):
        behind = number + 1
        if not words or words[0].startswith("#"):
            continue
        if len(calls) == 0:
            form = FORM["places"]
        elif len(calls) == 1:
            form = FORM["new"]
        elif words[0] in FORM and words[0] not in ("places", "new"):
            form = FORM[words[0]]
        else:
            raise LineOff(number, "no such call")
        try:
            call = read_call(words, form)
        except NotOfThisForm:
            raise LineOff(number, "expected " + form) from None
        if call.name == "trial":
            if trial_stands:
                raise LineOff(number, "a trial stands")
            trial_stands = True
        if call.name == "end":
            if not trial_stands:
                raise LineOff(number, "no trial stands")
            trial_stands = False
        calls.append(call)
    if len(calls) == 0:
        raise LineOff(behind, "expected " + FORM["places"])
    if len(calls) == 1:
        raise LineOff(behind, "expected " + FORM["new"])
    if trial_stands:
        raise LineOff(behind, "expected " + FORM["end"])
    return calls


# The answers.


@dataclass
class Desk:
    """A roll, its recipe, and the copy of the rows while a trial stands."""

    roll: Roll
    recipe: Recipe = field(default_factory=Recipe)
    laid_aside: list[Row] | None = None

    def answer(self, call: Call) -> str:
        try:
            return getattr(self, "on_" + call.name)(*call.arguments)
        except Refused as refused:
            return " ".join(str(word) for word in ("refused", refused.number, *refused.told))

    def on_new(self, cells: int, sheet: int, parameters: int) -> str:
        self.roll.new(cells, sheet, parameters)
        return "accepted"

    def on_reading(self, parameter: int, position: int, value: float) -> str:
        self.roll.reading(parameter, position, value)
        return "accepted"

    def on_withdraw(self, parameter: int) -> str:
        self.roll.withdraw(parameter)
        return "accepted"

    def on_bar(self, first: int, last: int) -> str:
        self.roll.bar(first, last)
        return "accepted"

    def on_limits(self, parameter: int, low: float, high: float, share: int) -> str:
        self.recipe.limits(parameter, low, high, share)
        return "accepted"

    def on_count(self) -> str:
        sheets, looks = count(self.roll, self.recipe)
        return f"sheets {sheets} looks {looks}"

    def on_plan(self, work: int, places: int, criterion: Criterion) -> str:
        ends, total = plan(self.roll, self.recipe, work, places, criterion)
        words = ["sheets", len(ends), "total", *criterion.numbers(total), "ends", *ends]
        return " ".join(str(word) for word in words)

    def on_trial(self) -> str:
        self.laid_aside = list(self.recipe.rows)
        return "accepted"

    def on_end(self) -> str:
        self.recipe.rows = self.laid_aside
        self.laid_aside = None
        return "accepted"


def answers(text: str) -> str:
    """The whole output for a script."""
    try:
        places, new, *others = read_script(text)
    except LineOff as off:
        return f"line {off.number}: {off.message}\n"
    desk = Desk(Roll(*places.arguments))
    lines = [desk.answer(new)]
    if lines[0] == "accepted":
        lines += [desk.answer(call) for call in others]
    return "".join(line + "\n" for line in lines)


def main() -> int:
    # A byte is a letter here; only ASCII letters mean anything.
    text = sys.stdin.buffer.read().decode("latin-1")
    sys.stdout.write(answers(text))
    return 0


if __name__ == "__main__":
    sys.exit(main())
