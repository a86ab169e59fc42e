# The picture's horizontal axis: the place of a probability on a linear or a logarithmic scale, and its ticks.
# Lengths are in hundredths of a pixel.
import collections
import decimal
from fractions import Fraction

from desk.refusal import UNIT
from desk.shown.tables import columns, probability

LEFT, RIGHT = 7600, 67000
# The room beside the band on a logarithmic axis. Where 0 stands at the left edge, so far off it come the break of the
# axis, the first tick, which leaves room for the label 0, and the smallest positive probability.
ROOM, BREAK, TICKS_FROM_ZERO, ROOM_FROM_ZERO = 2400, 3000, 5600, 8000
# A decade of at least this length has a tick for each digit.
LONG_DECADE = 12000
LABEL_SIZE, LABEL_GAP = 1200, 800

STEPS = sorted(digits * 10 ** zeros for digits in (1, 2, 5, 25) for zeros in range(10) if digits * 10 ** zeros <= UNIT)
# Correctly rounded, and so alike everywhere, as the logarithms of a machine are not.
PRECISE = decimal.Context(prec=28)

# A probability on the axis: its place, and its label, "" for none.
Tick = collections.namedtuple("Tick", "place label")


def scale_of(levels):
    """Logarithmic where the band spans a decade or more, else linear."""
    positive = [end.value for end in ends(levels) if end.value > 0]
    low, high = levels.levels[-1].lower.value, levels.levels[-1].upper.value
    if positive and high >= 10 * min(positive):
        return Logarithmic(min(positive), high, low == 0)
    return Linear(low, high)


def ends(levels):
    return [end for level in levels.levels for end in (level.lower, level.upper)]


class Linear:
    """From one probability to another in round steps."""

    name = "linear"
    axis_title = "probability of the top event"
    broken = False

    def __init__(self, low, high):
        self.first, self.last = linear_range(low, high)
        self.step = linear_step(self.first, self.last)
        # With fewer than four ticks the axis goes on to the next tick on both sides.
        if len(self.values()) < 4:
            self.first -= self.first % self.step
            self.last += -self.last % self.step
        self.ticks = [Tick(self.place(value), step_label(value, self.step)) for value in self.values()]

    def place(self, value):
        return LEFT + Fraction((value - self.first) * (RIGHT - LEFT), self.last - self.first)

    def values(self):
        return range(self.first + -self.first % self.step, self.last + 1, self.step)


def linear_range(low, high):
    """Both ends of a linear axis: room beside the band, from 0 where that is near, and three billionths or more."""
    if low == high:
        wanted = 5 * low // 4 if low else UNIT
        return 0, next(step for step in STEPS if step >= min(UNIT, max(4, wanted)))
    room = max(1, (high - low) // 20)
    first = max(0, low - room) if low > (high - low) // 4 else 0
    last = min(UNIT, high + room)
    return max(0, min(first, last - 3)), min(UNIT, max(last, first + 3))


def linear_step(first, last):
    """The smallest round step that makes at most nine ticks, whose labels stand apart."""
    def suits(step):
        wanted = text_width(step_label(last, step), LABEL_SIZE) + LABEL_GAP
        return last // step - (first - 1) // step <= 9 and wanted * (last - first) <= step * (RIGHT - LEFT)
    return next(filter(suits, STEPS))


def step_label(value, step):
    """A probability with the digits that multiples of the step need; 0 has none after the point."""
    zeros = len(str(step)) - len(str(step).rstrip("0"))
    return probability(value)[:11 - zeros] if value else "0"


class Logarithmic:
    """From the smallest positive probability to the largest by decades; 0 stands at the left edge, past a break."""

    name = "logarithmic"
    axis_title = "probability of the top event (logarithmic)"

    def __init__(self, smallest, largest, broken):
        self.broken = broken
        self.start = LEFT + (ROOM_FROM_ZERO if broken else ROOM)
        self.first = LEFT + TICKS_FROM_ZERO if broken else LEFT
        self.low = logarithm(smallest)
        self.decade = (RIGHT - ROOM - self.start) / (logarithm(largest) - self.low)
        # The axis does not go beyond 1.
        if self.place(UNIT) < RIGHT:
            self.decade = (RIGHT - self.start) / (logarithm(UNIT) - self.low)
        labelled = self.labelled()
        self.ticks = sorted(labelled + self.bare([tick.place for tick in labelled]))

    def place(self, value):
        return self.start + (logarithm(value) - self.low) * self.decade if value else Fraction(LEFT)

    def labelled(self):
        """The ticks of 0 and the decades, and of 2 and 5 between them, as many as stand apart."""
        zero = [Tick(self.place(0), "0")] if self.broken else []
        # Every decade, or else every second one or third one up to 1.
        for stride in range(1, 10):
            chosen = zero + self.in_sight(10 ** zeros for zeros in range(9 % stride, 10, stride))
            if stand_apart(chosen):
                break
        for zeros in range(9) if stride == 1 else []:
            more = sorted(chosen + self.in_sight([2 * 10 ** zeros, 5 * 10 ** zeros]))
            chosen = more if stand_apart(more) else chosen
        return chosen

    def bare(self, taken):
        """The ticks without a label, at places that are not taken."""
        digits = range(1, 10) if self.decade >= LONG_DECADE else (1, 2, 5)
        ticks = self.in_sight(digit * 10 ** zeros for zeros in range(10) for digit in digits)
        return [Tick(tick.place, "") for tick in ticks if tick.place not in taken]

    def in_sight(self, values):
        """The ticks of the values that stand on the axis."""
        ticks = [Tick(self.place(value), probability(value).rstrip("0").rstrip(".")) for value in values]
        return [tick for tick in ticks if self.first <= tick.place <= RIGHT]


def logarithm(value):
    return Fraction(PRECISE.log10(value))


def stand_apart(ticks):
    """Whether no label comes near the next one, by an estimate of their widths."""
    return all(text_width(one.label + other.label, LABEL_SIZE) + 2 * LABEL_GAP <= 2 * (other.place - one.place)
               for one, other in zip(ticks, ticks[1:]))


def text_width(text, size):
    """An estimate for a wide sans-serif font."""
    return sum(size * character_width(character) // 100 for character in text)


def character_width(character):
    """In hundredths of the size of the letters."""
    if columns(character) != 1:
        return 50 * columns(character)
    if character in "ijl.,:;'|!":
        return 38
    return 110 if character in "mwMW@%…—" else 84 if character.isupper() else 68
