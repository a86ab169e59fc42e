# A figure of a sheet: a probability as a decimal or a fraction, taken exactly, never through a binary fraction.
import collections
import math
import re

from desk.refusal import MOST_DENOMINATOR, UNIT
from desk.text.cells import shown

# A decimal has its least denominator, a fraction the one that it is written with.
Figure = collections.namedtuple("Figure", "numerator denominator is_fraction")

FORMS = "a figure is a decimal, such as 0.1 or 1,5E-05, or a fraction of whole numbers, such as 3/1250"
RANGE = "a probability is from 0 to 1"
DENOMINATORS = f"a denominator is from 1 to {MOST_DENOMINATOR}"

DECIMAL = re.compile("(?=[.,]?[0-9])([0-9]*)(?:[.,]([0-9]+))?(?:[eE]([-+]?)([0-9]+))?")
FRACTION = re.compile("([0-9]+) ?/ ?([0-9]+)")
# What spreadsheets make of a fraction such as 1/12 in a cell that is not formatted as text.
DATE = re.compile(r"[0-9]{1,4}([-./])[0-9]{1,2}\1[0-9]{1,4}|[0-9]{1,2}[-. ]{1,2}[A-Za-z]{3,9}")

# The unit is a one with so many zeros.
UNIT_DIGITS = len(str(UNIT)) - 1
# Places are counted with an exponent of at most so many digits, never written out.
MOST_EXPONENT_DIGITS = 9


class NoFigure(Exception):
    """What was found in a cell in place of a figure, and what can be done."""

    def __init__(self, found, remedy):
        super().__init__(found, remedy)
        self.found, self.remedy = found, remedy


def begins_as_figure(text):
    return re.match("[-+\u2212]? ?[.,]?[0-9]", text) is not None


def read_figure(text):
    """The figure that a cell has; or NoFigure."""
    decimal, fraction = DECIMAL.fullmatch(text), FRACTION.fullmatch(text)
    if decimal:
        return decimal_figure(text, *decimal.groups(""))
    if fraction:
        return fraction_figure(text, *fraction.groups())
    if text.startswith(("-", "\u2212")):
        raise NoFigure(f"{shown(text)} has a minus sign", RANGE)
    if "%" in text:
        raise NoFigure(f"{shown(text)} has a percent sign", "write it as a decimal, 5% as 0.05")
    if DATE.fullmatch(text):
        raise NoFigure(f"{shown(text)} looks like a date",
                       "format the cell as text before a fraction such as 1/12 is written in it")
    raise NoFigure(f"{shown(text)} is not a figure", FORMS)


def decimal_figure(text, whole, decimals, sign, exponent):
    exponent = exponent.lstrip("0") or "0"
    if len(exponent) > MOST_EXPONENT_DIGITS:
        raise NoFigure(f"{shown(text)} has an exponent of {len(exponent)} digits", FORMS)
    # The value is its significant digits, with so many of them after the point.
    digits = (whole + decimals).rstrip("0")
    places = len(decimals) - int(sign + exponent) - (len(whole + decimals) - len(digits))
    digits = digits.lstrip("0")
    if not digits:
        return Figure(0, 1, False)
    before_point = len(digits) - places
    if before_point > 1 or before_point == 1 and digits != "1":
        raise NoFigure(f"{shown(text)} is above 1", RANGE)
    if places > UNIT_DIGITS:
        raise NoFigure(f"{shown(text)} has {places} digits after the point, and a sheet holds {UNIT_DIGITS}",
                       "write it as a fraction, or shorten it yourself: a low figure down, a high one up")
    billionths = int(digits) * 10 ** (UNIT_DIGITS - places)
    common = math.gcd(billionths, UNIT)
    return Figure(billionths // common, UNIT // common, False)


def fraction_figure(text, above, below):
    # The first eight digits of a longer number are above every bound too.
    numerator, denominator = (int(digits.lstrip("0")[:8] or "0") for digits in (above, below))
    if denominator == 0:
        raise NoFigure(f"{shown(text)} has the denominator 0", DENOMINATORS)
    if denominator > MOST_DENOMINATOR:
        raise NoFigure(f"{shown(text)} has a denominator above {MOST_DENOMINATOR}", DENOMINATORS)
    if numerator > denominator:
        raise NoFigure(f"{shown(text)} is above 1", RANGE)
    return Figure(numerator, denominator, True)


def decimal_text(billionths):
    whole, rest = divmod(billionths, UNIT)
    return f"{whole}.{rest:0{UNIT_DIGITS}}".rstrip("0").rstrip(".")
