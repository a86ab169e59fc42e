# The top event's fuzzy number as a picture: an SVG document, the same to the byte on every machine.
# Lengths are in hundredths of a pixel. Lower ends are rounded to the left and upper ends to the right, so that what is
# drawn holds every interval.
import math
from xml.sax.saxutils import escape

from desk.refusal import UNIT
from desk.shown.scale import BREAK, LABEL_SIZE, LEFT, RIGHT, ends, scale_of, step_label, text_width
from desk.shown.tables import one_line, probability

WIDTH, HEIGHT, MARGIN = 72000, 48000, 2400
BOTTOM = 37200
TITLE_SIZE, TITLE_LINE, FIRST_LINE = 1800, 2300, 3300
LEGEND_LINES = 43900, 46000
# With more levels than this, dots at all ends would only be a thicker outline.
MOST_DOTTED_LEVELS = 100
INK, GREY, GRID, LINE, FILL, DOT = "#1a1a1a", "#4d4d4d", "#dedede", "#1f4e79", "#bcd4ea", "#b34700"
# The grid shows through the band.
CLEAR = "0.75"


def picture(levels, title):
    """The document: up to each level the interval of the level below it, which is the wider one."""
    title = one_line(title or "").strip() or "top event"
    lines = title_lines(title)
    top = 9400 + TITLE_LINE * (len(lines) - 1)
    scale = scale_of(levels)
    return "\n".join([
        *opening(levels, title, scale), *heading(levels, lines), *grid(levels, scale, top), *band(levels, scale, top),
        *dots(levels, scale, top), *axis_lines(levels, scale, top), *axis_words(levels, scale, top), *legend(levels),
        "</svg>", ""])


def title_lines(title):
    """The title on one line or two, cut with an ellipsis where it is longer; the document's own title is whole."""
    first = fitting(title)
    if first == title:
        return [title]
    if " " in first and title[len(first)] != " ":
        first = first[:first.rindex(" ")]
    rest = title[len(first):].lstrip()
    if fitting(rest) != rest:
        rest = fitting(rest, "…").rstrip() + "…"
    return [first.rstrip(), rest]


def fitting(text, ending=""):
    """The longest beginning of a text that has room on a line with an ending; accents take none, and stay."""
    room = WIDTH - 2 * MARGIN - text_width(ending, TITLE_SIZE)
    end = 0
    while end < len(text) and room >= text_width(text[end], TITLE_SIZE):
        room -= text_width(text[end], TITLE_SIZE)
        end += 1
    return text[:end]


def px(hundredths):
    return f"{hundredths // 100}.{hundredths % 100:02d}"


def start_tag(name, **attributes):
    words = "".join(f' {key.rstrip("_").replace("_", "-")}="{value}"' for key, value in attributes.items())
    return f"<{name}{words}>"


def element(name, content="", **attributes):
    return f"{start_tag(name, **attributes)}{content}</{name}>"


def words_at(x, y, text, **attributes):
    return element("text", escape(text), x=px(x), y=px(y), **attributes)


def line(x1, y1, x2, y2, **attributes):
    return element("line", x1=px(x1), y1=px(y1), x2=px(x2), y2=px(y2), **attributes)


def height_of(k, n, top):
    """Where level k of n stands."""
    return BOTTOM - (2 * k * (BOTTOM - top) + n) // (2 * n)


def left_of(level, scale):
    return math.floor(scale.place(level.lower.value))


def right_of(level, scale):
    return math.ceil(scale.place(level.upper.value))


def interval_words(level):
    return f"level {level.k}: {probability(level.lower.value)} to {probability(level.upper.value)}"


def tree_words(levels):
    events = f"{levels.events} basic event{'' if levels.events == 1 else 's'}"
    return f"tree {levels.number}, {events}, {levels.n} level{'' if levels.n == 1 else 's'}"


def ends_words(levels):
    return f"{interval_words(levels.levels[0])}; {interval_words(levels.levels[-1])}"


def opening(levels, title, scale):
    size = dict(width=WIDTH // 100, height=HEIGHT // 100, viewBox=f"0 0 {WIDTH // 100} {HEIGHT // 100}")
    yield '<?xml version="1.0" encoding="UTF-8"?>'
    yield start_tag("svg", xmlns="http://www.w3.org/2000/svg", version="1.1", **size, role="img",
                    font_family="sans-serif", font_size=px(LABEL_SIZE), fill=INK)
    yield element("title", escape(title))
    yield element("desc", f"The probability of the top event as a fuzzy number on a {scale.name} scale. "
                          f"{tree_words(levels)}; {ends_words(levels)}; {exactness(levels)}.")
    yield element("rect", width="100%", height="100%", fill="#ffffff")


def heading(levels, lines):
    for i, text in enumerate(lines):
        yield words_at(MARGIN, FIRST_LINE + TITLE_LINE * i, text, font_size=px(TITLE_SIZE), font_weight="bold")
    y = FIRST_LINE + TITLE_LINE * (len(lines) - 1)
    yield words_at(MARGIN, y + 2100, tree_words(levels), font_size="13", fill=GREY)
    yield words_at(MARGIN, y + 4000, ends_words(levels), font_size="13", fill=GREY)


def possibilities(levels, top):
    """The heights that have labels: such as are levels if some are, else fifths."""
    parts = next((parts for parts in (5, 4, 2) if levels.n % parts == 0), 5)
    return [(height_of(part, parts, top), step_label(part * UNIT // parts, UNIT // parts)) for part in range(parts + 1)]


def grid(levels, scale, top):
    yield start_tag("g", class_="grid", stroke=GRID)
    for place, label in scale.ticks:
        if label:
            yield line(round(place), top, round(place), BOTTOM)
    for y, _ in possibilities(levels, top):
        yield line(LEFT, y, RIGHT, y)
    yield "</g>"


def band(levels, scale, top):
    """The staircase, and the interval of level n as a bracket upon it."""
    left, right = [], []
    for level in reversed(levels.levels):
        for y in height_of(level.k, levels.n, top), height_of(min(level.k + 1, levels.n), levels.n, top):
            left.append((left_of(level, scale), y))
            right.append((right_of(level, scale), y))
    points = " ".join(f"{px(x)},{px(y)}" for x, y in left + right[::-1])
    yield element("polygon", class_="band", points=points, fill=FILL, fill_opacity=CLEAR, stroke=LINE,
                  stroke_width="1.5")
    yield bracket(left[-1][0], right[-1][0], top, class_="level-n")


def bracket(left, right, y, **attributes):
    path = f"M{px(left)} {px(y - 700)}V{px(y)}H{px(right)}V{px(y - 700)}"
    return element("path", d=path, fill="none", stroke=LINE, stroke_width="2", **attributes)


def is_dotted(levels):
    exact = [end.exact for end in ends(levels)]
    return any(exact) and (levels.n <= MOST_DOTTED_LEVELS or not all(exact))


def dots(levels, scale, top):
    """A dot for each exact end, at the height of its level."""
    if not is_dotted(levels):
        return
    radius = px(300 if levels.n <= 20 else 200 if levels.n <= MOST_DOTTED_LEVELS else 80)
    yield start_tag("g", class_="exact", fill=DOT)
    for level in levels.levels:
        for end, x in (level.lower, left_of(level, scale)), (level.upper, right_of(level, scale)):
            if end.exact:
                yield element("circle", cx=px(x), cy=px(height_of(level.k, levels.n, top)), r=radius)
    yield "</g>"


def exactness(levels):
    exact = [end.exact for end in ends(levels)]
    if not any(exact):
        return "no end is exact: each is rounded outward, to the safe side"
    if not all(exact):
        return "an end with a dot is exact, one without is rounded outward"
    undotted = "" if is_dotted(levels) else f" (no dots with more than {MOST_DOTTED_LEVELS} levels)"
    return f"every end is exact{undotted}"


def axis_lines(levels, scale, top):
    yield start_tag("g", class_="axes", stroke=GREY)
    yield line(LEFT, top, LEFT, BOTTOM)
    yield line(LEFT, BOTTOM, RIGHT, BOTTOM)
    for place, label in scale.ticks:
        yield line(round(place), BOTTOM, round(place), BOTTOM + (600 if label else 350))
    for y, _ in possibilities(levels, top):
        yield line(LEFT - 600, y, LEFT, y)
    if scale.broken:
        yield line(LEFT + BREAK - 300, BOTTOM, LEFT + BREAK + 300, BOTTOM, stroke="#ffffff", stroke_width="3")
        for x in LEFT + BREAK - 300, LEFT + BREAK + 300:
            yield line(x - 250, BOTTOM + 500, x + 250, BOTTOM - 500)
    yield "</g>"


def axis_words(levels, scale, top):
    yield start_tag("g", class_="probabilities", text_anchor="middle")
    for place, label in scale.ticks:
        if label:
            yield words_at(round(place), BOTTOM + 1900, label)
    yield "</g>"
    yield start_tag("g", class_="possibilities", text_anchor="end")
    for y, label in possibilities(levels, top):
        yield words_at(LEFT - 1000, y + 420, label)
    yield "</g>"
    yield words_at((LEFT + RIGHT) // 2, BOTTOM + 4000, f"{scale.axis_title}, reported to a billionth (0.000000001)",
                   font_size="13", text_anchor="middle")
    x, y = 3000, (top + BOTTOM) // 2
    yield words_at(x, y, f"possibility (level / {levels.n})", font_size="13", text_anchor="middle",
                   transform=f"rotate(-90 {px(x)} {px(y)})")


def legend(levels):
    first, second = LEGEND_LINES
    yield start_tag("g", class_="legend", font_size="11", fill=GREY)
    yield element("rect", x=px(LEFT), y=px(first - 900), width="18", height="11", fill=FILL, fill_opacity=CLEAR,
                  stroke=LINE)
    yield words_at(LEFT + 2600, first,
                   "between two levels: the interval of the lower one, so that the fuzzy number lies inside")
    yield bracket(LEFT, LEFT + 1800, second - 100)
    yield words_at(LEFT + 2600, second, f"interval of level {levels.n}")
    dot = LEFT + 18500
    if is_dotted(levels):
        yield element("circle", cx=px(dot), cy=px(second - 400), r="3", fill=DOT)
    yield words_at(dot + 900 if is_dotted(levels) else dot, second, exactness(levels))
    yield "</g>"
