"""A history as a picture in SVG: its numbers as lines over the steps, its leases as bars, its refusals as marks.

The scale has a row for each number that occurs, so that equal, below and above can be read off at any size. In a row
the frontier stands above the leases and the floors below them: a bar lies between the frontier and minimum readable
just where the version of its lease does."""
import collections
import html

Line = collections.namedtuple("Line", "name colour dashes")
VERSIONS = [Line("frontier", "#1565c0", "none"), Line("policy floor", "#e07b00", "8 3"),
            Line("minimum readable", "#1b7f2a", "none"), Line("collected-through", "#7b1fa2", "2 3")]
CLOCK = Line("clock", "#37474f", "none")
GREEN, LIGHT_GREEN, RED, LIGHT_RED, GREY, LIGHT_GREY = "#1b7f2a", "#d3efd5", "#c62828", "#f3c6c6", "#757575", "#e4e4e4"
LEFT, TOP, STEP, LINE, LANE, BAR = 64, 92, 28, 5, 15, 12
HEAD = 720  # the width of the samples at the top
CHAR = 7  # no less than the mean width of a char, so that words that are placed by it do not overlap


# Elements.

def element(name, content="", **attributes):
    words = "".join(f' {key.replace("_", "-")}="{value}"' for key, value in attributes.items())
    return f"<{name}{words}>{content}</{name}>"


def text(x, y, words, **attributes):
    return element("text", html.escape(words), x=x, y=y, **attributes)


def stroke(path, colour, width=1, dashes="none"):
    return element("path", d=path, stroke=colour, stroke_width=width, stroke_dasharray=dashes, fill="none")


def bar(x, y, width):
    return element("rect", x=x, y=y, width=width, height=BAR, fill=LIGHT_GREEN, stroke=GREEN, stroke_width=0.7)


def on_bar(x, y, words):
    """Words on the bar at a height, readable where a line crosses them."""
    return text(x, y + 10, words, font_size=10, paint_order="stroke", stroke=LIGHT_GREEN, stroke_width=2)


def mark(x, y, number):
    return element("circle", cx=x, cy=y, r=9, fill=RED) + text(
        x, y + 4, str(number), fill="white", text_anchor="middle", font_weight="bold")


def width_of(words):
    return CHAR * len(words)


def x_of(step):
    return LEFT + STEP * step


# Rows: the largest number stands at the top.

class Rows:
    def __init__(self, top, values, lines, lanes):
        """Rows for these values from a height downwards, each with its lanes between its first line and the others."""
        self.rows, self.bottom = {}, top
        for value in sorted(values, reverse=True):
            height = LINE * (lines + 2) + LANE * lanes.get(value, 0)
            self.rows[value] = self.bottom, height
            self.bottom += height
        self.lines = lines

    def middle(self, value):
        top, height = self.rows[value]
        return top + height // 2

    def line(self, value, number):
        """The first line stands at the top of its row, the others at the bottom."""
        top, height = self.rows[value]
        return top + height - LINE * (self.lines - number) if number else top + LINE

    def lane(self, value, number):
        return self.rows[value][0] + 2 * LINE + LANE * number

    def grid(self, unit, end):
        """The unit over the first row, a line under each, and its value."""
        yield text(LEFT - 8, min(self.rows.values())[0] - 4, unit, text_anchor="end", fill=GREY)
        for value, (top, height) in self.rows.items():
            yield stroke(f"M{LEFT} {top + height}H{end}", LIGHT_GREY)
            yield text(LEFT - 8, self.middle(value) + 4, str(value), text_anchor="end")


def staircase(heights, number, end):
    """A path that is at each height from its step on. Lines that rise at one step rise side by side."""
    places = [x_of(step) + 3 * number for step in range(len(heights))]
    rises = [f"H{x}V{new}" for x, old, new in zip(places[1:], heights, heights[1:]) if new != old]
    return f"M{LEFT} {heights[0]}" + "".join(rises) + f"H{end}"


def draw_lines(lines, columns, rows, end):
    for number, (line, values) in enumerate(zip(lines, columns)):
        heights = [rows.line(value, number) for value in values]
        yield stroke(staircase(heights, number, end), line.colour, 2, line.dashes)


def ending(lines, columns):
    """The lines that end at each value."""
    ends = collections.defaultdict(list)
    for line, values in zip(lines, columns):
        ends[values[-1]].append(line)
    return ends


def draw_ends(ends, rows, end):
    """Beside each row the names of the lines that end in it."""
    for value, lines in ends.items():
        names = [element("tspan", line.name, fill=line.colour) for line in lines]
        yield element("text", ", ".join(names), x=end + 8, y=rows.middle(value) + 4)


# Leases: what is written on a bar, and lanes in which no two bars, nor their words, overlap.

def words_on(lease):
    """The words on the bar of a lease and where each begins: its name with its first deadline, then each later one."""
    free, placed = 0, []
    for number, (step, deadline) in enumerate(lease.deadlines):
        words = f"→{deadline}" if number else f"{lease.name} →{deadline}"
        placed.append((max(free, x_of(step) + 3), words))
        free = placed[-1][0] + width_of(words)
    return placed, free


def end_of(lease, end):
    return end if lease.end is None else x_of(lease.end)


def laned(leases, end):
    """Each lease with its lane, and how many lanes each version has."""
    lanes, placed = collections.defaultdict(list), []
    for lease in leases:
        taken_to = lanes[lease.version]
        free = [number for number, x in enumerate(taken_to) if x <= x_of(lease.begin)]
        number = free[0] if free else len(taken_to)
        taken_to[number:number + 1] = [max(words_on(lease)[1], end_of(lease, end))]
        placed.append((lease, number))
    return placed, {version: len(taken_to) for version, taken_to in lanes.items()}


def draw_lease(lease, y, end):
    yield bar(x_of(lease.begin), y, end_of(lease, end) - x_of(lease.begin))
    for step, _ in lease.deadlines[1:]:
        yield stroke(f"M{x_of(step)} {y - 2}v{BAR + 4}", GREEN, 2)


# The parts of the picture, from its top to its bottom.

def head(title):
    """The title, and a sample of each line, of a bar and of a mark beside what it is."""
    yield text(LEFT, 22, title, font_weight="bold", font_size=14)
    yield text(LEFT + 370, 22, "a row for each number that occurs, not to scale", fill=GREY)
    x = LEFT
    for line in [*VERSIONS, CLOCK]:
        yield stroke(f"M{x} 40h24", line.colour, 2, line.dashes)
        yield text(x + 30, 44, line.name)
        x += 42 + width_of(line.name)
    yield bar(LEFT, 54, 44)
    yield on_bar(LEFT + 4, 54, "id →9")
    yield text(LEFT + 52, 64, "a lease, at its version, and the tick that ends it")
    yield mark(LEFT + 370, 60, 11)
    yield text(LEFT + 386, 64, "refused, by its number")


def draw_steps(labels, refusals, bottom):
    """For each step a line down, its number, and what it asks; in red where it is refused."""
    for step, label in enumerate(labels, 1):
        colour, light = (RED, LIGHT_RED) if step in refusals else ("black", LIGHT_GREY)
        x = x_of(step)
        yield stroke(f"M{x} {TOP}V{bottom}", light)
        yield text(x, bottom + 14, str(step), text_anchor="middle", fill=colour)
        turn = f"translate({x + 4} {bottom + 22}) rotate(-90)"
        yield text(0, 0, label, text_anchor="end", fill=colour, transform=turn)


def picture(title, labels, moments, refusals, leases):
    """The picture of a history: what each step asks, the five numbers at the start and after each step, the number of
    each step that is refused, and the leases, each with name, version, begin, end (or None) and deadlines."""
    *versions, clock = zip(*moments)
    end = max([x_of(len(labels)) + STEP // 2, *(words_on(lease)[1] for lease in leases)])
    placed, lanes = laned(leases, end)
    rows = Rows(TOP, set().union(lanes, *versions), len(VERSIONS), lanes)
    refused = rows.bottom + 16
    ticks = Rows(refused + 28, set(clock), 1, {})
    ends = ending(VERSIONS, versions)
    bars = [(lease, rows.lane(lease.version, number)) for lease, number in placed]
    parts = [
        *head(title), *draw_steps(labels, refusals, ticks.bottom), *rows.grid("version", end), *ticks.grid("tick", end),
        *(part for lease, y in bars for part in draw_lease(lease, y, end)),
        *draw_lines(VERSIONS, versions, rows, end), *draw_lines([CLOCK], [clock], ticks, end),
        *(on_bar(x, y, words) for lease, y in bars for x, words in words_on(lease)[0]),
        text(LEFT - 8, refused + 4, "refused", text_anchor="end", fill=RED),
        *(mark(x_of(step), refused, number) for step, number in refusals.items()),
        *draw_ends(ends, rows, end), *draw_ends(ending([CLOCK], [clock]), ticks, end)]
    left = min(0, LEFT - 16 - max(width_of(str(value)) for value in {*rows.rows, *ticks.rows}))
    right = max(HEAD, end + 16 + max(width_of(", ".join(line.name for line in lines)) for lines in ends.values()))
    width, height = right - left, ticks.bottom + 30 + max(map(width_of, labels), default=0)
    parts = ["", element("rect", x=left, width=width, height=height, fill="white"), *parts, ""]
    return element("svg", "\n".join(parts), xmlns="http://www.w3.org/2000/svg", width=width, height=height,
                   viewBox=f"{left} 0 {width} {height}", font_family="sans-serif", font_size=11) + "\n"
