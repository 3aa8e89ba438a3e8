"""The plot of the gap and of processor seconds against the number of tasks, as an SVG."""
import math
import statistics

# Of each kind of ships the colour, the mark, and what the legend says.
KINDS = {
    "made": ("#2171b5", "circle", "made: cranes side by side at the bow"),
    "vessel": ("#e6550d", "square", "vessel: most work amidships"),
    "full": ("#238b45", "diamond", "full: 6,000 to 50,000 moves"),
    "kim": ("#756bb1", "triangle", "kim: one task a hatch"),
}
COMMANDS = {"plan": "plan: plans that go one way", "free": "free: plans in any direction"}
COLUMNS = {"plan": (90, 540), "free": (620, 1070)}  # the left and the right edge of each
GAPS, ZERO, TIMES = (190, 410), (410, 466), (520, 760)  # upper and lower edges
INK, PALE, GRID = "#333333", "#666666", "#dddddd"


class Scale:
    """A scale of logarithms: where a number stands between two pixels."""

    def __init__(self, least, most, first, last):
        self.least, self.most, self.first, self.last = least, most, first, last

    def at(self, value):
        part = math.log(max(value, self.least) / self.least) / math.log(self.most / self.least)
        return self.first + part * (self.last - self.first)

    def ticks(self, steps):
        """The numbers on it that are one of these steps times a power of ten."""
        powers = range(math.floor(math.log10(self.least)), math.ceil(math.log10(self.most)) + 1)
        tried = [step * 10.0 ** power for power in powers for step in steps]
        return [value for value in tried if self.least * 0.999 <= value <= self.most * 1.001]


def around(values, first, last):
    """A scale on which all values lie, from a power of ten to one, two or five times one."""
    least = 10.0 ** math.floor(math.log10(min(values)))
    power = 10.0 ** math.floor(math.log10(max(values)))
    return Scale(least, next(step * power for step in (1, 2, 5, 10) if step * power >= max(values)), first, last)


def line(x1, y1, x2, y2, colour=GRID, width=1.0):
    return f'<line x1="{x1:.1f}" y1="{y1:.1f}" x2="{x2:.1f}" y2="{y2:.1f}" stroke="{colour}" stroke-width="{width}"/>'


def words(x, y, text, anchor="start", size=13, colour=INK, more=""):
    return (f'<text x="{x:.1f}" y="{y:.1f}" font-size="{size}" fill="{colour}" text-anchor="{anchor}"{more}>{text}'
            "</text>")


def mark(kind, x, y, is_filled, title=""):
    """The mark of a kind of ships, filled or hollow, with words under the mouse."""
    colour, shape, _ = KINDS[kind]
    look = f'fill="{colour if is_filled else "#ffffff"}" fill-opacity="0.75" stroke="{colour}" stroke-width="1.4"'
    title = f"<title>{title}</title>" if title else ""
    if shape == "circle":
        return f'<circle cx="{x:.1f}" cy="{y:.1f}" r="4.2" {look}>{title}</circle>'
    edges = {"square": [(-4, -4), (4, -4), (4, 4), (-4, 4)], "diamond": [(0, -6), (5.5, 0), (0, 6), (-5.5, 0)],
             "triangle": [(0, -5.5), (5, 4), (-5, 4)]}[shape]
    points = " ".join(f"{x + right:.1f},{y + down:.1f}" for right, down in edges)
    return f'<polygon points="{points}" {look}>{title}</polygon>'


def frame(left, right, upper, lower, across, down):
    """The ground of a panel, its grid, and the numbers at both axes."""
    yield f'<rect x="{left}" y="{upper}" width="{right - left}" height="{lower - upper}" fill="#fbfbfb"/>'
    for value in across.ticks((1, 2, 3, 5)):
        yield line(across.at(value), upper, across.at(value), lower)
    for value in down.ticks((1, 2, 5)):
        yield line(left, down.at(value), right, down.at(value))
        yield words(left - 8, down.at(value) + 4, f"{value:g}", "end", 12, PALE)
    yield (f'<rect x="{left}" y="{upper}" width="{right - left}" height="{lower - upper}" fill="none" stroke="{PALE}"/>')


def zero(left, right, across):
    """The strip below the gaps, for ships whose plan is shown to be the best."""
    upper, lower = ZERO
    yield (f'<rect x="{left}" y="{upper}" width="{right - left}" height="{lower - upper}" fill="#eef3ea" '
           f'stroke="{PALE}"/>')
    for value in across.ticks((1, 2, 3, 5)):
        yield line(across.at(value), upper, across.at(value), lower)
        yield words(across.at(value), lower + 17, f"{value:g}", "middle", 12, PALE)
        yield words(across.at(value), TIMES[1] + 17, f"{value:g}", "middle", 12, PALE)
    yield words(left - 8, (upper + lower) / 2 + 4, "0", "end", 12, PALE)
    yield words(right - 6, lower - 6, "Optimal", "end", 12, PALE)


def told(row, gap):
    return (f"{row['command']} {row['ship']}: {row['tasks']} tasks, {row['ended']}, gap {gap:.2f} %, "
            f"{row['seconds']:.2f} s")


def marks(rows, gap_of, across, gaps, times):
    """Each ship in both panels: at its gap, or in the strip in the lane of its kind, and at its seconds."""
    lanes = {kind: ZERO[0] + 10 + 12 * at for at, kind in enumerate(KINDS)}
    for row in sorted(rows, key=lambda row: list(KINDS).index(row["ship"].split()[0])):
        kind, gap, is_filled = row["ship"].split()[0], gap_of(row), row["ended"] == "Optimal"
        x = across.at(row["tasks"])
        yield mark(kind, x, gaps.at(gap) if gap > 0 else lanes[kind], is_filled, told(row, gap))
        yield mark(kind, x, times.at(row["seconds"]), is_filled, told(row, gap))


def middle(rows, across, times):
    """A line through the middle seconds of the made ships of each size."""
    sizes = {}
    for row in rows:
        if row["ship"].startswith("made"):
            sizes.setdefault(row["ship"].split()[2], []).append(row)
    points = sorted((statistics.median(row["tasks"] for row in of_size),
                     statistics.median(row["seconds"] for row in of_size)) for of_size in sizes.values())
    path = " ".join(f"{across.at(tasks):.1f},{times.at(seconds):.1f}" for tasks, seconds in points)
    return (f'<polyline points="{path}" fill="none" stroke="{KINDS["made"][0]}" stroke-opacity="0.45" '
            'stroke-width="2.5"/>')


def legend():
    for left, (kind, (_, _, said)) in zip((96, 390, 640, 890), KINDS.items()):
        yield mark(kind, left, 72, True)
        yield words(left + 12, 76, said)
    yield mark("made", 96, 98, True)
    yield mark("full", 112, 98, True)
    yield words(124, 102, "filled: Optimal, shown to be the best")
    yield mark("made", 390, 98, False)
    yield mark("full", 406, 98, False)
    yield words(418, 102, "hollow: the branchings are spent")
    yield (f'<line x1="690" y1="98" x2="722" y2="98" stroke="{KINDS["made"][0]}" stroke-opacity="0.45" '
           'stroke-width="2.5"/>')
    yield words(730, 102, "the middle of the made ships of a size")


def drawn(rows, gap_of):
    """The plot of rows with command, ship, tasks, ended and seconds."""
    gaps = around([gap_of(row) for row in rows if gap_of(row) > 0] or [1], GAPS[1], GAPS[0])
    times = around([max(row["seconds"], 0.001) for row in rows], TIMES[1], TIMES[0])
    lines = ['<svg xmlns="http://www.w3.org/2000/svg" viewBox="0 0 1110 820" font-family="sans-serif">',
             '<rect width="1110" height="820" fill="#ffffff"/>',
             words(90, 40, "Gap and processor time by the number of tasks, 20,000 branchings allowed", size=20)]
    lines += legend()
    for command, (left, right) in COLUMNS.items():
        own = [row for row in rows if row["command"] == command]
        across = Scale(8, 300, left, right)
        lines.append(words(left, 150, COMMANDS[command], size=16, more=' font-weight="bold"'))
        lines.append(words(left, 178, "gap between end and bound, % of the end", colour=PALE))
        lines += [*frame(left, right, *GAPS, across, gaps), *zero(left, right, across)]
        lines.append(words(left, 508, "processor seconds of the whole call", colour=PALE))
        lines += frame(left, right, *TIMES, across, times)
        if own:
            lines += [middle(own, across, times), *marks(own, gap_of, across, gaps, times)]
        lines.append(words((left + right) / 2, TIMES[1] + 38, "tasks", "middle", colour=PALE))
    return "\n".join(lines + ["</svg>"]) + "\n"
