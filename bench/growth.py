"""Draws how cost grows, as SVG: a gate of each kind by n, planning and the file check by the gates; both axes by powers."""
import math

WIDTH, HEIGHT, TOP, BOTTOM = 350, 300, 64, 50
COLOURS = {"and": "#c2410c", "xor": "#1d4ed8", "not": "#15803d", "plan": "#1d4ed8", "check": "#c2410c"}
GREY, RULE = "#6b7280", "#e5e7eb"


class Panel:
    """A plot with both axes by powers: xs are the marks of the one across, ys the first and last power of ten of the one up."""

    def __init__(self, left, xs, ys):
        self.left, self.xs, self.ys = left, xs, ys
        self.out = []

    def x(self, value):
        low, high = math.log(self.xs[0]), math.log(self.xs[-1])
        return self.left + WIDTH * (math.log(value) - low) / (high - low)

    def y(self, value):
        low, high = self.ys
        return TOP + HEIGHT * (1 - (math.log10(value) - low) / (high - low))

    def text(self, x, y, words, colour="#111827", anchor="middle", more=""):
        self.out.append(f'<text x="{x:.1f}" y="{y:.1f}" fill="{colour}" text-anchor="{anchor}"{more}>{words}</text>')

    def line(self, ends, colour, more=""):
        (x1, y1), (x2, y2) = ends
        self.out.append(f'<line x1="{x1:.1f}" y1="{y1:.1f}" x2="{x2:.1f}" y2="{y2:.1f}" stroke="{colour}"{more}/>')

    def axes(self, title, across, up):
        right, bottom = self.left + WIDTH, TOP + HEIGHT
        for power in range(self.ys[0], self.ys[1] + 1):
            y = self.y(10**power)
            self.line([(self.left, y), (right, y)], RULE)
            self.text(self.left - 8, y + 4, f"{10**power:,}", anchor="end")
        for value in self.xs:
            self.line([(self.x(value), TOP), (self.x(value), bottom)], RULE)
            self.text(self.x(value), bottom + 18, f"{value:,}")
        self.text(self.left + WIDTH / 2, bottom + 38, across)
        self.text(self.left, TOP - 34, title, anchor="start", more=' font-size="14" font-weight="bold"')
        self.text(self.left, TOP - 14, up, GREY, "start")

    def slope(self, power, through, end, shift):
        """A line of one slope through a point, from side to side, with its words at the first or the last end."""
        at, value = through
        ends = [(x, value * (x / at) ** power) for x in (self.xs[0], self.xs[-1])]
        self.line([(self.x(x), self.y(v)) for x, v in ends], GREY, ' stroke-width="1" stroke-dasharray="5 4"')
        x, v = ends[end]
        self.text(self.x(x) + shift[0], self.y(v) + shift[1], f"slope {power}", GREY, "start" if shift[0] > 0 else "end")

    def series(self, name, points, words, at, shift):
        """The measured points, joined, with their name beside one of them."""
        colour = COLOURS[name]
        places = [(self.x(x), self.y(v)) for x, v in sorted(points.items())]
        joined = " ".join(f"{x:.1f},{y:.1f}" for x, y in places)
        self.out.append(f'<polyline points="{joined}" fill="none" stroke="{colour}" stroke-width="2"/>')
        self.out += [f'<circle cx="{x:.1f}" cy="{y:.1f}" r="3.5" fill="{colour}"/>' for x, y in places]
        x, y = places[at]
        self.text(x + shift[0], y + shift[1], words, colour, "start" if shift[0] > 0 else "end", ' font-weight="bold"')


def powers(costs):
    """The powers of ten around all costs, with some room below."""
    values = [value for points in costs.values() for value in points.values()]
    return math.floor(math.log10(min(values) / 2)), math.ceil(math.log10(max(values)))


def by_n(left, costs, unit):
    panel = Panel(left, sorted(costs["and"]), powers(costs))
    panel.axes("A gate by n", "n, entries of a ciphertext", f"{unit} a gate")
    middle = 64
    panel.slope(3, (middle, costs["and"][middle]), 0, (12, 16))
    panel.slope(1, (middle, costs["xor"][middle]), -1, (-8, -14))
    panel.slope(1, (middle, costs["not"][middle]), -1, (-8, 28))
    for name in costs:
        panel.series(name, costs[name], name.upper(), 2, (8, 18) if name == "not" else (-8, -8))
    return panel.out


def by_gates(left, costs, unit):
    counts = sorted(costs["plan"])
    panel = Panel(left, counts, powers(costs))
    panel.axes("A circuit by its gates", "gates", f"{unit} a circuit")
    panel.slope(1, (counts[-1], costs["plan"][counts[-1]]), 0, (8, 18))
    panel.series("plan", costs["plan"], "planning", 2, (10, 18))
    panel.series("check", costs["check"], "file check", 1, (-8, -8))
    return panel.out


def drawing(of_gates, of_circuits, unit):
    """The whole picture: on its own white ground, so that it can be read on any."""
    first, second = 92, 92 + WIDTH + 100
    wide, high = second + WIDTH + 30, TOP + HEIGHT + BOTTOM
    head = f'<svg xmlns="http://www.w3.org/2000/svg" width="{wide}" height="{high}" viewBox="0 0 {wide} {high}" font-family="sans-serif" font-size="12">'
    ground = '<rect width="100%" height="100%" fill="white"/>'
    return "\n".join([head, ground] + by_n(first, of_gates, unit) + by_gates(second, of_circuits, unit) + ["</svg>"]) + "\n"
