"""Draws the bounds of a circuit's wires against the budget, as SVG: one bar a wire, by powers of two."""
import math

COLOURS = {"IN": "#8a8a8a", "XOR": "#3b7dd8", "AND": "#d8653b", "NOT": "#5aa469"}
BAR, HEIGHT, LEFT, TOP = 7, 260, 52, 34


def bars(text):
    """Wire, kind and bound of each line of the printed text, and the largest bound that fits."""
    lines = [line.split() for line in text.splitlines()]
    return [(int(wire), kind, int(bound)) for wire, kind, bound in lines[:-1]], int(lines[-1][2])


def drawing(text, title):
    wires, largest = bars(text)
    top = math.log2(largest) + 1
    level = lambda bound: TOP + HEIGHT * (1 - math.log2(max(bound, 1)) / top)
    width = LEFT + BAR * len(wires) + 20
    out = [f'<svg xmlns="http://www.w3.org/2000/svg" width="{width}" height="{TOP + HEIGHT + 46}" font-family="sans-serif" font-size="11">',
           '<rect width="100%" height="100%" fill="white"/>', f'<text x="{LEFT}" y="16" font-size="13">{title}</text>']
    for power in range(0, int(top) + 1, 3):
        y = level(2**power)
        out.append(f'<line x1="{LEFT}" x2="{width - 20}" y1="{y:.1f}" y2="{y:.1f}" stroke="#eeeeee"/>')
        out.append(f'<text x="{LEFT - 6}" y="{y + 4:.1f}" text-anchor="end">{2**power:,}</text>')
    for wire, kind, bound in wires:
        y = level(bound)
        out.append(f'<rect x="{LEFT + BAR * wire}" y="{y:.1f}" width="{BAR - 1}" height="{TOP + HEIGHT - y:.1f}" fill="{COLOURS[kind]}"/>')
    y = level(largest)
    out.append(f'<line x1="{LEFT}" x2="{width - 20}" y1="{y:.1f}" y2="{y:.1f}" stroke="#b00020" stroke-width="1.5"/>')
    out.append(f'<text x="{LEFT + 4}" y="{y - 5:.1f}" fill="#b00020">largest bound that fits: {largest:,}</text>')
    for k, (kind, colour) in enumerate(COLOURS.items()):
        x = LEFT + 70 * k
        out.append(f'<rect x="{x}" y="{TOP + HEIGHT + 22}" width="10" height="10" fill="{colour}"/><text x="{x + 15}" y="{TOP + HEIGHT + 31}">{kind}</text>')
    out.append(f'<text x="{width - 20}" y="{TOP + HEIGHT + 31}" text-anchor="end">wires, from the first input to the output</text></svg>')
    return "\n".join(out) + "\n"
