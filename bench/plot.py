# Draws the rows of bench/growth.sh as SVG: a panel each for edges, lines and pixels, both axes logarithmic, a doubling of one width in all panels.
# A row: what is doubled, lines, pixels a line, edges a line, then the CPU times of edge engine, C by edges, pixel engine, C by pixels in milliseconds.
# bench/plot.py <ROWS >SVG
import math, sys

rows = [line.split() for line in sys.stdin]
panels = [  # what is doubled, its column, the x axis, what stays
    ("edges", 3, "edges a line", "512 lines of 1024 pixels"),
    ("lines", 1, "lines", "1024 pixels, 16 edges a line"),
    ("pixels", 2, "pixels a line", "512 lines, 16 edges a line"),
]
curves = [  # name, column, colour, dashes, marker
    ("pixel engine (Rattle)", 6, "#c44e00", "none", "square"),
    ("C by pixels", 7, "#c44e00", "5 4", "hollow square"),
    ("edge engine (Rattle)", 4, "#0060a8", "none", "circle"),
    ("C by edges", 5, "#0060a8", "5 4", "hollow circle"),
]

WIDTH, HEIGHT, LEFT, TOP, GAP, PLOT = 900, 490, 74, 100, 46, 310
DOUBLING, INSET = 53, 14  # the width of a doubling; from a panel's edge to its first and last point

times = [float(row[curve[1]]) for row in rows for curve in curves]
least, most = max(min(times), 0.01) / 1.4, max(times) * 1.4
marks = [m * 10**k for k in range(-2, 6) for m in (1, 2, 5) if least <= m * 10**k <= most]


def y_of(ms):
    return TOP + PLOT * math.log(most / max(ms, least)) / math.log(most / least)


def text(x, y, content, more=""):
    return f'<text x="{x:.1f}" y="{y:.1f}" {more}>{content}</text>'


def line(x1, y1, x2, y2, colour):
    return f'<line x1="{x1:.1f}" y1="{y1:.1f}" x2="{x2:.1f}" y2="{y2:.1f}" stroke="{colour}"/>'


def marker(x, y, colour, kind):
    fill = f'fill="{"white" if "hollow" in kind else colour}" stroke="{colour}" stroke-width="1.5"'
    if "square" in kind:
        return f'<rect x="{x - 3.5:.1f}" y="{y - 3.5:.1f}" width="7" height="7" {fill}/>'
    return f'<circle cx="{x:.1f}" cy="{y:.1f}" r="3.8" {fill}/>'


def drawn(points, colour, dashes, kind):
    path = " ".join(f"{x:.1f},{y:.1f}" for x, y in points)
    return [f'<polyline points="{path}" fill="none" stroke="{colour}" stroke-width="2" stroke-dasharray="{dashes}"/>'] + [marker(x, y, colour, kind) for x, y in points]


# a panel, and where it ends
def panel(left, name, column, axis, stays):
    own = [row for row in rows if row[0] == name]
    values = [int(row[column]) for row in own]
    xs = [left + INSET + DOUBLING * math.log2(value / values[0]) for value in values]
    right = xs[-1] + INSET
    out = [text((left + right) / 2, TOP - 9, stays, 'text-anchor="middle" fill="#444"')]
    for mark in marks:
        out += [line(left, y_of(mark), right, y_of(mark), "#ddd"), text(left - 6, y_of(mark) + 4, f"{mark:g}", 'text-anchor="end"')]
    for x, value in zip(xs, values):
        out += [line(x, TOP, x, TOP + PLOT, "#eee"), text(x, TOP + PLOT + 17, value, 'text-anchor="middle"')]
    out.append(f'<rect x="{left:.1f}" y="{TOP}" width="{right - left:.1f}" height="{PLOT}" fill="none" stroke="#888"/>')
    out.append(text((left + right) / 2, TOP + PLOT + 38, axis, 'text-anchor="middle" font-weight="bold"'))
    for _, i, *look in curves:
        out += drawn([(x, y_of(float(row[i]))) for x, row in zip(xs, own)], *look)
    return out, right


out = [
    f'<svg xmlns="http://www.w3.org/2000/svg" viewBox="0 0 {WIDTH} {HEIGHT}" width="{WIDTH}" height="{HEIGHT}" font-family="sans-serif" font-size="12">',
    f'<rect width="{WIDTH}" height="{HEIGHT}" fill="white"/>',
    text(WIDTH / 2, 26, "What the whole job costs as edges, lines and pixels are doubled, one at a time", 'text-anchor="middle" font-size="16" font-weight="bold"'),
    text(18, TOP + PLOT / 2, "CPU time of a run, ms", f'text-anchor="middle" font-weight="bold" transform="rotate(-90 18 {TOP + PLOT / 2:.1f})"'),
    text(WIDTH / 2, HEIGHT - 14, "Both axes are logarithmic; less is better. The least of the runs, less what the start of the program takes.", 'text-anchor="middle" fill="#444"'),
]
for (name, _, *look), x in zip(curves, (90, 310, 480, 700)):
    out += drawn([(x, 54), (x + 40, 54)], *look) + [text(x + 50, 58, name)]
left = LEFT
for each in panels:
    some, right = panel(left, *each)
    out += some
    left = right + GAP
out.append("</svg>")
print("\n".join(out))
