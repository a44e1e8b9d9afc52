"""Pictures of measurements, as SVG: bars, and lines over a number."""

import math
from xml.sax.saxutils import escape

WIDTH, LEFT, ROW, TOP = 760, 300, 26, 44
COLORS = ("#1b6ca8", "#c8553d", "#588b4a", "#7d5ba6", "#b8860b", "#444444", "#2a9d8f", "#9b2226", "#e07a9f", "#6b705c", "#0077b6", "#bc6c25")


def text(x, y, words, anchor="start", size=13):
    return f'<text x="{x:.0f}" y="{y:.0f}" font-size="{size}" text-anchor="{anchor}">{escape(words)}</text>'


def line(x1, y1, x2, y2, color="#bbb"):
    return f'<line x1="{x1:.1f}" y1="{y1:.1f}" x2="{x2:.1f}" y2="{y2:.1f}" stroke="{color}"/>'


def page(height, title, parts):
    head = f'<svg xmlns="http://www.w3.org/2000/svg" width="{WIDTH}" height="{height}" font-family="sans-serif">'
    ground = f'<rect width="{WIDTH}" height="{height}" fill="white"/>'
    return "\n".join([head, ground, text(12, 24, title, size=15), *parts, "</svg>", ""])


def bars(title, rows, mark=None):
    """A bar for each name and its number. Where a mark is given, a line stands at that number."""
    most = max([number for _, number in rows] + [mark or 0])
    step, parts = (WIDTH - LEFT - 70) / most, []
    for place, (name, number) in enumerate(rows):
        y = TOP + ROW * place
        parts.append(text(LEFT - 8, y + 14, name, "end"))
        parts.append(f'<rect x="{LEFT}" y="{y}" width="{number * step:.1f}" height="{ROW - 8}" fill="{COLORS[0]}"/>')
        parts.append(text(LEFT + number * step + 6, y + 14, f"{number:.2f}" if number < 10 else f"{number:.0f}"))
    height = TOP + ROW * len(rows) + 10
    if mark:
        parts.append(line(LEFT + mark * step, TOP - 8, LEFT + mark * step, height - 6, "#c8553d"))
    return page(height, title, parts)


def lines(title, places, rows):
    """A line for each name over the places, whose distances are those of their logarithms."""
    bottom, right = TOP + 300, WIDTH - 250
    most = max(max(numbers) for _, numbers in rows)
    first, last = math.log(places[0]), math.log(places[-1])
    across = [60 + (right - 60) * (math.log(it) - first) / (last - first) for it in places]
    parts = [line(60, bottom, right, bottom), line(60, TOP, 60, bottom), text(54, TOP + 8, f"{most:.0f}", "end"), text(54, bottom, "0", "end")]
    parts += [text(x, bottom + 18, f"{place:,}", "middle") for x, place in zip(across, places)]
    for turn, (name, numbers) in enumerate(sorted(rows, key=lambda row: -row[1][-1])):
        color = COLORS[turn % len(COLORS)]
        points = " ".join(f"{x:.1f},{bottom - (bottom - TOP) * it / most:.1f}" for x, it in zip(across, numbers))
        parts.append(f'<polyline points="{points}" fill="none" stroke="{color}" stroke-width="2"/>')
        y = TOP + 22 * turn
        parts += [line(right + 14, y + 4, right + 34, y + 4, color), text(right + 40, y + 8, name, size=12)]
    return page(max(bottom + 34, TOP + 22 * len(rows) + 10), title, parts)
