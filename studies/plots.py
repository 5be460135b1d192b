"""Plots as SVG without outside parts, for light and for dark screens."""
from html import escape

STYLE = """<style>
svg { font: 12px 'DejaVu Sans', Verdana, system-ui, sans-serif; }
.ground { fill: #ffffff; } text { fill: #1f2328; } .title { font-size: 15px; font-weight: 600; }
.quiet { fill: #59636e; font-size: 11px; } .grid { stroke: #d0d7de; } .axis { stroke: #59636e; }
.s0 { stroke: #0969da; fill: #0969da; } .s1 { stroke: #bc4c00; fill: #bc4c00; } .s2 { stroke: #1a7f37; fill: #1a7f37; }
.way { fill: #ddf4ff; stroke: #0969da; } .loop { fill: #ffd8d3; stroke: #cf222e; } .none { fill: none; stroke: #d0d7de; }
.over { font-size: 11px; }
.range { stroke-width: 1.5; opacity: 0.55; } .curve { fill: none; stroke-width: 2.2; }
@media (prefers-color-scheme: dark) {
.ground { fill: #0d1117; } text { fill: #e6edf3; } .quiet { fill: #9198a1; } .grid { stroke: #30363d; } .axis { stroke: #9198a1; }
.way { fill: #0c2d6b; stroke: #58a6ff; } .loop { fill: #67060c; stroke: #f85149; } .none { stroke: #30363d; }
.s0 { stroke: #58a6ff; fill: #58a6ff; } .s1 { stroke: #f0883e; fill: #f0883e; } .s2 { stroke: #3fb950; fill: #3fb950; }
}
</style>"""
WIDTH, HEIGHT, LEFT, TOP, RIGHT, BOTTOM = 720, 380, 70, 66, 24, 52


def steps(most):
    """Round numbers from 0 to the first one that is not below the most, at most 8 of them."""
    for exponent in range(-3, 9):
        for factor in (1, 2, 5):
            step = factor * 10.0**exponent
            if most / step <= 7:
                count = int(-(-most // step)) or 1
                return [round(step * number, 6) for number in range(count + 1)]
    raise ValueError(most)


def shown(number):
    return f"{number:g}"


def plot(path, title, x_title, y_title, series, ticks=None):
    """Writes a plot. A series is a name and points (x, least, middle, most); ticks are the numbers
    under it."""
    points = [point for _, found in series for point in found]
    least_x, most_x = min(point[0] for point in points), max(point[0] for point in points)
    ys = steps(max(point[3] for point in points) or 1)
    across = lambda x: LEFT + (x - least_x) / ((most_x - least_x) or 1) * (WIDTH - LEFT - RIGHT)
    down = lambda y: HEIGHT - BOTTOM - y / ys[-1] * (HEIGHT - TOP - BOTTOM)
    out = [
        f'<svg xmlns="http://www.w3.org/2000/svg" width="{WIDTH}" height="{HEIGHT}" viewBox="0 0'
        f' {WIDTH} {HEIGHT}" role="img">'
    ]
    out += [f"<title>{escape(title)}</title>", STYLE,
            f'<rect class="ground" width="{WIDTH}" height="{HEIGHT}"/>']
    out.append(f'<text class="title" x="16" y="26">{escape(title)}</text>')
    out.append(f'<text class="quiet" x="16" y="52">{escape(y_title)}</text>')
    for y in ys:
        out.append(f'<path class="grid" d="M{LEFT} {down(y):.1f}H{WIDTH - RIGHT}"/>')
        out.append(
            f'<text class="quiet" text-anchor="end" x="{LEFT - 8}"'
            f' y="{down(y) + 4:.1f}">{shown(y)}</text>'
        )
    for x in ticks or sorted({point[0] for point in points}):
        out.append(f'<path class="axis" d="M{across(x):.1f} {HEIGHT - BOTTOM}v5"/>')
        out.append(
            f'<text class="quiet" text-anchor="middle" x="{across(x):.1f}"'
            f' y="{HEIGHT - BOTTOM + 19}">{shown(x)}</text>'
        )
    out.append(f'<path class="axis" d="M{LEFT} {HEIGHT - BOTTOM}H{WIDTH - RIGHT}"/>')
    out.append(
        f'<text class="quiet" text-anchor="middle" x="{(LEFT + WIDTH - RIGHT) / 2:.0f}"'
        f' y="{HEIGHT - 12}">{escape(x_title)}</text>'
    )
    for number, (name, found) in enumerate(series):
        out += curve(number % 3, found, across, down)
        if len(series) > 1:
            x = WIDTH - RIGHT - 180 * (len(series) - number)
            out.append(
                f'<path class="curve s{number % 3}" d="M{x} 48h24"/><text class="quiet"'
                f' x="{x + 30}" y="52">{escape(name)}</text>'
            )
    with open(path, "w", encoding="utf-8") as file:
        file.write("\n".join([*out, "</svg>"]) + "\n")


def timelines(path, title, x_title, end, groups, marks):
    """Writes timelines. A group is its name, rows of a name and pieces (from, until, next hop), and
    the loops (from, until)."""
    left, top, row, gap = 200, 92, 17, 20
    height = top + len(groups) * (2 * row + gap) + 48
    across = lambda x: left + min(x, end) / end * (WIDTH - left - RIGHT)
    out = [
        f'<svg xmlns="http://www.w3.org/2000/svg" width="{WIDTH}" height="{height}" viewBox="0 0'
        f' {WIDTH} {height}" role="img">'
    ]
    out += [f"<title>{escape(title)}</title>", STYLE,
            f'<rect class="ground" width="{WIDTH}" height="{height}"/>']
    out.append(f'<text class="title" x="16" y="26">{escape(title)}</text>')
    for number, (kind, name) in enumerate(
        (("way", "a next hop"), ("loop", "a loop of b and c"), ("none", "no route"))
    ):
        x = 16 + 150 * number
        out.append(
            f'<rect class="{kind}" x="{x}" y="42" width="24" height="12"/><text class="quiet"'
            f' x="{x + 30}" y="52">{name}</text>'
        )
    bottom = height - 40
    for x in range(0, end + 1, 20):
        out.append(f'<path class="grid" d="M{across(x):.1f} {top - 8}V{bottom}"/>')
        out.append(
            f'<text class="quiet" text-anchor="middle" x="{across(x):.1f}"'
            f' y="{bottom + 16}">{x}</text>'
        )
    for x, name in marks:
        out.append(f'<path class="axis" d="M{across(x):.1f} {top - 8}V{bottom}"/>')
    text = "; ".join(f"{shown(x)} s: {name}" for x, name in marks)
    out.append(f'<text class="quiet" x="{left}" y="{top - 14}">{escape(text)}</text>')
    out.append(
        f'<text class="quiet" text-anchor="middle" x="{(left + WIDTH - RIGHT) / 2:.0f}"'
        f' y="{height - 8}">{escape(x_title)}</text>'
    )
    for number, (name, rows, loops) in enumerate(groups):
        y = top + number * (2 * row + gap)
        out.append(f'<text x="16" y="{y + row + 4}">{escape(name)}</text>')
        for place, (node, pieces) in enumerate(rows):
            out += timeline_row(node, pieces, loops, left, y + place * row, across)
    with open(path, "w", encoding="utf-8") as file:
        file.write("\n".join([*out, "</svg>"]) + "\n")


def timeline_row(node, pieces, loops, left, y, across):
    """The row of a node: a box for each next hop, with its name in it if there is room, and the
    loops over them."""
    yield f'<text class="quiet" text-anchor="end" x="{left - 8}" y="{y + 12}">{escape(node)}</text>'
    for begin, until, via in pieces:
        x, width = across(begin), across(until) - across(begin)
        yield (
            f'<rect class="{"none" if via is None else "way"}" x="{x:.1f}" y="{y}"'
            f' width="{width:.1f}" height="14"/>'
        )
    for begin, until in loops:
        x, width = across(begin), across(until) - across(begin)
        yield f'<rect class="loop" x="{x:.1f}" y="{y}" width="{width:.1f}" height="14"/>'
    for begin, until, via in pieces:
        if across(until) - across(begin) > 60:
            name = "no route" if via is None else f"over {via}"
            kind = "quiet" if via is None else "over"
            yield (
                f'<text class="{kind}" x="{across(begin) + 6:.1f}"'
                f' y="{y + 11}">{escape(name)}</text>'
            )


def curve(number, points, across, down):
    """The lines of a series: a curve through the middles, and a bar from the least to the most at
    each."""
    way = "L".join(f"{across(x):.1f} {down(middle):.1f}" for x, _, middle, _ in points)
    yield f'<path class="curve s{number}" d="M{way}"/>'
    for x, least, middle, most in points:
        yield (
            f'<path class="range s{number}"'
            f' d="M{across(x):.1f} {down(least):.1f}V{down(most):.1f}m-4'
            f' 0h8M{across(x) - 4:.1f} {down(least):.1f}h8"/>'
        )
        yield f'<circle class="s{number}" r="3.5" cx="{across(x):.1f}" cy="{down(middle):.1f}"/>'
