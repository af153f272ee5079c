"""The charts of docs/BENCHMARK.md as SVG, light or dark as the reader's page is."""
import math

COLOURS = {
    "proved": ("#0b6e4f", "#4cc38a"),
    "crate": ("#1f5fbf", "#7ab0ff"),
    "lane": ("#8a4fbf", "#c79bff"),
    "module": ("#b5540a", "#ffa657"),
    "slab": ("#444444", "#c9c9c9"),
    "mutex": ("#b3261e", "#ff7b72"),
    "queue": ("#7a6a00", "#e3c94a"),
    "arc": ("#5a7d8c", "#8fc7dc"),
}
FONT = "font-family: system-ui, sans-serif; font-size: 12px"


def style():
    """The colours by class, for both schemes."""
    light = " ".join(f".{name} {{ --c: {pair[0]} }}" for name, pair in COLOURS.items())
    dark = " ".join(f".{name} {{ --c: {pair[1]} }}" for name, pair in COLOURS.items())
    return (
        f"<style>svg {{ --ink: #1f2328; --soft: #59636e; --grid: #d1d9e0; --back: #ffffff; {FONT} }} {light}\n"
        f"@media (prefers-color-scheme: dark) {{ svg {{ --ink: #e6edf3; --soft: #9198a1; --grid: #3d444d; --back: #0d1117 }} {dark} }}\n"
        ".back { fill: var(--back) } text { fill: var(--ink) } .soft { fill: var(--soft) } .grid { stroke: var(--grid) } "
        ".one { stroke: var(--ink); stroke-width: 1.5 } "
        ".dot { fill: var(--c) } .bar { stroke: var(--c); stroke-width: 2; opacity: .45 } .line { stroke: var(--c); stroke-width: 2; fill: none } "
        ".name { fill: var(--c); font-weight: 600 }</style>\n"
    )


def svg(width, height, title, body):
    return (
        f'<svg xmlns="http://www.w3.org/2000/svg" viewBox="0 0 {width} {height}" width="{width}" height="{height}" role="img">\n'
        f"<title>{title}</title>\n{style()}" f'<rect class="back" width="{width}" height="{height}"/>\n' + "".join(body) + "</svg>\n"
    )


def text(x, y, words, kind="", anchor="start"):
    return f'<text x="{x:.1f}" y="{y:.1f}" class="{kind}" text-anchor="{anchor}">{words}</text>\n'


def line(x1, y1, x2, y2, kind):
    return f'<line x1="{x1:.1f}" y1="{y1:.1f}" x2="{x2:.1f}" y2="{y2:.1f}" class="{kind}"/>\n'


def legend(names, heads, x, y):
    """Dots with what they mean, side by side."""
    body = []
    for name in names:
        body.append(f'<circle cx="{x}" cy="{y - 4}" r="4.5" class="dot {name}"/>\n' + text(x + 9, y, heads[name]))
        x += 34 + 7 * len(heads[name])
    return body


def ratios(rows, heads):
    """Of each row, the time as a share of the slab's: a dot at the median, and a bar over the middle half of the turns."""
    left, top, step, width = 190, 64, 22, 760
    right, most = width - 20, 1.5
    height = top + step * len(rows) + 30

    def at(value):
        return left + (right - left) * max(0, min(value, most)) / most

    names = [it for it in COLOURS if any(it in dots for _, dots in rows)]
    body = [text(left, 20, "Time of a round as a share of sharded-slab's (1.0; less is faster)"), *legend(names, heads, left + 4, 42)]
    for tick in range(0, 16, 3):
        value = tick / 10
        body.append(line(at(value), top - 8, at(value), height - 24, "grid"))
        body.append(text(at(value), height - 8, f"{value:.1f}", "soft", "middle"))
    body.append(line(at(1), top - 8, at(1), height - 24, "one"))
    for number, (head, dots) in enumerate(rows):
        y = top + step * number + step / 2
        body.append(text(left - 10, y + 4, head, anchor="end"))
        for place, (name, (middle, low, high)) in enumerate(dots.items()):
            level = y + (place - (len(dots) - 1) / 2) * 4
            body.append(line(at(low), level, at(high), level, f"bar {name}"))
            body.append(f'<circle cx="{at(middle):.1f}" cy="{level:.1f}" r="3.5" class="dot {name}"/>\n')
    return svg(width, height, "Time of each row as a share of sharded-slab's", body)


def spread(levels, gap):
    """The levels of labels, moved apart so that none covers another."""
    order = sorted(range(len(levels)), key=lambda it: levels[it])
    placed, last = list(levels), -math.inf
    for at in order:
        placed[at] = last = max(levels[at], last + gap)
    return placed


def panel(name, lines, heads, left, width, top, height):
    """One call's lines: nanoseconds by threads, both by their logarithm."""
    values = [max(1, ns) for points in lines.values() for _, ns in points]
    low, high = 10 ** math.floor(math.log10(min(values))), 10 ** math.ceil(math.log10(max(values)))
    threads = sorted({count for points in lines.values() for count, _ in points})

    def x(count):
        return left + (width - 150) * math.log2(count) / math.log2(max(threads))

    def y(ns):
        return top + height - height * math.log10(max(ns, low) / low) / math.log10(high / low)

    body = [text(left, top - 14, f"{name}: ns of a round")]
    value = low
    while value <= high:
        body += [line(left, y(value), x(threads[-1]), y(value), "grid"), text(left - 6, y(value) + 4, f"{value:,}", "soft", "end")]
        value *= 10
    body += [text(x(count), top + height + 18, str(count), "soft", "middle") for count in threads]
    body.append(text((left + x(threads[-1])) / 2, top + height + 36, "threads", "soft", "middle"))
    levels = spread([y(points[-1][1]) for points in lines.values()], 14)
    for level, (column, points) in zip(levels, lines.items()):
        way = " ".join(f"{x(count):.1f},{y(ns):.1f}" for count, ns in points)
        body.append(f'<polyline class="line {column}" points="{way}"/>\n')
        body += [f'<circle cx="{x(count):.1f}" cy="{y(ns):.1f}" r="2.8" class="dot {column}"/>\n' for count, ns in points]
        body.append(text(x(points[-1][0]) + 8, level + 4, heads[column], f"name {column}"))
    return body


def by_threads(calls, heads):
    """A panel for each call, side by side."""
    width, body = 510, []
    shown = [(name, lines) for name, lines in calls.items() if lines]
    for number, (name, lines) in enumerate(shown):
        body += panel(name, lines, heads, 60 + number * width, width - 60, 44, 300)
    return svg(max(1, len(shown)) * width, 400, "Nanoseconds of a round by threads", body)
