"""Draws charts as SVG for light and dark pages, and reads the tables of pages that they show: what tools/pictures calls."""
import math
import re
from xml.sax.saxutils import escape

# Of a kind the color on light and on dark paper.
COLORS = [("#0969da", "#58a6ff"), ("#1a7f37", "#3fb950"), ("#9a6700", "#d29922")]
WIDTH, ROW, CHARACTER = 720, 20, 7


def style():
    light = "".join(f"  .c{at} {{ fill: {one}; stroke: {one}; }}\n" for at, (one, _) in enumerate(COLORS))
    dark = "".join(f"    .c{at} {{ fill: {one}; stroke: {one}; }}\n" for at, (_, one) in enumerate(COLORS))
    return (
        "<style>\n  text { font: 13px sans-serif; fill: #1f2328; stroke: none; }\n  .small { font-size: 12px; fill: #57606a; }\n"
        "  .paper { fill: #ffffff; }\n  .grid { stroke: #d0d7de; }\n  .one { stroke: #57606a; stroke-width: 1.5; }\n"
        f"{light}  @media (prefers-color-scheme: dark) {{\n    text {{ fill: #e6edf3; }}\n    .small {{ fill: #9da7b3; }}\n    .paper {{ fill: #0d1117; }}\n"
        f"    .grid {{ stroke: #30363d; }}\n    .one {{ stroke: #8b949e; }}\n{dark}  }}\n</style>"
    )


def text(x, y, said, anchor="start", kind=""):
    return f'<text x="{x:.0f}" y="{y:.0f}" text-anchor="{anchor}"{f" class={chr(34)}{kind}{chr(34)}" if kind else ""}>{escape(said)}</text>'


def whole(title, height, lines):
    head = f'<svg xmlns="http://www.w3.org/2000/svg" viewBox="0 0 {WIDTH} {height}" width="{WIDTH}" height="{height}" role="img">'
    return "\n".join([head, f"<title>{escape(title)}</title>", style(), f'<rect class="paper" width="{WIDTH}" height="{height}"/>', *lines, "</svg>", ""])


def legend(names, y):
    """A mark and a name for each color, in a row."""
    lines, x = [], 20
    for at, name in enumerate(names):
        lines += [f'<rect class="c{at}" x="{x}" y="{y - 10}" width="10" height="10"/>', text(x + 16, y, name)]
        x += 40 + CHARACTER * len(name)
    return lines


def step_of(most):
    """The distance of two lines of a grid, so that there are four to nine of them."""
    unit = 10 ** math.floor(math.log10(most / 4))
    return next(unit * it for it in (1, 2, 5, 10) if most / (unit * it) <= 9)


def left_of(rows):
    """Where the rows begin, behind the longest label."""
    return 24 + CHARACTER * max(len(label) for label, _ in rows)


def grid(most, left, top, bottom):
    """Lines across a chart at round values, and the function from a value to its place."""
    step = step_of(most)

    def at(value):
        return left + value / most * (WIDTH - left - 60)

    lines = []
    for count in range(int(most / step) + 1):
        x = at(count * step)
        lines += [f'<line class="grid" x1="{x:.0f}" y1="{top}" x2="{x:.0f}" y2="{bottom}"/>', text(x, bottom + 16, f"{step * count:g}", "middle", "small")]
    return lines, at


def bars(title, rows, names, unit, digits, mark=None):
    """Rows of a label and of values by color, one behind the other in a bar; with a mark, a line at that value."""
    most = 1.05 * max(sum(values) for _, values in rows)
    bottom, left = 50 + ROW * len(rows), left_of(rows)
    lines, at = grid(most, left, 44, bottom)
    for row, (label, values) in enumerate(rows):
        y, from_value = 50 + ROW * row, 0
        lines.append(text(left - 8, y + 13, label, "end"))
        for kind, value in enumerate(values):
            if value:
                lines.append(f'<rect class="c{kind}" x="{at(from_value):.1f}" y="{y + 2}" width="{at(from_value + value) - at(from_value):.1f}" height="{ROW - 6}"/>')
            from_value += value
        lines.append(text(at(from_value) + 6, y + 13, f"{from_value:.{digits}f}", kind="small"))
    lines += [f'<line class="one" x1="{at(mark):.0f}" y1="44" x2="{at(mark):.0f}" y2="{bottom}"/>'] if mark else []
    return whole(title, bottom + 44, [*legend(names, 28), *lines, text(WIDTH - 20, bottom + 34, unit, "end", "small")])


def dots(title, rows, names, unit, mark):
    """Rows of a label and of a value or None by color, each a dot, and a line at a value."""
    most = 1.05 * max(it for _, values in rows for it in values if it is not None)
    bottom, left = 50 + ROW * len(rows), left_of(rows)
    lines, at = grid(most, left, 44, bottom)
    lines.append(f'<line class="one" x1="{at(mark):.0f}" y1="44" x2="{at(mark):.0f}" y2="{bottom}"/>')
    for row, (label, values) in enumerate(rows):
        lines.append(text(left - 8, 50 + ROW * row + 13, label, "end"))
        lines += [f'<circle class="c{kind}" cx="{at(it):.1f}" cy="{50 + ROW * row + 9 + 3 * (2 * kind - 1)}" r="4"/>'
                  for kind, it in enumerate(values) if it is not None]
    return whole(title, bottom + 44, [*legend(names, 28), *lines, text(WIDTH - 20, bottom + 34, unit, "end", "small")])


# ---- tables


def cells(line):
    return [it.strip().replace("`", "") for it in re.split(r"(?<!\\)\|", line.strip())[1:-1]]


def tables(page, heading):
    """The tables below a heading, each as rows of cells with the heads in front."""
    section = re.split(r"^## ", page.partition(f"## {heading}\n")[2], flags=re.MULTILINE)[0]
    found, before = [], ""
    for line in section.splitlines():
        if line.startswith("|"):
            found += [[]] if not before.startswith("|") else []
            if not re.fullmatch(r"\|[-|]+", line):
                found[-1].append(cells(line))
        before = line
    return found


def value(cell):
    """The first number of a cell, or 0 where it has none."""
    found = re.search(r"-?[\d,]*\.?\d+", cell)
    return float(found[0].replace(",", "")) if found else 0.0
