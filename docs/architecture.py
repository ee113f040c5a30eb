"""Draws docs/architecture.svg from crates.txt: its groups one above another, the last at the top. `python3 docs/architecture.py > docs/architecture.svg`

In a group a crate stands to the right of those of the group that it needs, with an arrow to each; the crates of other groups that it needs are written below
its name. What follows from other needs is left out.
"""

from html import escape
from pathlib import Path

CRATES = Path(__file__).resolve().parent.parent / "crates.txt"
COLORS = ["#4c78a8", "#f58518", "#54a24b", "#b279a2", "#e45756", "#72b7b2", "#9d755d", "#d4a72c", "#777777"]
# a crate's box: its width, the space to the next, the height of its name and of a line below it, and how many letters such a line has
WIDTH, ACROSS, DOWN, NAME, LINE, LETTERS = 124, 22, 10, 20, 11, 25
# a group: the space to its left, the height of its title, the space to the next; and between two arrows beside the groups
SIDE, TITLE, BETWEEN, LANE = 14, 30, 26, 12


def read(text):
    """The groups, each with its name, its words and its crates; and what each crate needs. A group begins with a comment just above a crate."""
    groups, needs, comment = [], {}, None
    for line in text.splitlines():
        if line.startswith("#"):
            comment = line[1:].strip()
            continue
        if ":" in line:
            if comment is not None:
                name, _, words = comment.partition(": ")
                groups.append((name, words, []))
            crate, _, needed = line.partition(":")
            crate = crate.split()[0]
            groups[-1][2].append(crate)
            needs[crate] = needed.split()
        comment = None
    return groups, needs


def reached(needs, start):
    """All that something needs, at first or second hand."""
    found, left = set(), [start]
    while left:
        new = [needed for needed in needs.get(left.pop(), []) if needed not in found]
        found.update(new)
        left += new
    return found


def without_implied(needs):
    """Of what each needs, that which does not follow from another of its needs. Of two that need each other, the later in crates.txt stands for both."""
    order = list(needs)
    hands = {name: reached(needs, name) for name in needs}

    def follows(name, x, y):
        return x in hands.get(y, ()) and name not in hands[y] and (y not in hands.get(x, ()) or order.index(y) > order.index(x))

    return {name: [x for x in needed if not any(follows(name, x, y) for y in needed if y != x)] for name, needed in needs.items()}


def places(crates, needs):
    """The column and the row of each crate of a group: to the right of all that it needs, in the row of the farthest of these or in the nearest free one."""
    place, inside = {}, {crate: [x for x in needs[crate] if x in crates] for crate in crates}
    if not any(inside.values()):
        return {crate: (column, 0) for column, crate in enumerate(crates)}
    for crate in sorted(crates, key=lambda crate: len(reached(inside, crate))):
        column = max([place[x][0] + 1 for x in inside[crate]], default=0)
        wanted = max([(-place[x][0], place[x][1]) for x in inside[crate]], default=(0, 0))[1]
        free = [row for row in range(len(crates)) if (column, row) not in place.values()]
        place[crate] = (column, min(free, key=lambda row: abs(row - wanted)))
    return place


def wrapped(words):
    """Words as lines."""
    lines = []
    for word in words:
        if lines and len(lines[-1]) + 1 + len(word) <= LETTERS:
            lines[-1] += " " + word
        else:
            lines.append(word)
    return lines


def text(x, y, words, size, color="#222"):
    return f'<text x="{x}" y="{y}" font-size="{size}" fill="{color}" text-anchor="middle">{words}</text>'


def arrow(path, more=""):
    return f'<path d="{path}" fill="none" stroke="#555"{more} marker-end="url(#tip)"/>'


def drawn_group(group, needs, top, width, color):
    """A group whose upper edge is at `top`: what is drawn, and where its lower edge is."""
    name, words, crates = group
    place = places(crates, needs)
    below = {crate: wrapped([x for x in needs[crate] if x not in crates]) for crate in crates}
    rows = range(1 + max(row for _, row in place.values()))
    heights = [NAME + LINE * max(len(below[crate]) for crate in crates if place[crate][1] == row) for row in rows]
    tops = [top + TITLE + sum(heights[:row]) + DOWN * row for row in rows]
    bottom = tops[-1] + heights[-1] + DOWN
    left = {crate: 2 * SIDE + place[crate][0] * (WIDTH + ACROSS) for crate in crates}
    middle = {crate: tops[place[crate][1]] + heights[place[crate][1]] // 2 for crate in crates}
    title = f'<tspan font-weight="bold">{escape(name)}</tspan>: {escape(words)}'
    parts = [
        f'<rect x="{SIDE}" y="{top}" width="{width}" height="{bottom - top}" rx="6" fill="{color}" fill-opacity="0.08" stroke="{color}"/>',
        f'<text x="{2 * SIDE}" y="{top + 19}" font-size="13" fill="#222">{title}</text>',
    ]
    for crate in crates:
        x, y, height = left[crate], tops[place[crate][1]], heights[place[crate][1]]
        first = middle[crate] + 4 - LINE * len(below[crate]) // 2
        parts.append(f'<rect x="{x}" y="{y}" width="{WIDTH}" height="{height}" rx="3" fill="#fff" stroke="{color}"/>')
        parts.append(text(x + WIDTH // 2, first, crate, 12))
        parts += [text(x + WIDTH // 2, first + LINE * (k + 1), line, 9, "#777") for k, line in enumerate(below[crate])]
        for needed in needs[crate]:
            if needed in crates:
                parts.append(arrow(f"M {x} {middle[crate]} L {left[needed] + WIDTH + 1} {middle[needed]}"))
    return parts, bottom


def between(names, needs, edges, right):
    """Arrows between groups: between two that stand one on the other, dashed where it goes up, and else along the right side; and how many lie there
    side by side."""
    parts, taken = [], []
    for upper, name in enumerate(names):
        for lower in sorted(names.index(x) for x in needs[name]):
            if lower == upper + 1:
                parts.append(arrow(f"M {3 * SIDE} {edges[upper][1]} V {edges[lower][0] - 1}"))
            elif lower == upper - 1:
                parts.append(arrow(f"M {5 * SIDE} {edges[upper][0]} V {edges[lower][1] + 1}", ' stroke-dasharray="4 3"'))
            else:
                span = range(min(upper, lower), max(upper, lower))
                lane = next(k for k in range(len(names)) if not any(k == other and set(span) & set(crossed) for other, crossed in taken))
                taken.append((lane, span))
                start, end = (sum(edges[upper]) // 2 + 8, sum(edges[lower]) // 2 - 8)
                parts.append(arrow(f"M {right} {start} H {right + LANE * (lane + 1)} V {end} H {right + 1}"))
    return parts, 1 + max([lane for lane, _ in taken], default=0)


def picture():
    groups, needs = read(CRATES.read_text(encoding="utf-8"))
    of = {crate: name for name, _, crates in groups for crate in crates}
    group_needs = {name: sorted({of.get(x, name) for crate in crates for x in needs[crate]} - {name}) for name, _, crates in groups}
    needs, group_needs = without_implied(needs), without_implied(group_needs)
    columns = 1 + max(column for _, _, crates in groups for column, _ in places(crates, needs).values())
    inner = columns * (WIDTH + ACROSS) - ACROSS + 2 * SIDE
    groups.reverse()
    parts, edges, top = [], [], SIDE
    for number, group in enumerate(groups):
        drawn, bottom = drawn_group(group, needs, top, inner, COLORS[number % len(COLORS)])
        parts += drawn
        edges.append((top, bottom))
        top = bottom + BETWEEN
    arrows, lanes = between([name for name, _, _ in groups], group_needs, edges, SIDE + inner)
    width, height = inner + 2 * SIDE + LANE * lanes, edges[-1][1] + SIDE
    head = f'<svg xmlns="http://www.w3.org/2000/svg" viewBox="0 0 {width} {height}" width="{width}" height="{height}" font-family="sans-serif">'
    tip = '<marker id="tip" viewBox="0 0 8 8" refX="7" refY="4" markerWidth="7" markerHeight="7" orient="auto"><path d="M 0 0 L 8 4 L 0 8 z" fill="#555"/></marker>'
    return "\n".join([head, f"<defs>{tip}</defs>", f'<rect width="{width}" height="{height}" fill="#fff"/>'] + parts + arrows + ["</svg>"])


if __name__ == "__main__":
    print(picture())
