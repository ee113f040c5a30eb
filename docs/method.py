"""Draws docs/method.svg: the rounds of the table 3 4 / 5 6 over 10, by a search through all arrays. `python3 docs/method.py > docs/method.svg`"""

from itertools import product

ROWS, COLUMNS, DENOMINATOR, CELLS = 2, 2, 10, [3, 4, 5, 6]
COLORS = ["#4c78a8", "#f58518", "#54a24b", "#b279a2"]


def entries(cells):
    """Cells, row totals, column totals, grand total."""
    rows = [sum(cells[i * COLUMNS:(i + 1) * COLUMNS]) for i in range(ROWS)]
    columns = [sum(cells[j::COLUMNS]) for j in range(COLUMNS)]
    return cells + rows + columns + [sum(cells)]


def first_rounding(cells, weight):
    """The first array whose every entry is the table's, rounded down or up; whole ones stay."""
    choices = [range(cell // weight, -(-cell // weight) + 1) for cell in cells]
    for counts in product(*choices):
        pairs = zip(entries(cells), entries(list(counts)))
        if all(entry // weight <= count <= -(-entry // weight) for entry, count in pairs):
            return list(counts)


def limit(entry, count, weight):
    """How much weight the entry bears."""
    return (count + 1) * weight - entry if count == entry // weight else entry - (count - 1) * weight


def rounds():
    """What is left before each round, the weight that is left, the array, the limits and the array's weight."""
    left, weight = CELLS, DENOMINATOR
    while weight > 0:
        array = first_rounding(left, weight)
        limits = [limit(e, n, weight) for e, n in zip(entries(left), entries(array))]
        given = min(limits)
        yield left, weight, array, limits, given
        left, weight = [e - given * n for e, n in zip(left, array)], weight - given


def text(x, y, words, size=14, color="#222", anchor="middle"):
    return f'<text x="{x}" y="{y}" font-size="{size}" fill="{color}" text-anchor="{anchor}">{words}</text>'


def grid(x, y, numbers, color):
    """A number for each entry: cells in boxes, totals beside and below them."""
    parts, totals = [], numbers[ROWS * COLUMNS:]
    for i, j in product(range(ROWS), range(COLUMNS)):
        parts.append(f'<rect x="{x + 30 * j}" y="{y + 26 * i}" width="28" height="24" rx="3" fill="{color}" fill-opacity="0.15"/>')
        parts.append(text(x + 30 * j + 14, y + 26 * i + 17, numbers[i * COLUMNS + j]))
    for i in range(ROWS):
        parts.append(text(x + 30 * COLUMNS + 10, y + 26 * i + 17, totals[i], 12, "#777"))
    for j in range(COLUMNS):
        parts.append(text(x + 30 * j + 14, y + 26 * ROWS + 14, totals[ROWS + j], 12, "#777"))
    parts.append(text(x + 30 * COLUMNS + 10, y + 26 * ROWS + 14, totals[-1], 12, "#777"))
    return parts


def picture():
    parts, start = [], 0
    for column, (left, weight, array, limits, given) in enumerate(rounds()):
        x, color = 30 + 150 * column, COLORS[column]
        parts.append(text(x + 40, 24, f"round {column + 1}", 14, color))
        stages = [(f"left, over {weight}", entries(left)), ("first rounding", entries(array)), ("limits", limits)]
        for line, (words, numbers) in enumerate(stages):
            parts.append(text(x + 40, 46 + 100 * line, words, 12, "#777"))
            parts += grid(x, 54 + 100 * line, numbers, color)
        parts.append(text(x + 40, 346, f"weight {given}", 13, color))
        width = 54 * given
        parts.append(f'<rect x="{30 + 54 * start}" y="366" width="{width - 2}" height="26" rx="3" fill="{color}"/>')
        for number in range(start, start + given):
            parts.append(text(30 + 54 * number + 26, 384, number, 13, "#fff"))
        start += given
    parts.append(text(300, 416, "draw numbers, and the array that each belongs to", 12, "#777"))
    head = '<svg xmlns="http://www.w3.org/2000/svg" viewBox="0 0 600 430" width="600" height="430" font-family="sans-serif">'
    return "\n".join([head, '<rect width="600" height="430" fill="#fff"/>'] + parts + ["</svg>"])


if __name__ == "__main__":
    print(picture())
