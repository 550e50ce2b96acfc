"""Draws docs/speed.svg from the tables of docs/SPEED.md: python3 bench/draw.py

A bar is how much of Rust's instructions ours takes, by the numbers of one row: to the left of the line less, to the right more.
A mark in it is how much of Rust's time. Columns that name Rust go with ours in order, and so do those of times, which are ratios;
those of rings and of the kit's std are left out. The axis goes by doublings. Who changes a number there draws again.
"""

import math
import pathlib
from xml.sax.saxutils import escape

DOCS = pathlib.Path(__file__).resolve().parent.parent / "docs"
LESS, MORE = "#1f6f8b", "#c9733a"
NAMES, WIDTH, BAR, TOP = 290, 840, 13, 48
LEAST, MOST = 1 / 8, 32


def cells_of(line):
    return [it.strip() for it in line.strip().strip("|").split("|")]


def number(cell):
    cell = cell.strip("()")
    return float(cell) if cell.replace(".", "", 1).isdigit() else None


def bars_of(columns):
    """For each bar a name, and the columns of ours, of Rust and of the time, where there is one, by their places."""
    rust = [at for at, name in enumerate(columns) if at and "Rust" in name]
    times = [at for at, name in enumerate(columns) if at and name.startswith("time")]
    left_out = [at for at, name in enumerate(columns) if name == "ring" or name.startswith("the kit's")]
    ours = [at for at in range(1, len(columns)) if at not in rust + times + left_out]
    times += [None] * (len(rust) - len(times))
    names = [""] if len(rust) == 1 else [f": {columns[our]}" for our in ours]
    return list(zip(names, ours, rust, times))


def groups_of(page):
    """Of each table that has a column of Rust the heading above it, and each bar's name, ratio and time."""
    found, heading, columns = [], "", None
    for line in page.splitlines():
        if line.startswith("## "):
            heading = line[3:]
        if not line.startswith("|"):
            columns = None
        elif columns is None:
            columns = cells_of(line)
            rows, wanted = [], bars_of(columns)
            if wanted:
                found.append((f"{heading}: {columns[0][0].lower()}{columns[0][1:]}", rows))
        elif not line.startswith("|-"):
            row = cells_of(line)
            for name, our, other, time in wanted:
                if number(row[our]) and number(row[other]):
                    took = number(row[time]) if time else None
                    rows.append((row[0] + name, number(row[our]) / number(row[other]), took))
    return found


def place(ratio):
    """How far to the right a ratio stands."""
    share = math.log(min(max(ratio, LEAST), MOST) / LEAST) / math.log(MOST / LEAST)
    return NAMES + share * (WIDTH - NAMES - 40)


def text(x, y, words, size=11, anchor="start", weight="normal"):
    style = f'font-size="{size}" text-anchor="{anchor}" font-weight="{weight}"'
    return f'<text x="{x:.1f}" y="{y:.1f}" {style}>{escape(words)}</text>'


def block(x, y, width, height, colour):
    return f'<rect x="{x:.1f}" y="{y}" width="{width:.1f}" height="{height}" fill="{colour}"/>'


def drawing(groups):
    parts, y = [], TOP
    for head, rows in groups:
        parts.append(text(12, y + BAR, head, weight="bold"))
        y += BAR + 6
        for name, ratio, took in rows:
            first, last = sorted((place(1), place(ratio)))
            parts.append(text(NAMES - 12, y + BAR - 3, name.replace("`", ""), anchor="end"))
            parts.append(block(first, y, last - first, BAR - 2, LESS if ratio < 1 else MORE))
            ends = [first, last]
            if took:
                parts.append(block(place(took) - 1, y, 2, BAR - 2, "#222222"))
                ends.append(place(took))
            at, anchor = (min(ends) - 4, "end") if ratio < 1 else (max(ends) + 4, "start")
            parts.append(text(at, y + BAR - 3, f"{ratio:.2f}", 9, anchor))
            y += BAR
        y += 8
    lines = []
    for at, words in (1 / 4, "1/4"), (1 / 2, "1/2"), (1, "as Rust"), (2, "2"), (4, "4"), (8, "8"), (16, "16"):
        colour = "#444444" if at == 1 else "#dddddd"
        lines += [block(place(at), TOP - 6, 1, y - TOP, colour), text(place(at), TOP - 10, words, 10, "middle")]
    title = "Instructions of ours for one of Rust's std: less is better. A mark is the same of time"
    head = f'<svg xmlns="http://www.w3.org/2000/svg" width="{WIDTH}" height="{y + 8}" font-family="sans-serif" role="img">'
    back = '<rect width="100%" height="100%" fill="white"/>' + text(12, 22, title, 13, weight="bold")
    return "\n".join([head, f"<title>{title}</title>", back, *lines, *parts, "</svg>\n"])


def main():
    groups = groups_of((DOCS / "SPEED.md").read_text(encoding="utf-8"))
    (DOCS / "speed.svg").write_text(drawing(groups), encoding="utf-8")
    print(f"drew {sum(len(rows) for _, rows in groups)} bars of {len(groups)} tables")


if __name__ == "__main__":
    main()
