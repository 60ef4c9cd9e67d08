#!/usr/bin/env python3
"""Draws the pictures of docs/pictures, each from what the repository has: the layers from crates.txt, the lanes from the formula of
docs/FORMATS.md, the speeds and sizes from bench/FIGURES.md.

    docs/pictures.py             writes them
    docs/pictures.py --check     tells which are not as they would be written; the status is then 1
"""
import html, pathlib, re, sys

TOP = pathlib.Path(__file__).resolve().parent.parent
FOLDER = TOP / "docs" / "pictures"
WIDTH = 800
INK, SOFT, LINE, PAPER = "#1f2d3d", "#5b6b7b", "#c3ccd5", "#ffffff"
BLUE, BLUE_PALE, ORANGE, ORANGE_PALE, RED, GREY_PALE, GREEN, GREEN_PALE = "#2563a8", "#dcebfa", "#b45309", "#fdebd3", "#b3261e", "#eef1f4", "#2f7d4f", "#dcf2e4"


class Drawing:
    """A picture of a fixed width, to which shapes are added from back to front."""

    def __init__(self, title):
        self.title, self.shapes = title, []

    def text(self, x, y, words, size=13, colour=INK, anchor="start", bold=False, code=False):
        family = ' font-family="ui-monospace, Menlo, Consolas, monospace"' if code else ""
        weight = ' font-weight="600"' if bold else ""
        self.shapes.append(f'<text x="{x:g}" y="{y:g}" font-size="{size}" fill="{colour}" text-anchor="{anchor}"{family}{weight}>{html.escape(words)}</text>')

    def box(self, x, y, width, height, fill=GREY_PALE, line=LINE, dashed=False, round=5):
        dashes = ' stroke-dasharray="5 4"' if dashed else ""
        self.shapes.append(f'<rect x="{x:g}" y="{y:g}" width="{width:g}" height="{height:g}" rx="{round}" fill="{fill}" stroke="{line}"{dashes}/>')

    def label(self, x, y, width, height, words, fill=GREY_PALE, line=LINE, size=13, colour=INK, code=False, dashed=False):
        """A box with words in its middle."""
        self.box(x, y, width, height, fill, line, dashed)
        self.text(x + width / 2, y + height / 2 + size * 0.35, words, size, colour, "middle", code=code)

    def line(self, x, y, to_x, to_y, colour=LINE, dashed=False):
        dashes = ' stroke-dasharray="4 4"' if dashed else ""
        self.shapes.append(f'<line x1="{x:g}" y1="{y:g}" x2="{to_x:g}" y2="{to_y:g}" stroke="{colour}" stroke-width="1.4"{dashes}/>')

    def arrow(self, x, y, to_x, to_y, words="", colour=INK):
        """An arrow that is level or upright, with words above a level one."""
        back = 8 if to_x > x or to_y > y else -8
        self.line(x, y, to_x, to_y, colour)
        head = [(to_x, to_y), (to_x - back, to_y - 4), (to_x - back, to_y + 4)] if y == to_y else [(to_x, to_y), (to_x - 4, to_y - back), (to_x + 4, to_y - back)]
        self.shapes.append(f'<polygon points="{" ".join(f"{a:g},{b:g}" for a, b in head)}" fill="{colour}"/>')
        if words:
            self.text((x + to_x) / 2, y - 7, words, 12.5, colour, "middle")

    def svg(self, height):
        start = f'<svg xmlns="http://www.w3.org/2000/svg" viewBox="0 0 {WIDTH} {height:g}" width="{WIDTH}" height="{height:g}" font-family="system-ui, Segoe UI, Helvetica, Arial, sans-serif" role="img">'
        ground = f'<rect width="{WIDTH}" height="{height:g}" rx="8" fill="{PAPER}"/>'
        return "\n".join([start, f"<title>{html.escape(self.title)}</title>", ground, *self.shapes, "</svg>"]) + "\n"


def replica(drawing, x, y, batches, deleted=False):
    """A site's replica: its batches, and the deleted row."""
    drawing.box(x, y, 250, 62)
    for place, name in enumerate(batches):
        ours = name.startswith("1.")
        drawing.label(x + 12 + 74 * place, y + 12, 66, 38, f"batch {name}", BLUE_PALE if ours else ORANGE_PALE, BLUE if ours else ORANGE, 12)
    if deleted:
        drawing.text(x + 166, y + 28, "deleted:", 12, RED)
        drawing.text(x + 166, y + 44, "row 1 of 1.1", 12, RED)


def two_sites():
    """Two sites that load their own rows, and pulls in both directions."""
    drawing = Drawing("Two sites load their own rows. Each pulls what it is missing from the other. Then both have the same bytes.")
    left, right, middle = 40, 510, 400
    drawing.text(left + 125, 32, "paris", 17, BLUE, "middle", bold=True)
    drawing.text(right + 125, 32, "tokyo", 17, ORANGE, "middle", bold=True)
    for x, name, batch in (left, "monday.csv", "1.1"), (right, "tuesday.csv", "2.1"):
        drawing.text(x + 125, 58, f"import --batch {batch} {name}", 12.5, SOFT, "middle", code=True)
        drawing.arrow(x + 125, 66, x + 125, 88, colour=SOFT)
    drawing.text(middle, 84, "each site loads its own rows,", 12.5, SOFT, "middle")
    drawing.text(middle, 100, "and paris deletes one", 12.5, SOFT, "middle")
    replica(drawing, left, 92, ["1.1"], True)
    replica(drawing, right, 92, ["2.1"])
    drawing.arrow(left + 258, 190, right - 8, 190, "summary: I have 1.1", BLUE)
    drawing.arrow(right - 8, 226, left + 258, 226, "offer: batch 2.1", ORANGE)
    drawing.text(left + 125, 190, "paris pulls", 13, INK, "middle", bold=True)
    drawing.text(left + 125, 208, "summary | offer | apply", 12.5, SOFT, "middle", code=True)
    replica(drawing, left, 240, ["1.1", "2.1"], True)
    replica(drawing, right, 240, ["2.1"])
    drawing.text(right + 125, 336, "tokyo pulls", 13, INK, "middle", bold=True)
    drawing.text(right + 125, 354, "apply tokyo.lanes paris.lanes", 12.5, SOFT, "middle", code=True)
    drawing.arrow(left + 258, 344, right - 8, 344, "offer: batch 1.1, and its deletion", BLUE)
    replica(drawing, left, 372, ["1.1", "2.1"], True)
    replica(drawing, right, 372, ["1.1", "2.1"], True)
    drawing.text(middle, 398, "the same bytes,", 13, GREEN, "middle", bold=True)
    drawing.text(middle, 416, "in whatever order", 13, GREEN, "middle", bold=True)
    drawing.text(middle, 434, "it all came", 13, GREEN, "middle", bold=True)
    return drawing.svg(454)


def layers():
    """The crates in the layers of crates.txt, lowest last. Those of tests are left out."""
    found = []
    for line in (TOP / "crates.txt").read_text().splitlines()[1:]:
        if line.startswith("# "):
            found.append((line[2:].rstrip("."), []))
        elif line and not line.split(":")[0].endswith("_tests"):
            found[-1][1].append(line.split(":")[0].split()[0])
    return [(head, crates) for head, crates in found if not head.startswith("Support for tests")]


def wrapped(words, most):
    """Words in lines of at most so many characters."""
    lines = [""]
    for word in words.split():
        if lines[-1] and len(lines[-1]) + len(word) >= most:
            lines.append("")
        lines[-1] = f"{lines[-1]} {word}".strip()
    return lines


def layer_rows(crates):
    """The crates of a layer in rows that fit, each crate with its width."""
    rows, room = [[]], WIDTH - 270
    for crate in crates:
        width = 7.4 * len(crate) + 16
        if sum(wide + 8 for _, wide in rows[-1]) + width > room:
            rows.append([])
        rows[-1].append((crate, width))
    return rows


def crate_layers():
    """The layers, the highest first."""
    drawing = Drawing("The crates in their layers. A crate uses crates of lower layers, and of its own layer those that come before it.")
    y = 20
    for number, (head, crates) in enumerate(reversed(layers())):
        rows, lines = layer_rows(crates), wrapped(head, 32)
        height = max(32 * len(rows) + 12, 17 * len(lines) + 16)
        drawing.box(16, y, WIDTH - 32, height, BLUE_PALE if number % 2 else GREY_PALE)
        for place, words in enumerate(lines):
            drawing.text(28, y + 22 + 17 * place, words, 12.5, INK)
        for down, row in enumerate(rows):
            x = 252
            for crate, width in row:
                drawing.label(x, y + 8 + 32 * down, width, 26, crate, PAPER, LINE, 12, INK, code=True)
                x += width + 8
        y += height + 6
    drawing.text(WIDTH / 2, y + 18, "A crate uses crates of the layers below it, and of its own layer those that come before it.", 12.5, SOFT, "middle")
    return drawing.svg(y + 34)


#: From which places on the middle column and the right one are drawn in the picture of a folder, and how far apart its moments are.
PARTS_AT, PACK_AT, MOMENT = 264, 500, 50


def folder_state(drawing, y, parts, gone=(), new=(), temporary=None):
    """What is in the folder at a moment: its parts, and perhaps a temporary."""
    drawing.box(PARTS_AT, y, 208, 40)
    for place, part in enumerate(parts):
        fill, line, ink = (GREEN_PALE, GREEN, INK) if part in new else (PAPER, RED, RED) if part in gone else (BLUE_PALE, BLUE, INK)
        drawing.label(PARTS_AT + 8 + 34 * place, y + 7, 28, 26, part, fill, line, 13, ink, dashed=part in gone)
    if temporary:
        drawing.label(PARTS_AT + 14 + 34 * len(parts), y + 7, 52, 26, temporary, PAPER, SOFT, 11, SOFT, code=True, dashed=True)


#: What a load and a pack do, and the parts after it.
MOMENTS = [
    ("", "", "ab", {}),
    ("writes its rows to a temporary, syncs it", "", "ab", {"temporary": ".part-"}),
    ("gives it its name, syncs the folder: ok", "", "abc", {"new": "c"}),
    ("", "reads a, b and c; nothing is locked", "abc", {}),
    ("", "writes them as one to a temporary, syncs it", "abc", {"temporary": ".part-"}),
    ("another load may add d", "takes the exclusive lock of the folder", "abcd", {"new": "d"}),
    ("", "looks if a, b and c are still there", "abcd", {}),
    ("", "names the new part e, compares and syncs it", "abcde", {"new": "e"}),
    ("", "removes a, b and c", "abcde", {"gone": "abc"}),
    ("", "lets the lock go: ok", "de", {}),
]


def folder_lock():
    """A load and a pack of a folder, step by step, downwards."""
    drawing = Drawing("A load adds a part and takes no exclusive lock. A pack adds the joined part under the lock, and only then removes the others.")
    drawing.text(130, 32, "a load", 16, BLUE, "middle", bold=True)
    drawing.text(PARTS_AT + 104, 32, "the folder", 16, INK, "middle", bold=True)
    drawing.text(640, 32, "a pack", 16, GREEN, "middle", bold=True)
    first = next(place for place, moment in enumerate(MOMENTS) if "takes the exclusive lock" in moment[1])
    drawing.box(PACK_AT - 8, 47 + MOMENT * first, WIDTH - PACK_AT - 4, MOMENT * (len(MOMENTS) - first), PAPER, GREEN, dashed=True)
    drawing.text(WIDTH - 22, 52 + MOMENT * (len(MOMENTS) - 1) + 25, "under the lock", 12, GREEN, "end")
    for place, (load, pack, parts, marks) in enumerate(MOMENTS):
        y = 52 + MOMENT * place
        folder_state(drawing, y, parts, **marks)
        if load:
            drawing.text(PARTS_AT - 24, y + 25, load, 12, INK, "end")
            drawing.arrow(PARTS_AT - 19, y + 21, PARTS_AT - 3, y + 21, colour=BLUE)
        if pack:
            drawing.text(PACK_AT, y + 25, pack, 12, INK)
            drawing.arrow(PACK_AT - 10, y + 21, PARTS_AT + 211, y + 21, colour=GREEN)
    bottom = 52 + MOMENT * len(MOMENTS)
    drawing.text(WIDTH / 2, bottom + 16, "Killed at any moment, the folder has all rows: in a, b and c, in e, or in both. A row that is in two parts counts once.", 12.5, SOFT, "middle")
    drawing.text(WIDTH / 2, bottom + 34, "A reader lists the names and reads the parts. If one is gone meanwhile, it begins anew.", 12.5, SOFT, "middle")
    return drawing.svg(bottom + 50)


#: The bits of a value, and of a lane, in the picture of lanes.
LANE = 32


def row_at(lane, step):
    """The row of a vector at a lane and a step, as in docs/FORMATS.md, "Lanes and steps", for lanes of 32 bits."""
    return 64 * (lane % 16) + LANE * (lane // 16) + step


def lanes_and_steps():
    """The 1024 values of a vector as 32 lanes of 32 steps, and a lane packed at 3 bits."""
    drawing = Drawing("A vector of 1024 values of 32 bits has 32 lanes. One step takes a value of each lane, so one instruction works on many values.")
    lanes, steps = [0, 1, 2, None, 15, 16, 17, None, 31], [0, 1, 2, 3, None, 31]
    left, top, wide, high = 112, 70, 64, 32
    drawing.text(left + wide * len(lanes) / 2, 28, "1024 rows of a column: 32 lanes of 32 steps", 15, INK, "middle", bold=True)
    for across, lane in enumerate(lanes):
        drawing.text(left + wide * across + wide / 2, top - 10, "..." if lane is None else f"lane {lane}", 12, BLUE, "middle")
        for down, step in enumerate(steps):
            between = lane is None or step is None
            fill = PAPER if between else GREEN_PALE if step == 2 else BLUE_PALE if lane == 1 else GREY_PALE
            drawing.label(left + wide * across, top + high * down, wide, high, "..." if between else f"row {row_at(lane, step)}", fill, LINE, 11.5, SOFT if between else INK)
    for down, step in enumerate(steps):
        drawing.text(left - 10, top + high * down + 20, "..." if step is None else f"step {step}", 12, GREEN, "end")
    end = top + high * len(steps)
    drawing.text(left + wide * len(lanes) + 8, top + high * 2 + 20, "one step:", 12, GREEN)
    drawing.text(left + wide * len(lanes) + 8, top + high * 2 + 36, "32 values", 12, GREEN)
    drawing.text(left + wide * len(lanes) + 8, top + high * 2 + 52, "side by side", 12, GREEN)
    drawing.text(left + wide * 1.5, end + 22, "a lane: 32 rows that follow each other", 12, BLUE, "middle")
    drawing.arrow(left + wide * 1.5, end + 30, left + wide * 1.5, end + 56, colour=BLUE)
    drawing.text(left, end + 80, "Lane 1 packed at 3 bits: its 32 values in 3 words of 32 bits, the lowest bits first", 13, INK, bold=True)
    packed(drawing, left, end + 94, 3)
    drawing.text(left, end + 172, "Word 0 of all 32 lanes comes first, then word 1 of all, then word 2. So a step is a shift and a mask", 12.5, SOFT)
    drawing.text(left, end + 189, "of words that are next to each other, the same for all lanes. At width W the vector takes 128 W bytes.", 12.5, SOFT)
    return drawing.svg(end + 206)


def packed(drawing, x, y, width):
    """The words of a lane, and the steps of the values whose bits they have."""
    wide = 576 / width - 6
    for word in range(width):
        at = x + word * (wide + 9)
        drawing.box(at, y, wide, 30, PAPER)
        first = word * LANE
        steps = sorted({bit // width for bit in range(first, first + LANE)})
        for step in steps:
            begin, end = max(step * width, first), min((step + 1) * width, first + LANE)
            drawing.box(at + (begin - first) * wide / LANE, y, (end - begin) * wide / LANE, 30, GREEN_PALE if step == 2 else BLUE_PALE, LINE, round=0)
            if end - begin == width:
                drawing.text(at + ((begin + end) / 2 - first) * wide / LANE, y + 19, str(step), 9.5, INK, "middle")
        drawing.text(at + wide / 2, y + 46, f"word {word}: steps {steps[0]} to {steps[-1]}", 11.5, SOFT, "middle")


def figures():
    """What bench/FIGURES.md says of lanes and sqlite3: when it was measured and of which versions, the sizes in MB, and of each query its name and its milliseconds."""
    section = (TOP / "bench" / "FIGURES.md").read_text().split("## Compared with sqlite3\n")[1].split("\n## ")[0]
    day, lanes_version, sqlite_version = re.search(r"(\d{4}-\d\d-\d\d), version (\S+) for .*? and sqlite3 (\S+) ", section).groups()
    rows = [[cell.strip() for cell in line.strip("|").split("|")] for line in section.splitlines() if line.startswith("| ")]
    sizes = next((row for row in rows if row[0] == "size"))
    csv, packed_csv = re.search(r"as CSV: ([\d.]+) MB, by gzip -6 ([\d.]+) MB", section).groups()
    lanes, sqlite = (float(re.match(r"[\d.]+", cell)[0]) for cell in sizes[1:])
    queries = [(row[0].split("`")[0].rstrip(", "), float(row[1].split()[0]), float(row[3].split()[0])) for row in rows if re.match(r"Q\d\d", row[0])]
    return f"{day}, lanes {lanes_version} and sqlite3 {sqlite_version}", [("CSV", float(csv)), ("sqlite3", sqlite), ("CSV by gzip", float(packed_csv)), ("lanes", lanes)], queries


#: What each query of bench/queries.py asks, in a few words.
ASKED = {
    "Q01": "COUNT(*)", "Q02": "a sum", "Q03": "a sum of the rows of one kind", "Q04": "30 days of 400, AND, IN, OR", "Q05": "NOT of a range, AND",
    "Q06": "least and greatest", "Q07": "a mean", "Q08": "6 groups", "Q09": "500 groups", "Q10": "distinct days", "Q11": "a range of one column", "Q12": "one site of 500",
}


def bars(drawing, y, rows, most, room, unit):
    """A bar for each number of each row."""
    for name, numbers in rows:
        drawing.text(246, y + 8 * len(numbers) + 2, name, 12.5, INK, "end")
        for place, (number, colour) in enumerate(numbers):
            wide = max(1.5, number / most * room)
            drawing.box(254, y + 14 * place, wide, 11, colour, colour, round=1)
            drawing.text(260 + wide, y + 14 * place + 9.5, f"{number:,.{0 if number >= 100 or unit == 'ms' else 1}f} {unit}", 11, SOFT)
        y += 14 * len(numbers) + 8
    return y


def speed_and_size():
    """The sizes of a table, and what twelve queries take."""
    measured, sizes, queries = figures()
    drawing = Drawing("The size of 6,400,000 rows of six columns, and the processor time of twelve queries, with lanes and with sqlite3.")
    drawing.text(24, 30, "6,400,000 rows of six columns: size", 15, INK, bold=True)
    y = bars(drawing, 46, [(name, [(size, BLUE if name == "lanes" else LINE)]) for name, size in sizes], max(size for _, size in sizes), 440, "MB")
    drawing.text(24, y + 28, "A query, the whole command: processor time", 15, INK, bold=True)
    for x, colour, name in (480, BLUE, "lanes"), (560, LINE, "sqlite3, no index"):
        drawing.box(x, y + 18, 12, 11, colour, colour, round=1)
        drawing.text(x + 18, y + 28, name, 12.5, INK)
    most = max(max(ours, theirs) for _, ours, theirs in queries)
    y = bars(drawing, y + 44, [(f"{ASKED[name]} ({name})", [(ours, BLUE), (theirs, LINE)]) for name, ours, theirs in queries], most, 440, "ms")
    drawing.text(WIDTH / 2, y + 14, f"{measured}, by bench/sqlite.py, while the machine did other work too. See docs/COMPARISON.md.", 12, SOFT, "middle")
    return drawing.svg(y + 30)


PICTURES = {"two-sites": two_sites, "layers": crate_layers, "folder": folder_lock, "lanes": lanes_and_steps, "speed": speed_and_size}


def main():
    stale = []
    for name, draw in PICTURES.items():
        path, text = FOLDER / f"{name}.svg", draw()
        if sys.argv[1:] == ["--check"]:
            stale += [] if path.exists() and path.read_text() == text else [path]
        else:
            path.parent.mkdir(exist_ok=True)
            path.write_text(text)
    print("".join(f"{path.relative_to(TOP)} is not what docs/pictures.py draws\n" for path in stale), end="")
    sys.exit(1 if stale else 0)


if __name__ == "__main__":
    main()
