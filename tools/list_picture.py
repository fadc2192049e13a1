"""Draws a list of ./list as SVG: python3 tools/list_picture.py NAME < LIST

The picture has all 4 GiB: a row is 16 MiB, the addresses ascend from left to right and then down. A range of 64 KiB or more is
drawn as it is; smaller ones share a mark of 64 KiB, in the colour of the gravest, and the first 64 marks are drawn again below,
each as a row of its own. Hovering shows a range, or those of a mark. The list is read as it comes, and little of it is kept; the
picture is written at its end. Of a list that was refused there is none: the refusal's line goes to standard error, and its number
is the status.
"""

import sys
from xml.sax.saxutils import escape

ROW = 1 << 24  # addresses of a row
MARK = 1 << 16  # addresses of the smallest mark
ROWS = 256
PIXEL = 1 << 14  # addresses of a pixel
PITCH = 5  # from row to row
BAR = 4  # a row's height
LEFT, TOP = 84, 92  # of the first row
SHOWN = 16  # ranges that a mark's text has
BELOW = 64  # marks that are drawn again
BELOW_PITCH, BELOW_BAR = 17, 14  # of their rows
BELOW_PIXEL = 1 << 6  # addresses of a pixel there
BELOW_RANGES = 1024  # ranges that are drawn of a mark

# by gravity, the gravest last: the flags of a line, the colour, and the word for it
KINDS = {
    "-": ("#2e8b57", "mapped"),
    "W": ("#d99a00", "write-protected"),
    "S": ("#3a6fd8", "supervisor"),
    "WS": ("#7b3fa0", "supervisor, write-protected"),
    "unfetchable": ("#c8102e", "unfetchable"),
}
GRAVITY = list(KINDS)


def size(count):
    """So many addresses in the largest unit that divides them."""
    for unit, name in ((1 << 30, "GiB"), (1 << 20, "MiB"), (1 << 10, "KiB")):
        if count % unit == 0:
            return f"{count // unit} {name}"
    return f"{count} bytes" if count > 1 else "1 byte"


def read(line):
    """First and last address, the kind and the text of a range's line."""
    stretch, rest = line.split(" ", 1)
    first, last = (int(word, 16) for word in stretch.split("-"))
    kind = rest.split(" ")[-1]
    where = "" if kind == "unfetchable" else f" at {rest.split(' ')[0]}"
    return first, last, kind, f"{stretch}{where}: {KINDS[kind][1]}, {size(last + 1 - first)}"


def kind_class(kind):
    return "none" if kind == "-" else kind


def rectangle(x, y, width, height, kind, text):
    shape = f'x="{x:g}" y="{y:g}" width="{width:g}" height="{height:g}"'
    return f'<rect {shape} class="{kind_class(kind)}"><title>{escape(text)}</title></rect>'


def in_space(first, count, kind, text):
    """A stretch of one row, or of whole ones."""
    rows = max(1, count // ROW)
    x, y = LEFT + first % ROW / PIXEL, TOP + first // ROW * PITCH
    return rectangle(x, y, min(count, ROW) / PIXEL, rows * PITCH - PITCH + BAR, kind, text)


def below(row, first, last, kind, text):
    """A range in the row of its mark, with a pixel between it and the next where there is room."""
    x, y = LEFT + first % MARK / BELOW_PIXEL, TOP + ROWS * PITCH + 46 + row * BELOW_PITCH
    width = (last + 1 - first) / BELOW_PIXEL
    return rectangle(x, y, max(1, width if width < 4 else width - 1), BELOW_BAR, kind, text)


class Picture:
    """The shapes so far, the first marks, the ranges of the mark that is open, and how many addresses there are of each kind."""

    def __init__(self):
        self.shapes, self.marks, self.count = [], [], 0
        self.open, self.texts, self.gravest, self.ranges = None, [], 0, 0
        self.addresses = dict.fromkeys(KINDS, 0)

    def add(self, first, last, kind, text):
        self.addresses[kind] += last + 1 - first
        if self.open is not None and self.open != first // MARK:
            self.close()
        if last + 1 - first >= MARK:
            self.shapes.append(in_space(first, last + 1 - first, kind, text))
        else:
            self.add_small(first, last, kind, text)

    def add_small(self, first, last, kind, text):
        """A range that shares a mark, which it opens where it is the first there."""
        if self.open is None:
            self.open = first // MARK
            self.marks += [self.open] if self.count < BELOW else []
            self.count += 1
        self.ranges += 1
        self.gravest = max(self.gravest, GRAVITY.index(kind))
        if self.ranges <= SHOWN:
            self.texts.append(text)
        if self.count <= BELOW and self.ranges <= BELOW_RANGES:
            self.shapes.append(below(self.count - 1, first, last, kind, text))

    def close(self):
        """Draws the mark that is open."""
        if self.open is not None:
            more = [f"and {self.ranges - SHOWN} more"] if self.ranges > SHOWN else []
            text = "\n".join(self.texts + more)
            self.shapes.append(in_space(self.open * MARK, MARK, GRAVITY[self.gravest], text))
        self.open, self.texts, self.gravest, self.ranges = None, [], 0, 0

    def below(self):
        """Around the rows of the first marks: a heading, and what each is."""
        if not self.marks:
            return
        y = TOP + ROWS * PITCH + 34
        some = f"the first {BELOW} of {self.count}" if self.count > BELOW else "each"
        yield f'<text x="{LEFT}" y="{y}">Marks with ranges below 64 KiB, {some} as a row of 64 KiB</text>'
        for row, mark in enumerate(self.marks):
            y = TOP + ROWS * PITCH + 46 + row * BELOW_PITCH
            yield f'<text x="10" y="{y + 11}" font-family="monospace">{mark * MARK:08X}</text>'
            yield f'<rect x="{LEFT}" y="{y}" width="{MARK // BELOW_PIXEL}" height="{BELOW_BAR}" class="space"/>'

    def height(self):
        rows = TOP + ROWS * PITCH + 12
        return rows + 40 + len(self.marks) * BELOW_PITCH if self.marks else rows


def legend(addresses):
    """A square, the kind and how much of it there is, in two lines."""
    parts = []
    for place, (kind, (_, word)) in enumerate(KINDS.items()):
        x, y = LEFT + place % 3 * 330, TOP - 44 + place // 3 * 18
        parts.append(f'<rect x="{x}" y="{y}" width="11" height="11" class="{kind_class(kind)}"/>')
        parts.append(f'<text x="{x + 17}" y="{y + 10}">{word}: {size(addresses[kind]) if addresses[kind] else "none"}</text>')
    return parts


def svg(name, last_line, picture):
    width, height = LEFT + ROW // PIXEL + 16, picture.height()
    yield f'<svg xmlns="http://www.w3.org/2000/svg" width="{width}" height="{height}" viewBox="0 0 {width} {height}" font-family="sans-serif" font-size="13">'
    colours = " ".join(f".{kind_class(kind)}{{fill:{colour}}}" for kind, (colour, _) in KINDS.items())
    yield f"<style>{colours} .space{{fill:#eceff1}} rect:hover{{stroke:#000}} .space:hover{{stroke:none}}</style>"
    yield f'<rect width="{width}" height="{height}" style="fill:#fff;stroke:none"/>'
    yield f'<text x="{LEFT}" y="22" font-size="16">{escape(name)}</text>'
    yield f'<text x="{LEFT}" y="40">{escape(last_line)}; a row is 16 MiB, the smallest mark 64 KiB</text>'
    yield from legend(picture.addresses)
    for row in range(ROWS):
        yield f'<rect x="{LEFT}" y="{TOP + row * PITCH}" width="{ROW // PIXEL}" height="{BAR}" class="space"/>'
        if row % 16 == 0:
            yield f'<text x="10" y="{TOP + row * PITCH + 9}" font-family="monospace">{row * ROW:08X}</text>'
    yield from picture.below()
    yield from picture.shapes
    yield "</svg>"


def main():
    picture, last_line = Picture(), ""
    for line in sys.stdin:
        last_line = line.rstrip("\n")
        if "-" in last_line.split(" ", 1)[0]:
            picture.add(*read(last_line))
    picture.close()
    if not last_line.endswith(" bytes mapped"):
        print(last_line, file=sys.stderr)
        number = last_line.removeprefix("R ")
        sys.exit(int(number) if number.isdigit() else 1)
    try:
        for part in svg(sys.argv[1], last_line, picture):
            print(part)
        sys.stdout.flush()
    except OSError:
        sys.stderr.close()  # what Python would say of it; ./list says it
        sys.exit(1)


main()
