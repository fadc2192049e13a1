"""Draws the crates in their layers from crates.txt, as SVG: python3 tools/layers.py > docs/layers.svg

A crate stands one floor above the highest crate that it uses. A line goes down to each crate that it uses and that no other
crate between them uses; programs have a round frame. Run it where crates.txt stands, after a change of it.
"""

from pathlib import Path

BOX = 24  # a box's height
GAP = 18  # between two boxes
FLOOR = 74  # from floor to floor
LETTER = 7.3  # a letter's width
MARGIN = 16


def crates():
    """Each crate of crates.txt with the crates of it that it uses."""
    lines = [line.split("#")[0] for line in Path("crates.txt").read_text().splitlines()]
    named = [line.replace(" staticlib", "").split(":") for line in lines if ":" in line]
    names = [name.strip() for name, _ in named]
    return {name.strip(): [used for used in uses.split() if used in names] for name, uses in named}


def floors(uses):
    """Each crate's floor."""
    found = {}

    def floor(name):
        if name not in found:
            found[name] = 1 + max((floor(used) for used in uses[name]), default=-1)
        return found[name]

    for name in uses:
        floor(name)
    return found


def below(uses):
    """All that each crate stands on."""
    found = {}

    def all_below(name):
        if name not in found:
            found[name] = set(uses[name]).union(*(all_below(used) for used in uses[name]))
        return found[name]

    for name in uses:
        all_below(name)
    return found


def lines(uses):
    """What each crate uses, without what it also stands on by way of another."""
    under = below(uses)
    return {name: [used for used in uses[name] if not any(used in under[other] for other in uses[name])] for name in uses}


def width(name):
    return len(name) * LETTER + 16


def placed(uses, floor):
    """The middle of each box: a crate stands above the middle of what it uses, as far as its neighbours leave room."""
    drawn, middle = lines(uses), {}
    widest = max(sum(width(name) + GAP for name in uses if floor[name] == level) for level in set(floor.values()))
    for level in sorted(set(floor.values())):
        row = [name for name in uses if floor[name] == level]
        wish = {name: sum(middle[used] for used in drawn[name]) / len(drawn[name]) if drawn[name] else widest / 2 for name in row}
        row.sort(key=lambda name: (wish[name], name))
        right = MARGIN - GAP
        for name in row:
            middle[name] = max(wish[name], right + GAP + width(name) / 2)
            right = middle[name] + width(name) / 2
        over = right - widest - MARGIN
        for name in reversed(row):  # back to the left where the row has run over the edge
            if over <= 0:
                break
            middle[name] -= over
            left = middle[name] - width(name) / 2
            before = row[row.index(name) - 1] if row.index(name) else None
            over = middle[before] + width(before) / 2 + GAP - left if before else 0
    return middle, widest + 2 * MARGIN


def svg(uses):
    floor = floors(uses)
    middle, wide = placed(uses, floor)
    top = max(floor.values())
    height = (top + 1) * FLOOR - (FLOOR - BOX) + 2 * MARGIN

    def y(name):
        return MARGIN + (top - floor[name]) * FLOOR

    yield f'<svg xmlns="http://www.w3.org/2000/svg" viewBox="0 0 {wide:.0f} {height:.0f}" font-family="monospace" font-size="12">'
    yield "<title>The crates in their layers: each stands on those below that its lines lead to</title>"
    yield f'<rect width="{wide:.0f}" height="{height:.0f}" fill="white"/>'
    for name, used in lines(uses).items():
        for other in used:
            x1, y1, x2, y2 = middle[name], y(name) + BOX, middle[other], y(other)
            bend = (y2 - y1) / 2
            yield (
                f'<path d="M{x1:.1f} {y1:.0f}C{x1:.1f} {y1 + bend:.0f} {x2:.1f} {y2 - bend:.0f} {x2:.1f} {y2:.0f}" '
                'fill="none" stroke="#789"/>'
            )
    for name in uses:
        program = Path(f"crates/{name}/src/main.rt").exists()
        fill, round_ = ("#fff3d6", BOX / 2) if program else ("#e3eefc", 3)
        yield (
            f'<rect x="{middle[name] - width(name) / 2:.1f}" y="{y(name):.0f}" width="{width(name):.1f}" height="{BOX}" '
            f'rx="{round_:.0f}" fill="{fill}" stroke="#345"/>'
        )
        yield f'<text x="{middle[name]:.1f}" y="{y(name) + 16:.0f}" text-anchor="middle">{name}</text>'
    yield "</svg>"


print("\n".join(svg(crates())))
