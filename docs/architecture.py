#!/usr/bin/env python3
"""Draws docs/architecture.svg from crates.txt and the places below: python3 docs/architecture.py

The arrows are the dependencies of crates.txt without those that follow from others. A crate without a place, an arrow
without a way and a way that leads through a box are errors.
"""

from pathlib import Path
import sys

DOCS = Path(__file__).resolve().parent

# Centres of the columns and of the rows. The interface has columns of its own: all of it stands right under `terminal`.
COLUMN = {"log": 185, "exchange": 325, "beside": 460, "spine": 605, "table": 750, "session": 925, "claim": 1070, "lines": 1212}
COLUMN |= {"device": 398, "command": 535, "answer": 675}
TOP, PITCH = 100, 64
WIDTH, HEIGHT = 124, 42
PICTURE = 1295, 1105

# Each layer: its name in lines, its first row and its last.
LAYERS = [
    (["exports; claims", "about C and texts"], 0, 0),
    (["program,", "C functions"], 1, 1),
    (["interface"], 2, 2),
    (["accepted pools,", "sessions, logs,", "messages"], 3, 5),
    (["checking"], 6, 11),
    (["reading"], 12, 13),
    (["records, bytes"], 14, 15),
]

# Each crate: its column, its row and what it holds, in a few words.
BOXES = {
    "c_functions": ("exchange", 0, "what C is promised"),
    "query_claims": ("table", 0, "texts and labels"),
    "c_sessions": ("claim", 0, "the one claim, of C"),
    "terminal_c": ("spine", 0, "the exports for C"),
    "terminal": ("exchange", 1, "the functions that C calls"),
    "lister": ("lines", 1, "the program"),
    "device_pool": ("device", 2, "over the lent table"),
    "commands": ("command", 2, "over the lent table"),
    "c_answers": ("answer", 2, "as numbers for C"),
    "pool_listing": ("lines", 2, "a whole listing"),
    "listing": ("lines", 3, "its lines"),
    "decimal": ("lines", 4, "decimal digits"),
    "log_writing": ("log", 3, "log records written"),
    "presentation": ("exchange", 3, "displayed values"),
    "judging": ("spine", 3, "commands judged"),
    "cases": ("claim", 3, "worked cases"),
    "log_reading": ("log", 4, "log records, logs"),
    "messages": ("exchange", 4, "process data"),
    "queries": ("spine", 4, "texts and labels"),
    "activation": ("session", 4, "checked and kept"),
    "book": ("claim", 4, "all lists of calls"),
    "time_log": ("log", 5, "a record's layout"),
    "session": ("session", 5, "one client's calls"),
    "checker": ("spine", 6, "checking a pool"),
    "claims": ("claim", 6, "reading, checking"),
    "pool_breaches": ("spine", 7, "faults of a pool"),
    "record_breaches": ("spine", 8, "faults of a record"),
    "reference_rules": ("spine", 9, "parents and lists"),
    "chains": ("beside", 10, "endless, repeated"),
    "field_rules": ("spine", 10, "one record alone"),
    "marks": ("beside", 11, "bits under numbers"),
    "rules": ("spine", 11, "the rule table"),
    "faults": ("session", 11, "the fault buffer"),
    "text": ("beside", 12, "one text examined"),
    "naming": ("spine", 12, "what an ID names"),
    "working_table": ("table", 12, "the lent table"),
    "filling": ("session", 12, "a law of its own"),
    "views": ("beside", 13, "a record's fields"),
    "pool": ("spine", 13, "reading a pool"),
    "records": ("spine", 14, "the five records"),
    "division": ("claim", 14, "independent account"),
    "wire": ("spine", 15, "numbers in bytes"),
}
PROGRAMS = {"terminal_c", "lister"}
CLAIMS = {"c_functions", "c_sessions", "query_claims", "cases", "book", "claims", "division"}

# Arrows that do not go straight: from which side and how far from its middle, the turns in between (x or y in turn), to
# which side and how far from its middle.
BENDS = {
    ("c_functions", "terminal"): ("bottom", 0, [], "top", -230),
    ("terminal_c", "terminal"): ("bottom", 0, [], "top", 50),
    ("c_functions", "book"): ("top", 40, [-0.5, 997], "left", -9),
    ("query_claims", "device_pool"): ("right", 0, [1002, 1.5], "top", 30),
    ("query_claims", "book"): ("right", -12, [992], "left", 3),
    ("c_sessions", "terminal"): ("left", 9, [], "top", 330),
    ("c_sessions", "book"): ("right", 0, [1143], "right", 0),
    ("c_answers", "session"): ("right", 9, [838], "left", 0),
    ("cases", "judging"): ("left", -9, [1000, 2.5], "top", 50),
    ("cases", "pool_listing"): ("top", 40, [], "left", 9),
    ("pool_listing", "checker"): ("left", -9, [826], "right", -15),
    ("listing", "records"): ("right", 0, [1284, 14.5], "bottom", 40),
    ("decimal", "wire"): ("bottom", 0, [], "right", 12),
    ("checker", "working_table"): ("right", 16, [], "top", 0),
    ("commands", "judging"): ("bottom", 35, [], "top", -35),
    ("c_answers", "judging"): ("bottom", -35, [], "top", 35),
    ("device_pool", "queries"): ("bottom", 30, [3.5], "top", -30),
    ("judging", "messages"): ("left", 9, [532], "right", 0),
    ("activation", "checker"): ("left", 9, [850], "right", -5),
    ("claims", "checker"): ("left", 6, [], "right", 6),
    ("claims", "presentation"): ("left", -9, [998, 5.56, 460], "right", 0),
    ("pool_breaches", "chains"): ("left", 0, [], "top", 0),
    ("record_breaches", "marks"): ("left", 0, [388], "left", 0),
    ("chains", "rules"): ("bottom", 30, [10.5], "top", -30),
    ("rules", "faults"): ("right", 0, [], "left", 0),
    ("faults", "naming"): ("bottom", -30, [11.5], "top", 30),
    ("rules", "text"): ("bottom", -30, [11.5], "top", 0),
    ("working_table", "pool"): ("bottom", 0, [], "right", 0),
    ("naming", "views"): ("bottom", -30, [12.5], "top", 30),
    ("text", "wire"): ("left", 0, [380], "left", -12),
    ("views", "records"): ("bottom", 0, [], "left", 0),
    ("messages", "wire"): ("bottom", 0, [], "left", 0),
    ("time_log", "wire"): ("bottom", 0, [], "left", 12),
}

STYLE = """
  text { font-family: sans-serif; font-size: 11px; fill: #57606a; text-anchor: middle; }
  .crate { font-family: monospace; font-size: 13px; font-weight: bold; fill: #24292f; }
  .title { font-size: 15px; font-weight: bold; fill: #24292f; }
  .title, .layer, .note { text-anchor: start; }
  .layer { font-weight: bold; }
  .ground { fill: #ffffff; stroke: #d0d7de; }
  .rule { stroke: #afb8c1; stroke-width: 3; }
  .code { fill: #ddf4ff; stroke: #1f6feb; }
  .program { fill: #fff1d6; stroke: #bf8700; }
  .claim { fill: #dafbe1; stroke: #1a7f37; }
  .head { fill: #57606a; }
  .claim-head { fill: #1a7f37; }
  .arrow { stroke: #57606a; }
  .claim-arrow { stroke: #1a7f37; stroke-dasharray: 6 3; }
  @media (prefers-color-scheme: dark) {
    text { fill: #9aa4af; }
    .crate, .title { fill: #e6edf3; }
    .ground { fill: #0d1117; stroke: #3d444d; }
    .rule { stroke: #484f58; }
    .code { fill: #10233f; stroke: #58a6ff; }
    .program { fill: #33260a; stroke: #d29922; }
    .claim { fill: #0f2d19; stroke: #3fb950; }
    .head { fill: #9aa4af; }
    .claim-head { fill: #3fb950; }
    .arrow { stroke: #9aa4af; }
    .claim-arrow { stroke: #3fb950; }
  }
  .arrow, .claim-arrow { fill: none; stroke-width: 1.5; }
"""


def dependencies():
    """The crates of crates.txt with those they name; what the kit brings is left out."""
    lines = (DOCS.parent / "crates.txt").read_text().splitlines()
    rows = [line.split(":") for line in lines if line.strip() and not line.startswith("#")]
    named = {crate.split()[0]: used.split() for crate, used in rows}
    return {crate: {it for it in used if it in named} for crate, used in named.items()}


def reduced(used):
    """The dependencies that do not follow from others."""
    below = {}
    for crate in used:  # each stands behind those it names
        below[crate] = used[crate].union(*(below[it] for it in used[crate]))
    return [(crate, it) for crate in used for it in used[crate] if not any(it in below[other] for other in used[crate])]


def row(number):
    return TOP + PITCH * number


class Box:
    def __init__(self, crate):
        column, number, self.caption = BOXES[crate]
        self.x, self.y = COLUMN[column], row(number)
        self.left, self.right = self.x - WIDTH / 2, self.x + WIDTH / 2
        if crate == "terminal":  # above all that it uses
            self.left, self.right = COLUMN["log"] - WIDTH / 2, COLUMN["session"] + WIDTH / 2
            self.x = (self.left + self.right) / 2
        self.top, self.bottom = self.y - HEIGHT / 2, self.y + HEIGHT / 2

    def side(self, name, off):
        return {
            "top": (self.x + off, self.top),
            "bottom": (self.x + off, self.bottom),
            "left": (self.left, self.y + off),
            "right": (self.right, self.y + off),
        }[name]

    def meets(self, a, b):
        """Whether a stretch between two places, level or upright, comes near the box."""
        near = 4
        across = max(a[0], b[0]) > self.left - near and min(a[0], b[0]) < self.right + near
        return across and max(a[1], b[1]) > self.top - near and min(a[1], b[1]) < self.bottom + near


def way(boxes, crate, used):
    """The places where an arrow begins, turns and ends."""
    a, b = boxes[crate], boxes[used]
    if (crate, used) not in BENDS:
        if a.y == b.y:
            return [a.side("left", 0), b.side("right", 0)]
        return [(b.x, a.bottom), (b.x, b.top)]
    side, off, turns, to_side, to_off = BENDS[crate, used]
    places, end = [a.side(side, off)], b.side(to_side, to_off)
    upright = side in ("top", "bottom")
    for turn in turns:
        x, y = places[-1]
        places.append((x, row(turn)) if upright else (turn, y))
        upright = not upright
    x, y = places[-1]
    if x != end[0] and y != end[1]:
        if upright == (to_side in ("top", "bottom")):
            sys.exit(f"architecture: {crate} to {used} needs another turn")
        places.append((x, end[1]) if upright else (end[0], y))
    return places + [end]


def check(boxes, ways):
    for (crate, used), places in ways.items():
        for a, b in zip(places, places[1:]):
            if a[0] != b[0] and a[1] != b[1]:
                sys.exit(f"architecture: {crate} to {used} is neither level nor upright")
            for name, box in boxes.items():
                if name not in (crate, used) and box.meets(a, b):
                    sys.exit(f"architecture: {crate} to {used} leads through {name}")


def path(places):
    """A line with rounded turns."""
    radius = 7
    drawn = "M{:.0f} {:.0f}".format(*places[0])
    for before, turn, after in zip(places, places[1:], places[2:]):
        drawn += " L{:.0f} {:.0f} Q{:.0f} {:.0f}".format(*towards(turn, before, radius), *turn)
        drawn += " {:.0f} {:.0f}".format(*towards(turn, after, radius))
    return drawn + " L{:.0f} {:.0f}".format(*places[-1])


def towards(place, other, distance):
    """A place so far from this one on the way to the other."""
    length = abs(other[0] - place[0]) + abs(other[1] - place[1])
    share = min(distance, length / 2) / length
    return tuple(a + share * (b - a) for a, b in zip(place, other))


def marker(name):
    return (
        f'<marker id="{name}" viewBox="0 0 8 8" refX="7" refY="4" markerWidth="7" markerHeight="7" orient="auto">'
        f'<path class="{name}" d="M0 0 L8 4 L0 8 Z"/></marker>'
    )


def kind(crate):
    return "program" if crate in PROGRAMS else "claim" if crate in CLAIMS else "code"


def draw(boxes, ways):
    width, height = PICTURE
    yield f'<svg xmlns="http://www.w3.org/2000/svg" viewBox="0 0 {width} {height}" width="{width}" height="{height}">'
    yield "<title>The crates and what they rest on</title>"
    yield f"<style>{STYLE}</style>"
    yield f'<defs>{marker("head")}{marker("claim-head")}</defs>'
    yield f'<rect class="ground" x="0.5" y="0.5" width="{width - 1}" height="{height - 1}" rx="6"/>'
    yield '<text class="title" x="20" y="32">The crates and what they rest on</text>'
    note = "An arrow leads to a crate that is used; what is used through another one has none of its own."
    yield f'<text class="note" x="20" y="52">{note}</text>'
    yield from key()
    for lines, first, last in LAYERS:
        yield f'<line class="rule" x1="12" y1="{row(first) - HEIGHT / 2:.0f}" x2="12" y2="{row(last) + HEIGHT / 2:.0f}"/>'
        for index, line in enumerate(lines):
            y = row((first + last) / 2) + 4 + 14 * (index - (len(lines) - 1) / 2)
            yield f'<text class="layer" x="20" y="{y:.0f}">{line}</text>'
    for (crate, used), places in ways.items():
        claim = "claim-" if crate in CLAIMS else ""
        yield (
            f'<path class="{claim}arrow" marker-end="url(#{claim}head)" data-from="{crate}" data-to="{used}"'
            f' d="{path(places)}"/>'
        )
    for crate, box in boxes.items():
        yield f'<g data-crate="{crate}">'
        yield (
            f'<rect class="{kind(crate)}" x="{box.left:.0f}" y="{box.top:.0f}" width="{box.right - box.left:.0f}"'
            f' height="{HEIGHT}" rx="5"/>'
        )
        yield f'<text class="crate" x="{box.x:.0f}" y="{box.y - 2:.0f}">{crate}</text>'
        yield f'<text x="{box.x:.0f}" y="{box.y + 13:.0f}">{box.caption}</text></g>'
    yield "</svg>"


def key():
    names = [("program", "programs, C boundary", 740), ("code", "code", 905), ("claim", "claims", 985)]
    for kind_, name, x in names:
        yield f'<rect class="{kind_}" x="{x}" y="22" width="16" height="12" rx="3"/>'
        yield f'<text class="note" x="{x + 22}" y="32">{name}</text>'


def main():
    used = dependencies()
    if set(used) != set(BOXES):
        sys.exit(f"architecture: places and crates differ: {sorted(set(used) ^ set(BOXES))}")
    boxes = {crate: Box(crate) for crate in used}
    arrows = sorted(reduced(used))
    if unused := sorted(set(BENDS) - set(arrows)):
        sys.exit(f"architecture: bends without an arrow: {unused}")
    ways = {arrow: way(boxes, *arrow) for arrow in arrows}
    check(boxes, ways)
    (DOCS / "architecture.svg").write_text("\n".join(draw(boxes, ways)) + "\n")


main()
