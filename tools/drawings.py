"""Boxes with rows, one below the other, and wires between rows to the right of them; drawn as SVG or in characters.

A wire has a vertical trunk in a lane of its own, as far out as it must to keep clear of others: shorter wires lie further in. A row has at
most one wire, so where two wires meet they cross.
"""
import unicodedata
from bisect import bisect_left, bisect_right
from itertools import accumulate
from typing import NamedTuple
from xml.sax.saxutils import escape

from pdq_texts import Misfit
from streams import Words, finish

LONGEST = 40  # columns of a cell; longer texts are cut
MOST_ROOM = 1 << 24  # lanes times rows of a drawing
COLOURS = ["#1f5fa8", "#b3461e", "#2a7d3f", "#7b3f98", "#8a6d00", "#0f7c86", "#a3235f", "#4d5560"]


class Cell(NamedTuple):
    text: str
    style: str = ""  # "", "strong", "in" or "out"


class Row(NamedTuple):
    cells: list
    aligned: bool = True  # whether the cells stand below those of the box's other rows


class Box(NamedTuple):
    head: Row
    rows: list


class Wire(NamedTuple):
    name: str
    starts: list  # pairs of the number of a box and that of a row below its head, from 0
    ends: list


class Section(NamedTuple):
    title: str  # "" for none
    boxes: list
    wires: list


# ---- widths


def visible(text):
    """The text with characters that have no place in a line written as escapes."""
    named = {"\n": "\\n", "\t": "\\t", "\r": "\\r"}
    return "".join(named.get(char) or (char if char.isprintable() else f"\\u{{{ord(char):x}}}") for char in text)


def width(text):
    """How many columns the text takes."""
    return sum(0 if unicodedata.combining(char) else 2 if unicodedata.east_asian_width(char) in "WF" else 1 for char in text)


def cut(text):
    """The text, or as much of it as a cell may have and `..`."""
    text = visible(text)
    if width(text) <= LONGEST:
        return text
    return text[:sum(reach <= LONGEST - 2 for reach in accumulate(map(width, text)))] + ".."


def padded(text, wanted):
    return text + " " * (wanted - width(text))


def columns_of(box):
    """The widths of the columns of a box's aligned rows."""
    rows = [row for row in [box.head, *box.rows] if row.aligned]
    most = max((len(row.cells) for row in rows), default=0)
    return [max(width(row.cells[at].text) for row in rows if at < len(row.cells)) for at in range(most)]


def offsets(row, columns):
    """Where each cell of a row begins, and where the row ends."""
    at, begins = 0, []
    for number, cell in enumerate(row.cells):
        begins.append(at)
        at += (columns[number] if row.aligned else width(cell.text)) + 2
    return begins, at - 2


def inner_width(boxes):
    """The columns that the widest row of the boxes takes."""
    return max((offsets(row, columns_of(box))[1] for box in boxes for row in [box.head, *box.rows]), default=0)


# ---- lanes


def lanes(wires, places):
    """A lane for each wire, counted from the boxes on: shorter wires first, each in the first lane in which it meets no other. `places`
    has the height of each row."""
    spans = []
    for number, wire in enumerate(wires):
        heights = [places[port] for port in wire.starts + wire.ends]
        spans.append((max(heights) - min(heights), number, min(heights), max(heights)))
    taken, chosen = [], {}  # of each lane the heights at which a wire begins or ends, in ascending order
    for _, number, top, bottom in sorted(spans):
        lane = next((lane for lane, ends in enumerate(taken) if is_free(ends, top, bottom)), len(taken))
        if lane == len(taken):
            taken.append([])
        if len(taken) * len(places) > MOST_ROOM:
            raise Misfit("drawing: too large")
        at = bisect_left(taken[lane], top)
        taken[lane][at:at] = [top, bottom]
        chosen[number] = lane
    return [chosen[number] for number in range(len(wires))]


def is_free(ends, top, bottom):
    """Whether no wire of a lane meets one from top to bottom: none ends there, and as many as begin above it end above it."""
    above = bisect_left(ends, top)
    return above % 2 == 0 and above == bisect_right(ends, bottom)


# ---- in characters

LEVEL = str.maketrans(" │", "─┼")
CORNERS = {(False, True): "┐", (True, False): "┘", (True, True): "┤"}  # whether the trunk comes from above, and whether it goes on below


def as_characters(sections):
    """The drawing in characters, each line with a line feed."""
    return "\n".join("".join(line.rstrip() + "\n" for line in section_lines(section)) for section in sections)


def section_lines(section):
    lines, line_of = box_lines(section.boxes)
    for wire in section.wires:
        for port in wire.starts:
            lines[line_of[port]] = lines[line_of[port]][:-1] + "├"
    beside = lines_beside(section.wires, line_of, len(lines))
    return ([section.title] if section.title else []) + [line + wires for line, wires in zip(lines, beside)]


def lines_beside(wires, line_of, count):
    """What stands beside each line of the boxes: the trunks that pass it, and the level part of the wire that has a port there."""
    chosen = lanes(wires, line_of)
    ports, last = {}, set()  # the trunk and the tip of the wire at a line; the trunks with the lines at which they end
    for wire, lane in zip(wires, chosen):
        trunk = 2 + 2 * lane
        ports.update({line_of[port]: (trunk, "─") for port in wire.starts})
        ports.update({line_of[port]: (trunk, "<") for port in wire.ends})
        last.add((trunk, max(line_of[port] for port in wire.starts + wire.ends)))
    upright, passing, lines = [" "] * (3 + 2 * max(chosen, default=0)), "", []
    for line in range(count):
        if line not in ports:
            lines.append(passing)
            continue
        trunk, tip = ports[line]
        above, below = upright[trunk] != " ", (trunk, line) not in last
        upright[trunk] = "│" if below else " "
        passing = "".join(upright)
        lines.append(tip + passing[1:trunk].translate(LEVEL) + CORNERS[above, below] + passing[trunk + 1:])
        passing = passing.rstrip()
    return lines


def box_lines(boxes):
    """The lines of the boxes, and in which of them each row stands."""
    lines, line_of, inner = [], {}, inner_width(boxes)
    for number, box in enumerate(boxes):
        columns = columns_of(box)
        lines += ["┌" + "─" * (inner + 2) + "┐", row_line(box.head, columns, inner)]
        if box.rows:
            lines.append("├" + "─" * (inner + 2) + "┤")
        for at, row in enumerate(box.rows):
            line_of[number, at] = len(lines)
            lines.append(row_line(row, columns, inner))
        lines.append("└" + "─" * (inner + 2) + "┘")
    return lines, line_of


def row_line(row, columns, inner):
    text = ""
    for begins, cell in zip(offsets(row, columns)[0], row.cells):
        text = padded(text, begins) + cell.text
    return "│ " + padded(text, inner) + " │"


# ---- as SVG

CHARACTER, LINE, GAP, EDGE, LANE = 7.8, 22, 16, 12, 16  # of a character, a row, between boxes, around all, and between lanes
STYLE = """  text { font-family: "DejaVu Sans Mono", Menlo, Consolas, monospace; font-size: 13px; fill: #1b1f24; white-space: pre; }
  .strong { font-weight: bold; }
  .in { fill: #fbe3bf; }
  .out { fill: #eef1f4; }
  .sheet { fill: #ffffff; }
  .frame { fill: #ffffff; stroke: #3b4753; stroke-width: 1.2; }
  .head { fill: #dfe8f3; stroke: #3b4753; stroke-width: 1.2; }
  .wire line { stroke-width: 1.6; stroke-linecap: round; }
  .under { stroke: #ffffff; stroke-width: 5; }"""


def as_svg(sections):
    """The drawing as an SVG document."""
    body, top, wide = [], EDGE, 0
    for section in sections:
        lines, top, right = section_svg(section, top)
        body += lines
        wide = max(wide, right)
    tall = max(top - GAP, EDGE) + EDGE
    wide += EDGE
    return "\n".join([
        '<?xml version="1.0" encoding="UTF-8"?>',
        f'<svg xmlns="http://www.w3.org/2000/svg" width="{number(wide)}" height="{number(tall)}" '
        f'viewBox="0 0 {number(wide)} {number(tall)}">',
        "<style>", STYLE, "</style>",
        f'<rect class="sheet" x="0" y="0" width="{number(wide)}" height="{number(tall)}"/>',
        *body, "</svg>", ""])


def number(value):
    return f"{value:.1f}".rstrip("0").rstrip(".")


def section_svg(section, top):
    """The lines of a section that begins at this height, where the next one begins, and its right end."""
    lines, inner, height_of = [], inner_width(section.boxes) * CHARACTER + 2 * EDGE, {}
    if section.title:
        lines.append(text_svg(EDGE, top, Cell(section.title, "strong")))
        top += LINE + 4
    for at, box in enumerate(section.boxes):
        for row in range(len(box.rows)):
            height_of[at, row] = top + (row + 1) * LINE + LINE / 2
        lines += box_svg(box, top, inner)
        top += (len(box.rows) + 1) * LINE + GAP
    right = EDGE + inner
    chosen = lanes(section.wires, height_of)
    trunks = [right + 14 + LANE * (lane + 1) for lane in chosen]
    lines += wires_svg(section.wires, trunks, right, height_of)
    title_end = EDGE + width(section.title) * CHARACTER
    return lines, top + (GAP if not section.boxes else 0), max([right if section.boxes else 0, title_end] + trunks)


def box_svg(box, top, inner):
    columns, rows = columns_of(box), [box.head, *box.rows]
    lines = ['<g class="box">',
             f'<rect class="frame" x="{EDGE}" y="{number(top)}" width="{number(inner)}" height="{len(rows) * LINE}"/>',
             f'<rect class="head" x="{EDGE}" y="{number(top)}" width="{number(inner)}" height="{LINE}"/>']
    for at, row in enumerate(rows):
        for begins, cell in zip(offsets(row, columns)[0], row.cells):
            left, height = 2 * EDGE + begins * CHARACTER, top + at * LINE
            if cell.style in ("in", "out"):
                lines.append(f'<rect class="{cell.style}" x="{number(left - 4)}" y="{number(height + 3)}" '
                             f'width="{number(width(cell.text) * CHARACTER + 8)}" height="{LINE - 6}" rx="3"/>')
            lines.append(text_svg(left, height, cell))
    return lines + ["</g>"]


def text_svg(left, top, cell):
    strong = ' class="strong"' if cell.style == "strong" else ""
    return (f'<text{strong} x="{number(left)}" y="{number(top + LINE - 7)}" '
            f'textLength="{number(width(cell.text) * CHARACTER)}" lengthAdjust="spacingAndGlyphs">{escape(cell.text)}</text>')


def wires_svg(wires, trunks, right, height_of):
    """The trunks of all wires, and then what leads from the boxes to them and from them to the boxes, above a white edge."""
    lines = []
    for at, (wire, trunk) in enumerate(zip(wires, trunks)):
        heights = [height_of[port] for port in wire.starts + wire.ends]
        line = line_svg("trunk", COLOURS[at % len(COLOURS)], (trunk, min(heights)), (trunk, max(heights)))
        lines.append(f'<g class="wire">{line}</g>')
    for at, (wire, trunk) in enumerate(zip(wires, trunks)):
        colour = COLOURS[at % len(COLOURS)]
        lines.append(f'<g class="wire"><title>{escape(wire.name)}</title>')
        for port in wire.starts:
            height = height_of[port]
            lines.append(line_svg("under", "#ffffff", (right + 4, height), (trunk - 5, height))
                         + line_svg("start", colour, (right, height), (trunk, height))
                         + f'<circle class="port" cx="{number(right)}" cy="{number(height)}" r="3" fill="{colour}"/>')
        for port in wire.ends:
            height = height_of[port]
            corners = (right + 1, height), (right + 10, height - 4.5), (right + 10, height + 4.5)
            tip = " ".join(f"{number(across)},{number(down)}" for across, down in corners)
            lines.append(line_svg("under", "#ffffff", (right + 11, height), (trunk - 5, height))
                         + line_svg("end", colour, (trunk, height), (right + 9, height))
                         + f'<polygon class="tip" points="{tip}" fill="{colour}"/>')
        lines.append("</g>")
    return lines


def line_svg(kind, colour, start, end):
    return (f'<line class="{kind}" x1="{number(start[0])}" y1="{number(start[1])}" x2="{number(end[0])}" y2="{number(end[1])}" '
            f'stroke="{colour}"/>')


# ---- the words of a tool that draws


def words(about, name, what):
    """The words of a tool that draws one text: an option for characters, and the name of the text's file."""
    parser = Words(about)
    parser.add_argument("--text", action="store_true", help="draw in characters, and not as SVG")
    parser.add_argument(name, nargs="?", help=f"the file of {what}; without it, standard input")
    return parser


def draw(make_sections, in_characters):
    """Writes the drawing of the sections, or reports why there is none; gives the exit status."""
    return finish(lambda: as_characters(make_sections()) if in_characters else as_svg(make_sections()))
