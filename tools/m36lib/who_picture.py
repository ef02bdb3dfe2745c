"""Who may touch what, as a picture: a row for each segment, a column for each ring.

A cell has the colour of its ring where the segment executes, a light one where the ring may only
read or write, and a dashed edge where it may call. An arrow leads from the callers to the ring that
executes then."""

import html

from .who_facts import RINGS
from .who_text import call_sentence, heading

# The colours of rings, as in the pictures of runs.
FILLS = ["#f2b8a0", "#f5c9a8", "#f5dcb0", "#eee8b8", "#cfe5bd", "#bfe0d4", "#bfd6ea", "#cfcdea"]
STYLE = (
    "text{font-family:ui-monospace,Menlo,Consolas,monospace;font-size:13px;fill:#222}"
    ".h{font-weight:bold;font-size:15px}.b{font-weight:bold}.s{font-size:11px;fill:#555}"
    ".o{fill-opacity:.45}.k{fill:#222}.m{text-anchor:middle}.l{stroke:#ccc}.a{stroke:#444;fill:none;stroke-width:1.5}"
    ".t{fill:#444}.c{fill:none;stroke:#777;stroke-dasharray:3 3}.p{fill:#fff}"
    "@media (prefers-color-scheme:dark){"
    "text{fill:#e6e6e6}.o{fill-opacity:.3}.s{fill:#aaa}.k{fill:#222}.p{fill:#16181d}"
    ".l{stroke:#3a3f4a}.a{stroke:#ddd}.t{fill:#ddd}.c{stroke:#999}}"
)
WIDTH, HEIGHT, GAP = 66, 34, 20
LEFT, TOP, CHARACTER, LINE = 20, 92, 8.0, 17
SLOTS = (("r", "read"), ("w", "write"), ("e", "execute"), ("c", "call"))


def plain(text):
    """Text for the picture: control characters as `?`, and the rest escaped."""
    return html.escape("".join(c if c.isprintable() else "?" for c in text))


class Picture:
    """The parts of a picture, and its size so far."""

    def __init__(self):
        self.parts = []
        self.width = 0

    def text(self, x, y, text, classes=""):
        marks = f' class="{classes}"' if classes else ""
        self.parts.append(f'<text x="{x:.0f}" y="{y:.0f}"{marks}>{plain(text)}</text>')
        if "m" not in classes.split():
            self.width = max(self.width, x + CHARACTER * len(text))

    def box(self, x, y, width, height, more):
        place = f'x="{x:.0f}" y="{y:.0f}" width="{width:.0f}" height="{height:.0f}"'
        self.parts.append(f'<rect {place} rx="4" {more}/>')
        self.width = max(self.width, x + width)

    def line(self, x1, y1, x2, y2, classes, more=""):
        ends = f'x1="{x1:.0f}" y1="{y1:.0f}" x2="{x2:.0f}" y2="{y2:.0f}"'
        self.parts.append(f'<line {ends} class="{classes}"{more}/>')

    def svg(self, title, height):
        width = self.width + LEFT
        size = f'width="{width:.0f}" height="{height:.0f}" viewBox="0 0 {width:.0f} {height:.0f}"'
        head = (
            f'<svg xmlns="http://www.w3.org/2000/svg" {size} role="img">\n'
            f"<title>{plain(title)}</title>\n<style>{STYLE}</style>\n"
            '<defs><marker id="head" markerUnits="userSpaceOnUse" markerWidth="9" '
            'markerHeight="9" refX="8" refY="4.5" orient="auto">'
            '<path class="t" d="M0,0 L9,4.5 L0,9 z"/></marker></defs>\n'
            f'<rect class="p" width="{width:.0f}" height="{height:.0f}"/>\n'
        )
        return head + "\n".join(self.parts) + "\n</svg>\n"


def columns_start(facts):
    """Where the columns of rings begin, after the longest name and description."""
    longest = max(max(len(row.name), 0.85 * len(describe(row))) for row in facts.rows)
    return LEFT + CHARACTER * longest + 24


def describe(row):
    """The kind, the mode and the brackets of a segment."""
    kind = {"gate": "gate", "object": "program", "data": "data"}[row.kind]
    return f"{kind}, {row.mode}, brackets {' '.join(map(str, row.brackets))}"


def draw_heads(picture, facts, left):
    """The names of the rings, each with its colour."""
    picture.text(LEFT, 28, heading(facts), "h")
    for ring in RINGS:
        x = left + ring * (WIDTH + 4)
        picture.box(x, TOP - 38, WIDTH, 26, f'fill="{FILLS[ring]}"')
        picture.text(x + WIDTH / 2, TOP - 20, f"ring {ring}", "m b k")
    picture.text(left, TOP - 46, "more privileged", "s")
    end = left + 8 * (WIDTH + 4)
    picture.text(end - 15 * 7, TOP - 46, "less privileged", "s")
    for number, term in enumerate(facts.terms):
        picture.text(end + 16 + term_start(facts, number), TOP - 20, term, "b")
    if facts.terms:
        picture.text(end + 16, TOP - 46, "by the access lists, with --user", "s")
    if facts.user:
        picture.text(end + 16, TOP - 20, "decided by", "b")
    return end


def term_start(facts, number):
    """Where the column of a term begins, from that of the first."""
    return sum(CHARACTER * max(len(term), 4) + 16 for term in facts.terms[:number])


def draw_cell(picture, cell, ring, x, y):
    """One cell, with its letters in their places."""
    if cell.execute:
        picture.box(x, y, WIDTH, HEIGHT, f'fill="{FILLS[ring]}" stroke="#444" stroke-width="1.5"')
    elif cell.read or cell.write:
        picture.box(x, y, WIDTH, HEIGHT, f'fill="{FILLS[ring]}" class="o"')
    if cell.call:
        picture.box(x, y, WIDTH, HEIGHT, 'class="c"')
    shade = "k" if cell.execute else ""
    for place, (letter, right) in enumerate(SLOTS):
        if getattr(cell, right):
            weight = "b " if right in ("execute", "call") else ""
            picture.text(x + 9 + 16 * place, y + 22, letter, f"m {weight}{shade}".strip())


def draw_call(picture, row, left, y):
    """The arrow from the rings that may call to the ring that executes then."""
    callers = [ring for ring in RINGS if row.cells[ring].call]
    if callers:
        level = y + HEIGHT + 7
        start = left + callers[-1] * (WIDTH + 4) + WIDTH / 2
        end = left + row.brackets[1] * (WIDTH + 4) + WIDTH / 2
        for ring in callers:
            middle = left + ring * (WIDTH + 4) + WIDTH / 2
            picture.line(middle, y + HEIGHT, middle, level, "a")
        picture.line(start, level, end, level, "a")
        picture.line(end, level, end, y + HEIGHT + 1, "a", ' marker-end="url(#head)"')


def draw_row(picture, facts, row, left, end, y):
    """The row of a segment."""
    picture.text(LEFT, y + 14, row.name, "b")
    picture.text(LEFT, y + 30, describe(row), "s")
    for ring, cell in enumerate(row.cells):
        draw_cell(picture, cell, ring, left + ring * (WIDTH + 4), y)
    draw_call(picture, row, left, y)
    for number, term in enumerate(facts.terms):
        picture.text(end + 16 + term_start(facts, number), y + 22, row.by_term[term])
    if facts.user:
        picture.text(end + 16, y + 22, row.decided)


def as_picture(facts):
    """The text of the SVG."""
    picture = Picture()
    left = columns_start(facts)
    end = draw_heads(picture, facts, left)
    y = TOP
    for row in facts.rows:
        picture.line(LEFT, y - 6, end, y - 6, "l")
        draw_row(picture, facts, row, left, end, y)
        y += HEIGHT + GAP
    calls = [sentence for row in facts.rows if (sentence := call_sentence(row))]
    arrow = ", c calls it: the arrow leads to the ring that executes then" if calls else ""
    notes = [f"r reads, w writes, e executes it there{arrow}.", *calls]
    notes += [line for line in facts.audit if line != "audit yes"]
    for note in notes:
        picture.text(LEFT, y + 12, note, "s")
        y += LINE
    return picture.svg(heading(facts), y + 16)
