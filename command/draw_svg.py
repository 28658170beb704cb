"""A picture for a report, as SVG: steps down, facts across. A fact that is present is a filled bar beside its steps; a need is
a ring on it, and a need that is missing a cross in a box. Behind the facts of a step that could not run stands a sign. The
colours only repeat the shapes."""

from html import escape

import draw_text
from picture import CHANGED, REJECTED

ROW, COLUMN, MARGIN, GAP, MARK = 20, 26, 16, 40, 40  # in pixels
LETTER = 7.3  # the width of a letter of monospace at 12 pixels
WRAP = 100  # letters of a line below the drawing
STYLE = """
  text { font: 12px monospace; fill: #222 }
  .head { font-weight: bold }
  .bar { fill: #9cc3a5 }
  .need { fill: #fff; stroke: #1f6f38; stroke-width: 2 }
  .missing { fill: #fff; stroke: #b3261e; stroke-width: 2 }
  .cross { stroke: #b3261e; stroke-width: 2 }
  .rejected { font-weight: bold; fill: #b3261e }
  .absent { fill: #999 }
  .line { stroke: #e4e4e4 }
  .changed { fill: #fff3c4 }
"""
MARKS = [  # present, needed
    ((False, False), "absent"),
    ((True, False), "present"),
    ((True, True), "needed and present"),
    ((False, True), "needed and missing"),
]


def svg(picture):
    grid = Grid(picture)
    parts, bottom = [text(MARGIN, MARGIN + 12, picture.title, "head")], MARGIN
    for run in picture.runs:
        parts += drawn_run(picture, run, grid, bottom + ROW)
        bottom += grid.height(run)
    told = sentences(picture)
    parts += [*legend(bottom), *(text(MARGIN, bottom + ROW * (2 + i) - 2, line) for i, line in enumerate(told))]
    lines = max(LETTER * draw_text.width(line) for line in [picture.title, *told])
    width = max(grid.right, MARGIN + max(lines, sum(LETTER * len(words) + MARK for _, words in MARKS))) + MARGIN
    return framed(width, bottom + ROW * (1 + len(told)) + MARGIN, picture.title, parts)


class Grid:
    """The widths that all runs share, and the room above their steps."""

    def __init__(self, picture):
        labels = [7 + draw_text.width(row.action) for run in picture.runs for row in run.rows]
        labels += [draw_text.width(run.heading or "") for run in picture.runs]
        names = max((LETTER * draw_text.width(heading) for heading in picture.headings()), default=0)
        self.upright = len(picture.facts) > 1  # one name alone stands level above its column
        self.left = MARGIN + LETTER * max(labels) + 12
        signs = COLUMN * len(picture.facts) + LETTER * len(REJECTED)
        self.side = max(signs, LETTER * len("before"), 0 if self.upright else names) + GAP
        self.right = self.left + len(picture.sides) * self.side - GAP
        self.above = ROW + (names + 16 if self.upright else ROW)

    def height(self, run):
        return ROW + self.above + ROW * len(run.rows) + 8


def drawn_run(picture, run, grid, y):
    """A run from y down: its heading, those of its sides, and its steps."""
    top = y + grid.above
    parts = [text(MARGIN, y + 12, run.heading, "head")] if run.heading else []
    parts += rows(run, top, grid.right)
    for number, (heading, cells) in enumerate(zip(picture.sides, run.sides)):
        x = grid.left + number * grid.side
        parts.append(text(x, y + 12, heading, "head"))
        parts += columns(picture, cells, x, top, grid.upright)
        parts += rejections(run.rejected(number), x + COLUMN * len(picture.facts), top)
    return parts


def sentences(picture):
    if not picture.facts:
        return ["Nothing is missing, and nothing is changed."]
    told = ["Each line shows the facts before its step.", *(f"{sign} {words}" for sign, words in picture.legend())]
    return told + [line for shared in picture.shared() for line in draw_text.wrapped(shared, WRAP)]


def framed(width, height, title, parts):
    sizes = f'width="{width:.0f}" height="{height:.0f}" viewBox="0 0 {width:.0f} {height:.0f}"'
    return "\n".join(
        [
            f'<svg xmlns="http://www.w3.org/2000/svg" {sizes} role="img">',
            f"<title>{escape(title, quote=False)}</title>",
            f"<style>{STYLE}</style>",
            f'<rect width="{width:.0f}" height="{height:.0f}" fill="#fff"/>',
            *parts,
            "</svg>\n",
        ]
    )


def text(x, y, words, kind="", upright=False):
    turn = f' transform="rotate(-90 {x:.1f} {y:.1f})"' if upright else ""
    named = f' class="{kind}"' if kind else ""
    return f'<text x="{x:.1f}" y="{y:.1f}"{named}{turn} xml:space="preserve">{escape(words, quote=False)}</text>'


def rows(run, top, right):
    """A line for each step, with its number and its action; steps of a changed action are marked."""
    parts = []
    for number, row in enumerate(run.rows):
        y = top + ROW * number
        if row.changed:
            parts.append(f'<rect class="changed" x="{MARGIN}" y="{y}" width="{right - MARGIN:.1f}" height="{ROW}"/>')
        parts.append(f'<line class="line" x1="{MARGIN}" y1="{y}" x2="{right:.1f}" y2="{y}"/>')
        parts.append(text(MARGIN, y + 14, f"{row.step:>3}  {row.action}{' ' + CHANGED if row.changed else ''}"))
    return parts


def columns(picture, cells, x, top, upright):
    parts = []
    for column, heading in enumerate(picture.headings()):
        middle = x + COLUMN * column + COLUMN / 2
        parts.append(text(middle + 4 if upright else x, top - 6, heading, upright=upright))
        for number, row in enumerate(cells):
            parts += mark(row[column].present, row[column].needed, middle, top + ROW * number)
    return parts


def rejections(rejected, x, top):
    """The signs of the steps that could not run, in a column of their own."""
    rows = [number for number, is_rejected in enumerate(rejected) if is_rejected]
    return [text(x, top + ROW * number + 14, REJECTED, "rejected") for number in rows]


def mark(present, needed, x, y):
    """The sign of a cell in the row whose upper edge is y."""
    middle = y + ROW / 2
    if needed and not present:
        box = f'<rect class="missing" x="{x - 7}" y="{middle - 7}" width="14" height="14"/>'
        return [box, *(f'<line class="cross" x1="{x - 4}" y1="{middle - s}" x2="{x + 4}" y2="{middle + s}"/>' for s in (4, -4))]
    parts = [f'<rect class="bar" x="{x - 6}" y="{y}" width="12" height="{ROW}"/>'] if present else []
    if needed:
        return [*parts, f'<circle class="need" cx="{x}" cy="{middle}" r="5"/>']
    return parts or [f'<circle class="absent" cx="{x}" cy="{middle}" r="1.5"/>']


def legend(y):
    parts, x = [], MARGIN + 8
    for (present, needed), words in MARKS:
        parts += [*mark(present, needed, x, y), text(x + 14, y + 14, words)]
        x += LETTER * len(words) + MARK
    return parts
