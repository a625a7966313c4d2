"""The picture of a story, as SVG: columns side by side, time downwards."""

import textwrap
from .runs import escape
from .story import Line, Moved, Note, Said, Span

# The width of a letter, and the height of a row, in the picture's units.
LETTER, ROW = 7.23, 19
# A column has room for so many letters at most. What is longer is cut; all of it stands in the title of its place.
MOST_LETTERS = 44
# Of what has more lines than these the middle is left out.
MOST_LINES = 6
GUTTER, MARGIN = 44, 14
HEAD = 50
DOTS = "\N{HORIZONTAL ELLIPSIS}"

STYLE = """
text { font: 12px ui-monospace, "DejaVu Sans Mono", Menlo, Consolas, monospace; fill: #24292f; white-space: pre }
.paper { fill: #ffffff } .strip { fill: #f3f5f8 }
.note { font: italic 13px system-ui, "DejaVu Sans", sans-serif; fill: #57606a }
.number { fill: #8c959f; font-size: 10px }
.name { font-weight: 700 } .title { fill: #57606a; font-size: 11px }
.life { stroke: #d0d7de; stroke-dasharray: 2 4 } .open { stroke: #8c959f; stroke-width: 2 }
.held { fill: #d4a72c } .idle { fill: #8250df; opacity: .45 }
.box { fill: #ffffff; stroke: #57606a }
.said, .reply, .mark { stroke: #57606a } text.said, text.reply, text.mark { stroke: none }
.put, .shown { stroke: #1a7f37 } .changed { stroke: #8250df } .refused, .refusal { stroke: #cf222e }
text.shown { fill: #1a7f37; stroke: none } text.refusal, text.fault { fill: #cf222e; stroke: none } text.mark { fill: #9a6700 }
.shown, .told { stroke-dasharray: 5 3 } path.head { stroke-dasharray: none }
line, path { fill: none; stroke-width: 1.3 } path.head { stroke-width: 1.6 }
@media (prefers-color-scheme: dark) {
text { fill: #e6edf3 } .paper { fill: #0d1117 } .strip { fill: #161b22 }
.note, .title { fill: #9da7b3 } .number { fill: #6e7681 }
.life { stroke: #30363d } .open { stroke: #6e7681 } .held { fill: #bb8009 } .idle { fill: #a371f7 }
.box { fill: #0d1117; stroke: #9da7b3 } .said, .reply, .mark { stroke: #9da7b3 }
.put, .shown { stroke: #3fb950 } .changed { stroke: #a371f7 } .refused, .refusal { stroke: #f85149 }
text.shown { fill: #3fb950 } text.refusal, text.fault { fill: #f85149 } text.mark { fill: #d29922 }
}
""".strip()


def cut(text):
    """A text that fits into a column."""
    return text if len(text) <= MOST_LETTERS else text[: MOST_LETTERS - 1] + DOTS


def visible(row):
    """The lines of what is said, as far as they are drawn."""
    lines = row.lines
    if row.kind == "tail":
        return [f"TAIL: {len(lines) - 1}"]
    if row.kind in ("reply", "refusal") and len(lines) > 1 and lines[0][:1] in "*2" and "{" not in lines[0]:
        # Of a reply of several lines the one that counts: the last of LHLO's, the first of SELECT's.
        return [f"{lines[-1] if lines[0].startswith('2') else lines[0]}  (+{len(lines) - 1})"]
    if len(lines) > MOST_LINES:
        lines = [*lines[:3], DOTS, *lines[-2:]]
    return [cut(line) for line in lines]


class Column:
    """Where a column stands: its edge, its width, and the line down which its time goes, at its left, in its middle or at its right."""

    def __init__(self, name, title, left, letters, side):
        self.name, self.title, self.left, self.side = name, title, left, side
        self.width = letters * LETTER + 30
        self.line = round(left + {"left": 8, "middle": self.width / 2, "right": self.width - 8}[side], 1)

    def head(self):
        """Its name and title."""
        anchor, more = {"left": ("start", -4), "middle": ("middle", 0), "right": ("end", 4)}[self.side]
        at = f'<text x="{self.line + more:g}" text-anchor="{anchor}"'
        return [f'{at} y="20" class="name">{escape(self.name)}</text>', f'{at} y="36" class="title">{escape(self.title)}</text>']


class Picture:
    """What is drawn so far, and how far down."""

    def __init__(self, story):
        self.columns, self.spans, self.strips, self.drawn = {}, [], [], []
        self.y, self.begun, self.number = HEAD, {}, None
        self.lay(story)
        self.width = round(max(column.left + column.width for column in self.columns.values()) + MARGIN)
        for row in story.rows:
            {Note: self.note, Line: self.line, Said: self.said, Moved: self.moved, Span: self.span}[type(row)](row)
        self.y += ROW
        for column, kind in list(self.begun):
            self.span(Span(column, kind, False))

    # ---- columns

    def lay(self, story):
        """Lays out the columns, each as wide as what is said there."""
        room = {}
        for row in story.rows:
            if isinstance(row, Said) and row.column:
                room[row.column] = max(room.get(row.column, 0), *(len(line) + 3 for line in visible(row)))
            elif isinstance(row, Moved):
                for name, word in zip(row.columns[-len(row.words) :], row.words):
                    room[name] = max(room.get(name, 0), len(word) + 4)
        peers = sorted(story.titles)
        lanes = [f"lane {number}" for number in range(story.shards)]
        kinds = [(name, story.titles[name], "right") for name in peers if name[0] == "L"]
        kinds += [(name, "of a shard", "middle") for name in lanes] + [(name, "mailbox", "middle") for name in story.mailboxes]
        kinds += [(name, story.titles[name], "left") for name in peers if name[0] == "I"]
        left = GUTTER
        for name, title, side in kinds:
            self.columns[name] = Column(name, title, left, max(room.get(name, 0), len(title), len(name)), side)
            left += self.columns[name].width

    # ---- parts

    def put(self, element):
        """Draws above what was drawn."""
        self.drawn.append(element)

    def text(self, x, y, kind, words, anchor="start"):
        """A text."""
        self.put(f'<text x="{x:g}" y="{y:g}" class="{kind}" text-anchor="{anchor}">{escape(words)}</text>')

    def arrow(self, start, end, kind, told=False):
        """An arrow from one x to another, in the middle of the row."""
        y, back = self.y + ROW / 2, 6 if start < end else -6
        more = " told" if told else ""
        self.put(f'<line x1="{start:g}" y1="{y:g}" x2="{end:g}" y2="{y:g}" class="{kind}{more}"/>')
        self.put(f'<path d="M{end - back:g} {y - 4:g}L{end:g} {y:g}L{end - back:g} {y + 4:g}" class="{kind} head"/>')

    def box(self, column, word, kind):
        """A box with a word, on a column's line."""
        width, middle = len(word) * LETTER + 12, column.line
        self.put(f'<rect x="{middle - width / 2:g}" y="{self.y + 1.5:g}" width="{width:g}" height="{ROW - 3}" rx="4" class="box {kind}"/>')
        self.text(middle, self.y + 13.5, kind if kind == "mark" else "word", word, "middle")
        return width / 2

    def down(self):
        """Goes on to the next row, and puts the number of the script's line before the first."""
        if self.number:
            self.text(GUTTER - 14, self.y + 13, "number", str(self.number), "end")
            self.number = None
        self.y += ROW

    # ---- rows

    def note(self, row):
        """A paragraph of comments."""
        lines = textwrap.wrap(row.text, int((self.width - GUTTER - MARGIN) / 7))
        self.y += 10
        self.strips.append(f'<rect x="0" y="{self.y - 4:g}" width="{self.width}" height="{len(lines) * 18 + 8}" class="strip"/>')
        for line in lines:
            self.text(GUTTER - 30, self.y + 12, "note", line)
            self.y += 18
        self.y += 10

    def line(self, row):
        """A line of the script."""
        self.number = row.number
        self.y += 3

    def said(self, row):
        """What is said at a column."""
        self.put(f"<g><title>{escape(chr(10).join(row.lines))}</title>")
        column = self.columns.get(row.column)
        if row.kind == "tail":
            self.box(column, visible(row)[0], "word")
            self.down()
        elif column is None:
            for line in visible(row):
                self.text(GUTTER, self.y + 13.5, row.kind, line)
                self.down()
        else:
            self.said_at(column, row)
        self.put("</g>")

    def said_at(self, column, row):
        """The lines of it, with an arrow at the first."""
        for number, line in enumerate(visible(row)):
            start = column.left + 2 if column.side == "right" else column.line + 26
            near = start + len(line) * LETTER + 4 if column.side == "right" else start - 4
            if number == 0 and row.kind != "mark":
                self.arrow(*((near, column.line) if row.is_inward else (column.line, near)), row.kind)
                if row.source:
                    self.arrow(self.columns[row.source].line, column.line, row.kind, told=True)
            self.text(start, self.y + 13.5, row.kind, line)
            self.down()

    def moved(self, row):
        """What goes through columns."""
        columns = [self.columns[name] for name in row.columns]
        words = [None] * (len(columns) - len(row.words)) + row.words
        edge = 0
        for before, column, word in zip([None, *columns], columns, words):
            half = len(word) * LETTER / 2 + 6 if word else 0
            if before:
                step = 1 if before.line < column.line else -1
                self.arrow(before.line + step * edge, column.line - step * half, row.kind)
            edge = half
        for column, word in zip(columns, words):
            if word:
                self.box(column, word, row.kind)
        self.down()

    def span(self, row):
        """What begins or ends."""
        at = (row.column, row.kind)
        if row.is_begun:
            self.begun.setdefault(at, self.y)
        elif at in self.begun:
            x, top = self.columns[row.column].line, self.begun.pop(at)
            if row.kind == "open":
                self.spans.append(f'<line x1="{x:g}" y1="{top:g}" x2="{x:g}" y2="{self.y:g}" class="open"/>')
            else:
                self.spans.append(f'<rect x="{x - 4:g}" y="{top:g}" width="8" height="{self.y - top:g}" class="{row.kind}"/>')

    # ---- the whole

    def svg(self):
        """The picture."""
        heads = [line for column in self.columns.values() for line in column.head()]
        lives = [f'<line x1="{column.line:g}" y1="{HEAD - 6}" x2="{column.line:g}" y2="{self.y:g}" class="life"/>' for column in self.columns.values()]
        size = f'width="{self.width}" height="{self.y:g}" viewBox="0 0 {self.width} {self.y:g}"'
        parts = [
            f'<svg xmlns="http://www.w3.org/2000/svg" {size} role="img">',
            f"<style>{STYLE}</style>",
            f'<rect width="{self.width}" height="{self.y:g}" class="paper"/>',
        ]
        return "\n".join(parts + lives + self.spans + self.strips + heads + self.drawn + ["</svg>"]) + "\n"
