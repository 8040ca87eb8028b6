"""One pit of a sheet as a drawing: views across, a row for each console."""

import textwrap
from xml.sax.saxutils import escape, quoteattr

from records import ORIGIN

WIDTH, LEFT, RIGHT, MARGIN = 1200, 150, 120, 20
TITLE, BAND = 24, 128
WIDEST_COLUMN, WIDEST_BOX, BOXES = 150, 58, 54

# Heights within a row, from its upper edge.
ROW_NAME, ROW_BOXES, ROW_VOTES, ROW_DELIVERED, ROW_CHAIN = 34, 8, 78, 102, 116

SANS = "DejaVu Sans, Verdana, Arial, sans-serif"
MONO = "DejaVu Sans Mono, Consolas, monospace"
INK, PALE, RULE, PASSED_OVER = "#1c2733", "#6b7a8a", "#c9d1d9", "#eceff2"
GREEN, RED = "#1d7a46", "#b3261e"
LINK, SIDE_LINK = "#4a6785", "#98a3ae"

# Fill and outline of a block; of blocks that share a view, one after the other.
PLAIN = ("#dceafa", "#2b5f94")
APART = (("#fde2c4", "#b8560b"), ("#f8d3e4", "#a01a5c"), ("#e7dbf7", "#6236a6"))


class Svg:
    """Shapes, written one after the other: a later one lies above an earlier one."""

    def __init__(self):
        self.parts = []

    def add(self, tag, text=None, **attributes):
        given = ""
        for name, value in attributes.items():
            if value is not None:
                value = round(value, 1) if isinstance(value, float) else value
                given += f" {name.replace('_', '-')}={quoteattr(str(value))}"
        self.parts.append(f"<{tag}{given}/>" if text is None else f"<{tag}{given}>{escape(text)}</{tag}>")

    def text(self, x, y, text, size=13, colour=INK, bold=False, middle=False, family=None):
        self.add("text", text, x=x, y=y, font_size=size, fill=colour, font_weight="bold" if bold else None,
                 text_anchor="middle" if middle else None, font_family=family)

    def line(self, x1, y1, x2, y2, colour, width=1, dashes=None):
        self.add("line", x1=x1, y1=y1, x2=x2, y2=y2, stroke=colour, stroke_width=width, stroke_dasharray=dashes)

    def path(self, points, colour=None, fill="none", width=None, dashes=None):
        self.add("path", d=points, fill=fill, stroke=colour, stroke_width=width, stroke_dasharray=dashes)

    def dot(self, x, y, radius, fill):
        self.add("circle", cx=x, cy=y, r=radius, fill=fill)

    def ring(self, x, y, radius, colour):
        self.add("circle", cx=x, cy=y, r=radius, fill="#ffffff", stroke=colour, stroke_width=2)

    def ground(self, x, y, width, height, fill):
        self.add("rect", x=x, y=y, width=width, height=height, fill=fill)

    def block(self, x, y, width, height, colours, certified):
        fill, outline = colours
        self.add("rect", x=x, y=y, width=width, height=height, rx=5, fill=fill, stroke=outline,
                 stroke_width=3 if certified else 1.5, stroke_dasharray=None if certified else "4 3")

    def flag(self, x, y):
        self.path(f"M{x:.1f},{y + 5:.1f} v-14 l13,5 l-13,5 z", GREEN, GREEN, 1.5)

    def opened_again(self, x, y1, y2):
        self.line(x, y1, x, y2, RED, 2, "3 3")

    def write(self, path, height):
        head = (f'<svg xmlns="http://www.w3.org/2000/svg" width="{WIDTH}" height="{height:.0f}" '
                f'viewBox="0 0 {WIDTH} {height:.0f}" font-family="{SANS}">')
        ground = '<rect width="100%" height="100%" fill="#ffffff"/>'
        path.parent.mkdir(parents=True, exist_ok=True)
        path.write_text("\n".join([head, ground, *self.parts, "</svg>"]) + "\n", encoding="utf-8")


class Drawing:
    def __init__(self, title, pit):
        self.pit, self.svg = pit, Svg()
        self.title = textwrap.wrap(title, 105)[:2]
        self.top = 64 + TITLE * len(self.title)
        self.bottom = self.top + BAND * pit.n
        self.columns = pit.columns() or [1]
        self.step = min(WIDEST_COLUMN, (WIDTH - LEFT - RIGHT) / (len(self.columns) + 0.6))
        self.box = min(WIDEST_BOX, self.step * 0.6)
        self.main = pit.main_line()
        self.places, self.labels, self.colours = {}, {}, {}
        self.lay_out()

    def x(self, view):
        """The middle of a view's column; the origin stands before the first one."""
        return LEFT + self.step * (0.25 if view == 0 else 1.1 + self.columns.index(view))

    def y(self, i):
        """The upper edge of a console's row."""
        return self.top + BAND * i

    def lay_out(self):
        """Where each block's box is (left, top, width, height), what is on it, and its colours."""
        for view, blocks in self.pit.by_view().items():
            # Blocks of the chain come first, since the last box stands for all that there is no room for.
            blocks = sorted(blocks, key=lambda block: block.key not in self.main)
            shown, rest = blocks[:len(APART)], blocks[len(APART):]
            height = min(30, (BOXES - 4 * (len(shown) - 1)) / len(shown))
            whole = height * len(shown) + 4 * (len(shown) - 1)
            top = self.y(view % self.pit.n) + ROW_BOXES + (BOXES - whole) / 2
            for at, block in enumerate(shown):
                self.places[block.key] = (self.x(view) - self.box / 2, top + at * (height + 4), self.box, height)
                self.labels[block.key] = block.label
                self.colours[block.key] = APART[at] if len(blocks) > 1 else PLAIN
            for block in rest:
                self.colours[block.key] = APART[-1]
                self.labels[shown[-1].key] = f"+{len(rest) + 1}"

    def draw(self, path):
        for at, line in enumerate(self.title):
            self.svg.text(MARGIN, 32 + TITLE * at, line, 18, bold=True)
        self.draw_grid()
        self.draw_links()
        self.draw_blocks()
        for i in range(self.pit.n):
            self.draw_row(i)
        self.svg.write(path, self.draw_end(self.draw_legend(self.bottom + 30)))

    def draw_grid(self):
        svg, on_chain, with_block = self.svg, {key.view for key in self.main}, self.pit.by_view()
        svg.text(MARGIN, self.top - 16, "view", colour=PALE)
        for at, view in enumerate(self.columns):
            x = LEFT + self.step * (1.1 + at)
            if view not in on_chain:
                svg.ground(x - self.step / 2, self.top - 8, self.step + 0.5, self.bottom - self.top + 8, PASSED_OVER)
            colour = INK if view in on_chain else PALE
            svg.text(x, self.top - 16, "…" if view is None else str(view), 15, colour, True, True)
            if view is not None and view not in with_block and self.step > 50:
                svg.text(x, self.y(view % self.pit.n) + 20, "no block", 11, PALE, middle=True)
        for i in range(self.pit.n + 1):
            svg.line(MARGIN, self.y(i), WIDTH - MARGIN, self.y(i), RULE)

    def draw_links(self):
        for key, (left, top, _, height) in self.places.items():
            parent, end = self.pit.blocks[key].parent, (left - 3, top + height / 2)
            if parent == ORIGIN:
                start = (self.origin()[0] + 9, self.origin()[1])
            elif parent in self.places:
                from_left, from_top, from_width, from_height = self.places[parent]
                start = (from_left + from_width, from_top + from_height / 2)
            else:
                # The parent is not on the sheet, or has no box of its own.
                start = (end[0] - 16, end[1])
            if key in self.main:
                self.svg.path(self.link(start, end), LINK, width=2.4)
            else:
                self.svg.path(self.link(start, end), SIDE_LINK, width=1.6, dashes="5 4")
            self.svg.path(f"M{left:.1f},{end[1]:.1f} l-7,-4 l0,8 z", fill=LINK if key in self.main else SIDE_LINK)

    def link(self, start, end):
        """A bend next to the parent's box, into the child's row, and straight on from there. Leaders take turns, so
        that no box is in the way in this row, unless the link is very long."""
        turned = min(end[0], start[0] + self.step - self.box - 3)
        bend = (turned - start[0]) * 0.55
        points = (start[0] + bend, start[1]), (turned - bend, end[1]), (turned, end[1])
        curve = " ".join(f"{x:.1f},{y:.1f}" for x, y in points)
        return f"M{start[0]:.1f},{start[1]:.1f} C{curve} L{end[0]:.1f},{end[1]:.1f}"

    def origin(self):
        first = self.main[0].view if self.main else 1
        return self.x(0), self.y(first % self.pit.n) + ROW_BOXES + BOXES / 2

    def draw_blocks(self):
        if any(block.parent == ORIGIN for block in self.pit.blocks.values()):
            x, y = self.origin()
            self.svg.ring(x, y, 8, INK)
            self.svg.text(x, y + 24, "origin", 11, PALE, middle=True)
        for key, (left, top, width, height) in self.places.items():
            label = self.labels[key]
            self.svg.block(left, top, width, height, self.colours[key], self.pit.blocks[key].certified)
            size = min(15, height * 0.78, width / max(2, len(label)) * 1.36)
            self.svg.text(left + width / 2, top + height / 2 + size * 0.36, label, size, bold=True, middle=True)

    def draw_row(self, i):
        svg, pit, y = self.svg, self.pit, self.y(i)
        svg.text(MARGIN, y + ROW_NAME, f"console {i}", 14, bold=True)
        for at, words in enumerate(textwrap.wrap(pit.names.get(i, ""), 15)[:3]):
            svg.text(MARGIN, y + ROW_NAME + 20 + 17 * at, words)
        for view, blocks in pit.by_view().items():
            voted = [block for block in blocks if i in block.votes]
            gap = min(14, self.box / max(1, len(voted)))
            for at, block in enumerate(voted):
                x = self.x(view) + gap * (at - (len(voted) - 1) / 2)
                svg.dot(x, y + ROW_VOTES, 5.5 if gap > 10 else 3, self.colours[block.key][1])
        if i in pit.seats:
            self.draw_deliveries(i)
            self.draw_head(i)
        else:
            svg.text(WIDTH - RIGHT + 12, y + ROW_NAME, "not played", colour=PALE)

    def draw_deliveries(self, i):
        """Which blocks were handed over in which view, and where the console was opened again."""
        seat, views = self.pit.seats[i], {}
        for view, line in seat.deliveries:
            views.setdefault(view, []).extend(self.pit.labels(line))
        for view, labels in views.items():
            text = "+" + " ".join(labels) if len(labels) <= 2 else f"+{labels[0]}…{labels[-1]}"
            size = 12 if self.step > 55 else 10
            self.svg.text(self.x(view), self.y(i) + ROW_DELIVERED, text, size, GREEN, True, True)
        for view in seat.reopened:
            if view in self.columns:
                self.svg.opened_again(self.x(view) + self.step / 2 - 4, self.y(i) + 4, self.y(i) + BAND - 4)

    def draw_head(self, i):
        """A line along the foot of the row, with a knot for every block of the chain and a flag at its head."""
        svg, seat, y = self.svg, self.pit.seats[i], self.y(i) + ROW_CHAIN
        head = self.x(seat.head.view)
        svg.line(self.x(0), y, head, y, GREEN, 3)
        for key in seat.chain:
            svg.ring(self.x(key.view), y, 4, GREEN)
        svg.flag(head, y)
        x, count = WIDTH - RIGHT + 12, len(seat.chain)
        svg.text(x, self.y(i) + ROW_NAME, f"head {self.pit.label(seat.head)}", 14, GREEN, True)
        svg.text(x, self.y(i) + ROW_NAME + 20, f"{count} block" if count == 1 else f"{count} blocks")

    def draw_legend(self, y):
        """Signs with their meaning, as many in a line as fit. Gives back where the next line would be."""
        svg, x = self.svg, MARGIN
        for sign, room, words in LEGEND:
            whole = room + len(words) * 6.9 + 24
            if x + whole > WIDTH - 10:
                x, y = MARGIN, y + 26
            sign(svg, x, y)
            svg.text(x + room, y, words, 12.5)
            x += whole
        return y + 40

    def draw_end(self, y):
        """The boards, and whether the chains agree. Gives back the height of the whole drawing."""
        pit, svg = self.pit, self.svg
        svg.line(MARGIN, y - 22, WIDTH - MARGIN, y - 22, RULE)
        boards = sorted((kind, i, shown) for i, seat in pit.seats.items() for kind, shown in seat.boards.items())
        for kind, i, shown in boards:
            svg.text(MARGIN, y, f"{kind} board", colour=PALE)
            svg.text(160, y, pit.row_name(i), bold=True)
            svg.text(340, y, textwrap.shorten(shown, 100, placeholder=" …"), family=MONO)
            y += 22
        for line in textwrap.wrap(pit.agreement(), 120):
            svg.text(MARGIN, y + 8, line, 15, RED if pit.parted() else GREEN, True)
            y += 24
        return y + 14


def sign_apart(svg, x, y):
    svg.block(x, y - 13, 30, 17, APART[0], True)
    svg.block(x + 36, y - 13, 30, 17, APART[1], False)


def sign_chain(svg, x, y):
    svg.line(x, y - 4, x + 26, y - 4, GREEN, 3)
    svg.ring(x + 10, y - 4, 4, GREEN)
    svg.flag(x + 26, y - 4)


LEGEND = (
    (lambda svg, x, y: svg.block(x, y - 13, 30, 17, PLAIN, True), 38, "block with a certificate"),
    (lambda svg, x, y: svg.block(x, y - 13, 30, 17, PLAIN, False), 38, "block without one"),
    (sign_apart, 74, "blocks of one view: its leader lies"),
    (lambda svg, x, y: svg.dot(x + 6, y - 5, 5.5, PLAIN[1]), 20, "vote, in the colour of its block"),
    (lambda svg, x, y: svg.text(x, y, "+3", 12, GREEN, True), 26, "handed over here, in this view"),
    (sign_chain, 46, "chain and head at the end"),
    (lambda svg, x, y: svg.opened_again(x + 4, y - 14, y + 4), 14, "opened again over its store"),
    (lambda svg, x, y: svg.ground(x, y - 13, 24, 17, PASSED_OVER), 32, "view without a block in the chain"),
)
