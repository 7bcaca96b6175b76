#!/usr/bin/env python3
"""drawing.py check | write: docs/architecture.svg, the crates of crates.txt as a drawing.

A section of crates.txt is a band, the last one on top; a crate is a box in its section's band, above all crates of the band that
it stands on. An arrow leads from a crate to one that it stands on; none is drawn where others lead there too. A crate's sentence
is shown when a pointer rests on its box. The same crates.txt always gives the same drawing. `check` compares the committed file.
"""
import sys
from html import escape
from pathlib import Path

sys.dont_write_bytecode = True
import crates  # noqa: E402

ROOT = Path(__file__).resolve().parents[2]
FILE = 'docs/architecture.svg'
LETTER, HEIGHT, GAP, BEND, ROW, HEAD, MARGIN = 7.3, 26, 16, 12, 64, 30, 16
SWEEPS = 24
TINTS = ['#e3edf7', '#e6f2e3', '#f8f0dc', '#f3e6f2', '#e2f1f1', '#f7e6e0', '#ececf4', '#eef2da']
INKS = ['#2d5f91', '#3d7a33', '#94701a', '#8a3f84', '#23797a', '#a34f2d', '#55558c', '#6c7a1e']


def reduced(stands_on):
    """Each crate with those that it stands on and that none of its others leads to."""
    reached = {}

    def below(name):
        if name not in reached:
            reached[name] = set()
            for other in stands_on.get(name, ()):
                reached[name] |= {other} | below(other)
        return reached[name]

    return {name: sorted(other for other in others if not any(other in below(third) for third in others if third != other))
            for name, others in stands_on.items()}


def levels(names, arrows):
    """The crates of a section by how many of its crates stand below each on the longest way."""
    found = {}

    def level(name):
        if name not in found:
            found[name] = max((level(other) + 1 for other in arrows[name] if other in names), default=0)
        return found[name]

    rows = [[] for _ in range(max(map(level, names), default=-1) + 1)]
    for name in names:
        rows[level(name)].append(name)
    return rows


class Layout:
    """Rows from the bottom up. A node is a crate, or a bend: a crate, one below it, and a row that their arrow crosses."""

    def __init__(self, sections, stands_on):
        self.arrows = reduced(stands_on)
        self.rows, self.bands = [], []
        for title, names in sections:
            rows = levels(names, stands_on)
            self.bands.append((title, len(self.rows), len(self.rows) + len(rows)))
            self.rows += [list(row) for row in rows]
        self.row_of = {name: number for number, row in enumerate(self.rows) for name in row}
        self.links = {}
        for name in sorted(self.arrows):
            for other in self.arrows[name]:
                self.add_way(name, other)
        self.order()
        self.place()

    def add_way(self, name, other):
        """The nodes of an arrow from a crate to one below it, a bend in each row between."""
        before = name
        for number in range(self.row_of[name] - 1, self.row_of[other], -1):
            bend = (name, other, number)
            self.rows[number].append(bend)
            self.links.setdefault(before, []).append(bend)
            before = bend
        self.links.setdefault(before, []).append(other)

    def neighbours(self):
        above = {}
        for node, below in self.links.items():
            for other in below:
                above.setdefault(other, []).append(node)
        return above

    def order(self):
        """Each row by the middle of its neighbours' places, up and down until it settles."""
        above = self.neighbours()
        for sweep in range(SWEEPS):
            upward = sweep % 2 == 0
            for row in self.rows if upward else reversed(self.rows):
                near = self.links if upward else above
                at = {node: k / max(1, len(line) - 1) for line in self.rows for k, node in enumerate(line)}
                row.sort(key=lambda node: (sum(at[other] for other in near.get(node, ())) / len(near[node])
                                           if near.get(node) else at[node], at[node]))

    def width(self, node):
        return BEND if isinstance(node, tuple) else round(len(node) * LETTER) + 18

    def place(self):
        """Where each node's middle is: near its neighbours, in its row's order, none over another."""
        above = self.neighbours()
        self.x = {}
        widest = max(sum(self.width(node) + GAP for node in row) for row in self.rows)
        for row in self.rows:
            room = (widest - sum(self.width(node) for node in row)) / (len(row) + 1)
            at = 0
            for node in row:
                at += room
                self.x[node] = at + self.width(node) / 2
                at += self.width(node)
        for sweep in range(SWEEPS):
            for row in self.rows if sweep % 2 else reversed(self.rows):
                self.settle(row, above, widest)
        self.wide = round(widest)

    def settle(self, row, above, widest):
        """Moves the nodes of a row to the middle of their neighbours, as far as the row's order and the width let them."""
        wanted = {}
        for node in row:
            near = [self.x[other] for other in (*self.links.get(node, ()), *above.get(node, ()))]
            wanted[node] = sum(near) / len(near) if near else self.x[node]
        least, at = {}, 0
        for node in row:
            least[node] = at + self.width(node) / 2
            at += self.width(node) + GAP
        most, at = {}, widest
        for node in reversed(row):
            most[node] = at - self.width(node) / 2
            at -= self.width(node) + GAP
        for block in blocks(row, wanted, self.width):
            for node, x in block:
                self.x[node] = min(max(x, least[node]), most[node])


def blocks(row, wanted, width):
    """The nodes of a row at their wanted places; where some would overlap they stand side by side around the middle of these."""
    found = []
    for node in row:
        found.append(([node], wanted[node]))
        while len(found) > 1 and left(found[-1], width) < right(found[-2], width) + GAP:
            nodes, _ = found.pop()
            before, _ = found.pop()
            together = before + nodes
            offsets, at = [], 0
            for one in together:
                offsets.append(at + width(one) / 2)
                at += width(one) + GAP
            middle = sum(wanted[one] - offset for one, offset in zip(together, offsets)) / len(together)
            found.append((together, middle + (at - GAP) / 2))
    for nodes, middle in found:
        at = middle - span(nodes, width) / 2
        placed = []
        for node in nodes:
            placed.append((node, at + width(node) / 2))
            at += width(node) + GAP
        yield placed


def span(nodes, width):
    return sum(width(node) + GAP for node in nodes) - GAP


def left(block, width):
    return block[1] - span(block[0], width) / 2


def right(block, width):
    return block[1] + span(block[0], width) / 2


class Drawing:
    """The lines of the SVG."""

    def __init__(self, listed):
        self.listed = listed
        self.layout = Layout(listed.sections, listed.stands_on)
        self.y = {}
        at = MARGIN
        self.bands = []
        for title, first, last in reversed(self.layout.bands):
            top = at
            at += HEAD
            for number in range(last - 1, first - 1, -1):
                self.y[number] = at
                at += ROW
            self.bands.append((title, top, at - ROW + HEIGHT + 14))
            at += HEIGHT + 14 - ROW + 14
        self.high = round(at)

    def middle(self, node):
        number = node[2] if isinstance(node, tuple) else self.layout.row_of[node]
        return round(self.layout.x[node] + MARGIN * 2), self.y[number]

    def way(self, name, other):
        """An arrow's path: straight down past each row, a curve between two rows."""
        x, y = self.middle(name)
        parts = [f'M{x},{y + HEIGHT}']
        y += HEIGHT
        bends = [(name, other, number) for number in range(self.layout.row_of[name] - 1, self.layout.row_of[other], -1)]
        for node in [*bends, other]:
            to_x, to_y = self.middle(node)
            end = to_y - 5 if node == other else to_y
            half = round((y + end) / 2)
            parts.append(f'C{x},{half} {to_x},{half} {to_x},{end}')
            x, y = to_x, end
            if node != other:
                y = to_y + HEIGHT
                parts.append(f'V{y}')
        return ''.join(parts)

    def lines(self):
        colour = {name: k % len(INKS) for k, (_, names) in enumerate(self.listed.sections) for name in names}
        wide = self.layout.wide + 4 * MARGIN
        yield (f'<svg xmlns="http://www.w3.org/2000/svg" viewBox="0 0 {wide} {self.high}" width="{wide}" height="{self.high}" '
               'font-family="DejaVu Sans Mono, Menlo, Consolas, monospace" font-size="12">')
        yield '<title>The crates, and which stands on which</title>'
        yield f'<rect width="{wide}" height="{self.high}" fill="white"/>'
        for k, ink in enumerate(INKS):
            yield (f'<marker id="to{k}" viewBox="0 0 8 8" refX="4" refY="4" markerWidth="7" markerHeight="7" orient="auto">'
                   f'<path d="M0,1L8,4L0,7z" fill="{ink}"/></marker>')
        for k, (title, top, bottom) in enumerate(reversed(self.bands)):
            yield (f'<rect x="{MARGIN}" y="{top}" width="{wide - 2 * MARGIN}" height="{bottom - top}" rx="6" '
                   f'fill="{TINTS[k % len(TINTS)]}"/>')
        for name in sorted(self.layout.arrows):
            for other in self.layout.arrows[name]:
                k = colour[name]
                yield (f'<path d="{self.way(name, other)}" fill="none" stroke="{INKS[k]}" stroke-opacity="0.65" '
                       f'marker-end="url(#to{k})"/>')
        for k, (title, top, _) in enumerate(reversed(self.bands)):
            yield (f'<text x="{MARGIN + 10}" y="{top + 18}" font-weight="bold" fill="{INKS[k % len(INKS)]}" paint-order="stroke" '
                   f'stroke="{TINTS[k % len(TINTS)]}" stroke-width="5">{escape(title)}</text>')
        for name in sorted(self.layout.row_of, key=lambda name: (self.layout.row_of[name], name)):
            yield from self.box(name, INKS[colour[name]])
        yield '</svg>'

    def box(self, name, ink):
        x, y = self.middle(name)
        wide = self.layout.width(name)
        sentence = self.listed.sentences.get(name)
        yield f'<g><title>{escape(name)}: {escape(sentence)}</title>' if sentence else '<g>'
        yield (f'<rect x="{x - wide // 2}" y="{y}" width="{wide}" height="{HEIGHT}" rx="4" fill="white" stroke="{ink}" '
               'stroke-width="1.3"/>')
        yield f'<text x="{x}" y="{y + 17}" text-anchor="middle">{escape(name)}</text></g>'


def drawn(text):
    return '\n'.join(Drawing(crates.Listed(text)).lines()) + '\n'


SAMPLE = '## below\n# of both\na:\nb: a\n## above\nc: a b\nd: a c\n'


def wrong_sample():
    """Which part of the sample is drawn wrongly."""
    listed = crates.Listed(SAMPLE)
    layout, picture = Layout(listed.sections, listed.stands_on), drawn(SAMPLE)
    parts = {
        'reduction': layout.arrows == {'a': [], 'b': ['a'], 'c': ['b'], 'd': ['c']},
        'rows': layout.row_of == {'a': 0, 'b': 1, 'c': 2, 'd': 3},
        'bands': [band[1:] for band in layout.bands] == [(0, 2), (2, 4)],
        'arrows': picture.count('marker-end') == 3 and picture.count('<text') == 6,
        'sentences': '<title>a: of both</title>' in picture,
        'a way past a row': Layout([('x', ['a', 'b', 'c', 'd'])], {'a': [], 'b': ['a'], 'c': ['b'], 'd': ['a']}).row_of['d'] == 1,
        'the same again': drawn(SAMPLE) == picture,
    }
    return [f'drawing.py draws its sample wrongly: {name}' for name, right in parts.items() if not right]


def said(root):
    """What is wrong."""
    file = root / FILE
    picture = drawn((root / 'crates.txt').read_text(encoding='utf-8'))
    if not file.is_file() or file.read_text(encoding='utf-8') != picture:
        return [*wrong_sample(), f'{FILE} is not the drawing of crates.txt: python3 tests/gate/drawing.py write']
    return wrong_sample()


if __name__ == '__main__':
    if sys.argv[1:] == ['write']:
        (ROOT / FILE).write_text(drawn((ROOT / 'crates.txt').read_text(encoding='utf-8')), encoding='utf-8')
    elif sys.argv[1:] == ['check']:
        found = said(ROOT)
        print('\n'.join([*found, f'{len(found)} wrong']))
        sys.exit(1 if found else 0)
    else:
        sys.exit(__doc__)
