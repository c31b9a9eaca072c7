"""The picture of a state graph, as SVG. States stand below each other in order of their numbers. A way to the next state
goes straight down, one to a later state along the right side, one to an earlier state or to the same along the left,
each in a lane of its own."""
from xml.sax.saxutils import escape

SIGN, LINE, PAD, GAP, LANE, EDGE = 7.3, 17, 9, 26, 16, 14
# Of reads, of writes and of registers that are set a box has so many lines at most.
MOST_LINES = 16
STYLE = """\
text { font: 12px monospace; fill: #222 } .title { font-weight: bold; font-size: 14px } .head { font-weight: bold }
.box { fill: #fff; stroke: #456; stroke-width: 1.2 } .bar { fill: #dde6ee } .end { fill: #456 } .white { fill: #fff }
.read { fill: #05529c } .write { fill: #7a3d00 } .fault { fill: #a00020 } .way { fill: #555; font-style: italic }
.edge { fill: none; stroke: #456; stroke-width: 1.3 } .back { stroke: #06703a } .memory { fill: #555 }"""
MARKER = """\
<defs><marker id="arrow" viewBox="0 0 8 8" refX="7" refY="4" markerWidth="7" markerHeight="7" orient="auto">
<path d="M0,0 L8,4 L0,8 z" fill="#333"/></marker></defs>"""


class Box:
    """A state in the picture: its lines, each with its class, and where it stands."""

    def __init__(self, number, head, lines, ways):
        self.number, self.head, self.lines, self.ways = number, head, lines, ways
        self.top = 0.0

    def width(self):
        texts = [self.head[0] + '    ' + self.head[1]] + [text for _, text in self.lines] + [text for text, _ in self.ways if text]
        return max(len(text) for text in texts) * SIGN + 2 * PAD

    def rows(self):
        return 1 + len(self.lines) + sum(1 for text, _ in self.ways if text)

    def height(self):
        return self.rows() * LINE + PAD

    def baseline(self, row):
        return self.top + row * LINE + 13


def count(number, word):
    return f"{number} {word}{'' if number == 1 else 's'}"


def access_line(access):
    """A line of a read or a write: its clock, its place, and the test that it waits for."""
    text = f'{access.clock}  write {access.place} := {access.data}' if access.writes else f'{access.clock}  read  {access.place}'
    return 'write' if access.writes else 'read', text + (f'  where {access.test}' if access.test else '')


def fault_line(faults):
    """The line of the faults that a step may meet, which end the run in its last clock."""
    places = [fault.split()[-1] for fault in faults]
    more = f' and {len(places) - 4} more' if len(places) > 4 else ''
    return 'fault', f"fault OutOfRange at {', '.join(places[:4])}{more}"


def some(lines, what):
    """The lines, or the first of them and how many more there are."""
    if len(lines) <= MOST_LINES:
        return lines
    return lines[:MOST_LINES - 1] + [(lines[0][0], f'   … and {len(lines) - MOST_LINES + 1} more {what}')]


def box_of(graph, number, following):
    """The box of a state. A way without a test to the next state has no line of its own."""
    if number in graph.done:
        return Box(number, ('done', f'state {number}'), [], [])
    step = graph.steps[number]
    accesses = [access_line(access) for access in step.accesses]
    lines = some([line for line in accesses if line[0] == 'read'], 'reads')
    lines += some([line for line in accesses if line[0] == 'write'], 'writes')
    lines += some([('setting', f'{step.clocks - 1}  {setting}') for setting in step.settings], 'registers')
    lines += [fault_line(step.faults)] if step.faults else []
    ways = []
    for test, state in step.ways:
        name = 'done' if state in graph.done else f'state {state}'
        if test == '' and state == following:
            ways.append(('', state))
        else:
            ways.append((f"{'then' if test == '' else 'else' if test is None else f'if {test}'}: {name}", state))
    return Box(number, (f'state {number}', count(step.clocks, 'clock')), lines, ways)


class Edge:
    """A way between two boxes: the side on which it goes, and its lane there."""

    def __init__(self, source, row, target, side):
        self.source, self.row, self.target, self.side, self.lane = source, row, target, side, 0

    def span(self):
        """From where to where it goes down the page."""
        ends = sorted((self.source.baseline(self.row), self.target.baseline(0)))
        return ends[0] - 4, ends[1] + 4


def edges_of(boxes):
    """The ways, from the boxes in order."""
    by_number = {box.number: at for at, box in enumerate(boxes)}
    edges = []
    for at, box in enumerate(boxes):
        row = 1 + len(box.lines)
        for text, state in box.ways:
            target = by_number[state]
            side = 'down' if target == at + 1 else 'right' if target > at else 'left'
            edges.append(Edge(box, row, boxes[target], side))
            row += 1 if text else 0
    return edges


def give_lanes(edges):
    """Gives each way of a side the nearest lane that is free where it goes, the shortest first; how many there are."""
    lanes = []
    for edge in sorted(edges, key=lambda edge: edge.span()[1] - edge.span()[0]):
        low, high = edge.span()
        free = next((at for at, taken in enumerate(lanes) if all(high < start or end < low for start, end in taken)), len(lanes))
        if free == len(lanes):
            lanes.append([])
        lanes[free].append((low, high))
        edge.lane = free
    return len(lanes)


def path_of(edge, left, right):
    """The path of a way, with an arrow at its end."""
    if edge.side == 'down':
        middle = (left + right) / 2
        return f'<path class="edge" d="M{middle:.1f},{edge.source.top + edge.source.height():.1f} V{edge.target.top:.1f}" marker-end="url(#arrow)"/>'
    start, end = edge.source.baseline(edge.row) - 4, edge.target.baseline(0) - 4
    side, out = (right, 1) if edge.side == 'right' else (left, -1)
    lane = side + out * (EDGE + edge.lane * LANE)
    kind = 'edge' if edge.side == 'right' else 'edge back'
    return (f'<path class="{kind}" d="M{side:.1f},{start:.1f} H{lane:.1f} V{end:.1f} H{side:.1f}" marker-end="url(#arrow)"/>')


def text_at(x, y, kind, text, anchor='start'):
    ending = f' text-anchor="{anchor}"' if anchor != 'start' else ''
    return f'<text class="{kind}" x="{x:.1f}" y="{y:.1f}"{ending} xml:space="preserve">{escape(text)}</text>'


def box_parts(box, left, right, is_end):
    """The parts of a box."""
    place = f'x="{left:.1f}" y="{box.top:.1f}" width="{right - left:.1f}"'
    bar, head = ('end', 'head white') if is_end else ('bar', 'head')
    parts = [f'<rect class="box" {place} height="{box.height():.1f}" rx="3"/>', f'<rect class="{bar}" {place} height="{LINE + 2}" rx="3"/>',
             text_at(left + PAD, box.baseline(0), head, box.head[0]), text_at(right - PAD, box.baseline(0), head, box.head[1], 'end')]
    lines = box.lines + [('way', text) for text, _ in box.ways if text]
    return parts + [text_at(left + PAD, box.baseline(row), kind, text) for row, (kind, text) in enumerate(lines, 1)]


def heading(name, graph):
    """The lines above the graph: the program, and its memories."""
    lines = [('title', name), ('memory', f"{count(len(graph.steps), 'state')}; registers are r4 and on, and banks stand in braces")]
    for memory in graph.net.memories:
        lines.append(('memory', f"{'decl' if memory.outside else 'let '} {memory.declaration()};"))
    return lines


def picture(name, graph):
    """The whole picture."""
    order = graph.order
    boxes = [box_of(graph, number, order[at + 1] if at + 1 < len(order) else None) for at, number in enumerate(order)]
    head = heading(name, graph)
    top = PAD + len(head) * LINE + GAP
    for box in boxes:
        box.top = top
        top += box.height() + GAP
    edges = edges_of(boxes)
    lanes = {side: give_lanes([edge for edge in edges if edge.side == side]) for side in ('left', 'right')}
    left = PAD + EDGE + lanes['left'] * LANE
    right = left + max(box.width() for box in boxes)
    width = max(right + EDGE + lanes['right'] * LANE, PAD + max(len(text) for _, text in head) * (SIGN + 1)) + PAD
    parts = [f'<svg xmlns="http://www.w3.org/2000/svg" width="{width:.0f}" height="{top:.0f}" viewBox="0 0 {width:.0f} {top:.0f}">',
             f'<title>{escape(name)}</title>', f'<style>{STYLE}</style>', MARKER,
             f'<rect width="{width:.0f}" height="{top:.0f}" fill="#fafafa"/>']
    parts += [text_at(PAD, PAD + 12 + row * LINE, kind, text) for row, (kind, text) in enumerate(head)]
    start = next(box for box in boxes if box.number == graph.start)
    parts.append(f'<path class="edge" d="M{(left + right) / 2:.1f},{start.top - GAP + 6:.1f} V{start.top:.1f}" marker-end="url(#arrow)"/>')
    for box in boxes:
        parts += box_parts(box, left, right, box.number in graph.done)
    return '\n'.join(parts + [path_of(edge, left, right) for edge in edges] + ['</svg>', ''])
