"""The net of a text that `lower` writes (docs/NETLIST.md, "Cells" and "The text"), and what of its wires is known where
the state and the clock of a step are."""
import re

from lib.calls import Trouble
from lib.lowered import faults_of, memories_of

REGISTER = re.compile(r"^  reg \[\d+:0\] r(\d+) = \d+'d(\d+);$", re.M)
WIRE = re.compile(r'^  wire \[(\d+):0\] w(\d+) = (.*);$', re.M)
NEXT = re.compile(r'^    r(\d+) <= w(\d+);$', re.M)
ASSIGNED = re.compile(r'^  assign (\w+) = (.*);$', re.M)
PORT = re.compile(r'm(\d+)_b(\d+)_p(\d+)_en$')
FORMS = [
    ('const', re.compile(r"\d+'d(\d+)$")), ('reg', re.compile(r'r(\d+)$')),
    ('data', re.compile(r'm(\d+)_b(\d+)_p(\d+)_in$')),
    ('binary', re.compile(r'w(\d+) (\+|-|\*|&|\||\^|<<|>>|<|==) w(\d+)$')),
    ('signed', re.compile(r'\$signed\(w(\d+)\) (<|>>>) (?:\$signed\()?w(\d+)\)?$')),
    ('mux', re.compile(r'w(\d+) \? w(\d+) : w(\d+)$')),
    ('zero', re.compile(r"\{\d+'d0, w(\d+)\}$")), ('sign', re.compile(r'\{\{\d+\{w\d+\[\d+\]\}\}, w(\d+)\}$')),
    ('low', re.compile(r'w(\d+)\[\d+:0\]$')),
]
# The registers of every net that has a step: the clock of the step, that a step has ended, the fault, the state.
CLOCK, TICK, FAULT, STATE = range(4)
# One of no step has two of them, by their numbers in its text.
STILL = {0: TICK, 1: FAULT}
DEEP = 200


class Cell:
    """A cell: its form, its width, its operands, and for a constant or a register its number."""

    def __init__(self, form, width, operands, detail):
        self.form, self.width, self.operands, self.detail = form, width, operands, detail


class Driver:
    """A driver of a port: the wires of its enable, row and data, and whether it writes."""

    def __init__(self, enable, writes, row, data):
        self.enable, self.writes, self.row, self.data = enable, writes, row, data


def form_of(text, width):
    """The cell that the right side of a wire is, by operands as they stand there."""
    for form, pattern in FORMS:
        found = pattern.match(text)
        if found:
            part = found.groups()
            if form in ('const', 'reg'):
                return Cell(form, width, (), int(part[0]))
            if form == 'data':
                return Cell(form, width, (), tuple(map(int, part)))
            if form in ('binary', 'signed'):
                sign = part[1] if form == 'binary' else 's' + part[1]
                return Cell(sign, width, (int(part[0]), int(part[2])), None)
            return Cell(form, width, tuple(map(int, part)), None)
    raise Trouble(f'the text has a cell of a form that is none: {text[:60]}')


def numbered(register, moves):
    """The number of a register of a text, as that of one whose net has a step."""
    return int(register) if moves else STILL.get(int(register), int(register))


def computed(sign, width, left, right):
    """What an operator gives of two known words; None for one that is left to be shown."""
    if sign in ('&', '|', '^', '+', '-', '*'):
        value = {'&': left & right, '|': left | right, '^': left ^ right, '+': left + right, '-': left - right,
                 '*': left * right}[sign]
        return value % 2 ** width
    return int({'<': left < right, '==': left == right}[sign]) if sign in ('<', '==') else None


class Net:
    """The registers, cells and drivers of a text. Equal cells have one number, that of the first."""

    def __init__(self, text):
        self.memories, self.faults = memories_of(text), faults_of(text)
        registers = REGISTER.findall(text)
        moves = len(registers) != len(STILL)
        self.initial = {CLOCK: 0, STATE: 0} if not moves else {}
        self.initial.update({numbered(number, moves): int(value) for number, value in registers})
        self.cells, self.first, seen = {}, {}, {}
        for high, number, right in WIRE.findall(text):
            cell = form_of(right, int(high) + 1)
            if any(operand not in self.first for operand in cell.operands):
                raise Trouble('the text has a wire before those that it takes')
            cell.operands = tuple(self.first[operand] for operand in cell.operands)
            if cell.form == 'reg':
                cell.detail = numbered(cell.detail, moves)
            key = (cell.form, cell.width, cell.operands, cell.detail)
            self.first[int(number)] = seen.setdefault(key, int(number))
            self.cells[int(number)] = cell
        self.next = {numbered(register, moves): self.first.get(int(wire)) for register, wire in NEXT.findall(text)}
        own = set(range(4)) if moves else set(STILL.values())
        if not own <= set(self.next) or None in self.next.values():
            raise Trouble('the text has not the registers of a net')
        assigned = dict(ASSIGNED.findall(text))
        self.done = self.first.get(int(assigned['done'][1:])) if 'done' in assigned else None
        self.ports = {tuple(map(int, PORT.match(pin).groups())): self.drivers(pin[:-3], assigned)
                      for pin in assigned if PORT.match(pin)}
        self.standing, self.constants = self.find_standing(), self.find_constants()

    def drivers(self, port, assigned):
        """The drivers of a port, in order: the enables and the chains of the choice among them."""
        enables = [self.first[int(wire)] for wire in re.findall(r'w(\d+)', assigned[port + '_en'])]
        parts = {end: re.findall(r"w\d+ \? (\S+) :", assigned[f'{port}_{end}']) for end in ('we', 'row', 'out')}
        if any(len(part) != len(enables) for part in parts.values()):
            raise Trouble(f'the text has a port {port} whose drivers differ in number')
        wires = [[self.first[int(wire[1:])] if wire[0] == 'w' else None for wire in parts[end]] for end in ('row', 'out')]
        return [Driver(enable, we.endswith("'d1"), row, out) for enable, we, row, out in zip(enables, parts['we'], *wires)]

    def tested_states(self):
        """How many states the net tells apart."""
        state = {number for number, cell in self.cells.items() if cell.form == 'reg' and cell.detail == STATE}
        return len({cell.operands for cell in self.cells.values() if cell.form == '==' and state & set(cell.operands)})

    def find_standing(self):
        """The wires that stay as they are through a step: those without the clock, the fault and the state. (What
        comes of a read counts as well: it stays from the clock on at which it is there.)"""
        standing = set()
        for number, cell in self.cells.items():
            moves = cell.form == 'reg' and cell.detail in (CLOCK, TICK, FAULT, STATE)
            if not moves and all(operand in standing for operand in cell.operands):
                standing.add(number)
        return standing


    def find_constants(self):
        """The words of wires that are the same in every state."""
        known = {}
        for number, cell in self.cells.items():
            words = [known.get(operand) for operand in cell.operands]
            value = None
            if cell.form == 'const':
                value = cell.detail
            elif cell.form in ('zero', 'low') and words[0] is not None:
                value = words[0] % 2 ** cell.width
            elif cell.form == 'mux' and words[1] == words[2]:
                value = words[1]
            elif len(words) == 2 and None not in words:
                value = computed(cell.form, cell.width, *words)
            if value is not None:
                known[number] = value
        return known


class View:
    """What is known of the wires in a state without fault, at a clock of its step or at none, under some facts."""

    def __init__(self, net, state, clock, facts=None):
        self.net, self.facts, self.memo = net, dict(facts or {}), {}
        self.known = {STATE: state, FAULT: 0, CLOCK: clock}

    def at(self, clock):
        """The same at another clock, with the facts that stay."""
        standing = {wire: value for wire, value in self.facts.items() if wire in self.net.standing}
        return View(self.net, self.known[STATE], clock, standing)

    def value(self, wire, depth=0):
        """The word of a wire, or None."""
        if wire in self.net.constants:
            return self.net.constants[wire]
        if wire in self.facts:
            return self.facts[wire]
        if wire not in self.memo:
            cell = self.net.cells[wire]
            if depth > DEEP or (cell.width > 1 and wire in self.net.standing):
                return None
            self.memo[wire] = self.found(cell, depth + 1)
        return self.memo[wire]

    def found(self, cell, depth):
        """The word of a cell, or None."""
        if cell.form == 'reg':
            return self.known.get(cell.detail)
        if cell.form == 'data' or cell.form in ('sign', 'low', 's<', 's>>>', '<<', '>>'):
            return None
        if cell.form == 'zero':
            return self.value(cell.operands[0], depth)
        if cell.form == 'mux':
            return self.chosen(cell.operands, depth)
        return self.operated(cell, depth)

    def chosen(self, operands, depth):
        """The word of a choice, or None."""
        select = self.value(operands[0], depth)
        if select is not None:
            return self.value(operands[1 if select else 2], depth)
        left = self.value(operands[1], depth)
        return left if left is not None and left == self.value(operands[2], depth) else None

    def operated(self, cell, depth):
        """The word of an operator, or None: one operand may tell it."""
        left = self.value(cell.operands[0], depth)
        if cell.form == '&' and left == 0:
            return 0
        if cell.form == '|' and cell.width == 1 and left == 1:
            return 1
        right = self.value(cell.operands[1], depth)
        if left is not None and right is not None:
            return computed(cell.form, cell.width, left, right)
        if cell.form == '&' and right == 0:
            return 0
        if cell.form == '|' and cell.width == 1 and right == 1:
            return 1
        if cell.form == '==' and cell.operands[0] == cell.operands[1]:
            return 1
        return 0 if cell.form == '<' and right == 0 else None

    def assuming(self, wire, value):
        """The same where a wire has a value, with what follows of others."""
        view = View(self.net, self.known[STATE], self.known[CLOCK], self.facts)
        view.force(wire, value)
        return view

    def force(self, wire, value):
        """Takes a wire for known, and all that follows of others."""
        waiting = [(wire, value)]
        while waiting:
            for wire, value in waiting:
                if self.value(wire) is None:
                    self.facts[wire] = value
                    self.memo = {}
            waiting = [(other, word) for fact, taken in list(self.facts.items())
                       for other, word in self.following(self.net.cells[fact], taken) if self.value(other) is None]

    def is_possible(self):
        """Whether no fact is refuted by what its operands are known to be."""
        return all(self.found(self.net.cells[wire], 0) in (None, value) for wire, value in self.facts.items())

    def following(self, cell, value):
        """What follows of the operands of a cell that has this value."""
        if cell.form == 'mux' and value == 0:
            return self.following_choice(cell.operands)
        if cell.form not in ('&', '|', '==') or (cell.form != '==' and cell.width > 1):
            return []
        left, right = cell.operands
        if left == right:
            return [(left, value)] if cell.form != '==' else []
        found = []
        for operand, other in ((left, self.value(right)), (right, self.value(left))):
            if cell.form == '==':
                narrow = self.net.cells[operand].width == 1
                if other is not None and (value == 1 or narrow):
                    found.append((operand, other if value == 1 else 1 - other))
            elif value == (cell.form == '&'):
                found.append((operand, value))
            elif other is not None and other != value:
                found.append((operand, value))
        return found

    def following_choice(self, operands):
        """What follows where a choice is 0: a side that is never 0 is not the one."""
        select, left, right = operands
        if self.never_zero(left):
            return [(select, 0), (right, 0)]
        return [(select, 1), (left, 0)] if self.never_zero(right) else []

    def never_zero(self, wire, depth=0):
        """Whether a wire is known to be none of 0, whatever is chosen."""
        value, cell = self.value(wire), self.net.cells[wire]
        if value is not None:
            return value != 0
        return cell.form == 'mux' and depth < DEEP and all(self.never_zero(side, depth + 1) for side in cell.operands[1:])

    def settled(self, wire):
        """The wire that a wire shows, behind the choices that are known."""
        while self.value(wire) is None and self.net.cells[wire].form == 'mux':
            select, left, right = self.net.cells[wire].operands
            known = self.value(select)
            if known is None:
                return wire
            wire = left if known else right
        return wire

    def is_negation(self, cell):
        """Whether a cell is the negation of its left operand."""
        return cell.form == '==' and self.net.cells[cell.operands[0]].width == 1 and self.value(cell.operands[1]) == 0

    def question(self, wire):
        """A wire, without its negations, that stays through the step, and on whose value an unknown one depends."""
        for _ in range(DEEP):
            cell = self.net.cells[wire]
            if wire in self.net.standing:
                if not self.is_negation(cell):
                    return wire
                wire = cell.operands[0]
                continue
            unknown = [operand for operand in cell.operands if self.value(operand) is None]
            if not unknown:
                return None
            wire = unknown[0]
        return None
