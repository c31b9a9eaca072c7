"""The state graph of a kernel, read from its net (docs/NETLIST.md, "The net of a program"): what each state does at
which clock, and to which state it leads."""
from lib.calls import Trouble
from lib.nets import CLOCK, FAULT, STATE, TICK, View

LONG = 46
MOST_WAYS = 64
DEEPEST = 5
INFIX = {'s<': '<', 's>>>': '>>'}


class Access:
    """A read or a write of a port at a clock, with the test that it waits for, or an empty text."""

    def __init__(self, clock, writes, place, data, test):
        self.clock, self.writes, self.place, self.data, self.test = clock, writes, place, data, test


class Step:
    """A state: its number, its clocks, its accesses, the registers that it sets, the faults that it may meet, and its
    ways, each a test (an empty text: always, None: else) and a state."""

    def __init__(self, number):
        self.number, self.clocks = number, 1
        self.accesses, self.settings, self.faults, self.ways = [], [], [], []


def element(memory, bank, row):
    """An element as the language spells it: by its indices where bank and row are known, and else by bank and row."""
    if isinstance(row, int):
        indices = []
        for size, banks in reversed(memory.dims):
            rows = size // banks
            indices.append(row % rows * banks + bank % banks)
            bank, row = bank // banks, row // rows
        return memory.name + ''.join(f'[{index}]' for index in reversed(indices))
    if memory.banks == 1 and len(memory.dims) == 1:
        return f'{memory.name}[{row}]'
    return f'{memory.name}{{{bank}}}[{row}]'


def cut(text):
    return text if len(text) <= LONG else text[:LONG - 1] + '…'


class Writer:
    """Writes wires as expressions, as far as they fit in a line."""

    def __init__(self, view, reads):
        self.view, self.net, self.reads = view, view.net, reads

    def text(self, wire, as_row=False):
        return cut(self.expression(wire, 0, as_row))

    def expression(self, wire, depth, as_row=False):
        wire = self.view.settled(wire)
        value, cell = self.view.value(wire), self.net.cells[wire]
        if value is not None:
            return str(value)
        if cell.form == 'reg':
            return f'r{cell.detail}'
        if cell.form == 'data':
            return self.reads.get(cell.detail, 'm%d_b%d_p%d_in' % cell.detail)
        if cell.form == 'mux':
            return self.choice(wire, depth)
        return '…' if depth > DEEPEST else self.composed(cell, depth, as_row)

    def composed(self, cell, depth, as_row):
        """A cell that has operands."""
        if cell.form in ('zero', 'sign') or (cell.form == 'low' and as_row):
            return self.expression(cell.operands[0], depth, as_row)
        left, right = cell.operands[0], cell.operands[-1]
        narrow = self.net.cells[left].width == 1
        if self.view.is_negation(cell):
            return self.negated(left, depth)
        for this, other in ((left, right), (right, left)):
            if cell.form in ('&', '|') and narrow and self.view.value(this) is not None:
                return self.expression(other, depth)
        inner = [self.expression(operand, depth + 1, as_row) for operand in cell.operands]
        if cell.form == 'low':
            return f'{inner[0]}[{cell.width - 1}:0]'
        text = f'{inner[0]} {INFIX.get(cell.form, cell.form)} {inner[1]}'
        return text if depth == 0 else f'({text})'

    def negated(self, wire, depth):
        """What is true where a wire is 0."""
        cell = self.net.cells[wire]
        if self.view.is_negation(cell):
            return self.expression(cell.operands[0], depth)
        return '!' + self.expression(wire, depth + 1)

    def choice(self, wire, depth):
        """A choice, by the question on which it hangs."""
        question = self.view.question(self.net.cells[wire].operands[0])
        if question is None or depth > DEEPEST:
            return '…'
        sides = [Writer(self.view.assuming(question, value), self.reads).expression(wire, depth + 1) for value in (1, 0)]
        if sides[0] == sides[1]:
            return sides[0]
        text = f'{self.expression(question, depth + 1)} ? {sides[0]} : {sides[1]}'
        return text if depth == 0 else f'({text})'


class Graph:
    """The states that a run can reach, from the first one on."""

    def __init__(self, net, most):
        self.net, self.steps, self.done = net, {}, set()
        self.start = net.initial[STATE]
        if net.tested_states() > most:
            raise Trouble(f'the kernel has {net.tested_states()} states: --most N draws more than {most}')
        waiting = [self.start]
        while waiting:
            number = waiting.pop()
            if number in self.steps or number in self.done:
                continue
            if View(net, number, 0).value(net.done) == 1:
                self.done.add(number)
                continue
            self.steps[number] = self.step(number)
            waiting += [state for _, state in self.steps[number].ways]
        self.order = sorted(self.steps) + sorted(self.done)

    def last_clock(self, number):
        """The last clock of a step: the next one would be the first again."""
        for clock in range(2 ** 16):
            following = View(self.net, number, clock).value(self.net.next[CLOCK])
            if following is None:
                break
            if following != clock + 1:
                return clock
        raise Trouble('the text tells no length of a step')

    def step(self, number):
        """What a state does where none of its checks fails; at the end which of them may fail."""
        step, last = Step(number), self.last_clock(number)
        step.clocks = last + 1
        end = View(self.net, number, last)
        step.faults = [self.net.faults[fault - 1] for fault in sorted(self.possible(end, self.net.next[FAULT]) - {0})
                       if 0 < fault <= len(self.net.faults)]
        view = end.assuming(self.net.next[TICK], 1)
        reads = {}
        step.accesses = self.accesses(view, last, reads)
        writer = Writer(view, reads)
        for register in sorted(self.net.next):
            wire = view.settled(self.net.next[register])
            cell = self.net.cells[wire]
            if register > STATE and not (cell.form == 'reg' and cell.detail == register):
                step.settings.append(f'r{register} := {writer.text(wire)}')
        step.ways = self.ways(view, writer)
        return step

    def possible(self, view, wire):
        """The words that a wire may have, by choices."""
        value, cell = view.value(wire), self.net.cells[wire]
        if value is not None or cell.form != 'mux':
            return {value or 0}
        select, left, right = cell.operands
        known = view.value(select)
        if known is not None:
            return self.possible(view, left if known else right)
        found = set()
        for side, taken in ((left, 1), (right, 0)):
            branch = view.assuming(select, taken)
            if branch.is_possible():
                found |= self.possible(branch, side)
        return found

    def accesses(self, view, last, reads):
        """The accesses of a step, in order of clocks; notes in `reads` what each port reads."""
        found, anywhen = [], view.at(None)
        active = [(port, driver) for port, drivers in sorted(self.net.ports.items()) for driver in drivers
                  if anywhen.value(driver.enable) != 0]
        for clock in range(last + 1):
            now = view if clock == last else view.at(clock)
            for port, driver in active:
                if now.value(driver.enable) != 0:
                    access = self.access(now, clock, port, driver, Writer(now, reads))
                    found.append(access)
                    if not driver.writes:
                        reads[port] = access.place
        return found

    def access(self, view, clock, port, driver, writer):
        """What a driver does that may be active."""
        row = view.value(view.settled(driver.row))
        place = element(self.net.memories[port[0]], port[1], writer.text(driver.row, True) if row is None else row)
        question = view.question(driver.enable) if view.value(driver.enable) is None else None
        test = '' if question is None else self.test(view, driver.enable, question, writer)
        return Access(clock, driver.writes, place, writer.text(driver.data) if driver.writes else '', test)

    def test(self, view, enable, question, writer):
        """The test of an enable that hangs on a question; more of it is not told."""
        yes, no = (view.assuming(question, value).value(enable) for value in (1, 0))
        if no == 0:
            return writer.text(question) + ('' if yes == 1 else ' ..')
        return writer.negated(question, 0) + ('' if no == 1 else ' ..') if yes == 0 else '..'

    def ways(self, view, writer):
        """The ways out of a state: the tests that it asks, and the states behind their answers."""
        found, waiting = [], [(view, [])]
        while waiting:
            view, asked = waiting.pop()
            state = view.value(self.net.next[STATE])
            if state is not None:
                found.append((asked, state))
                continue
            question = view.question(view.settled(self.net.next[STATE]))
            if question is None or len(found) + len(waiting) > MOST_WAYS:
                raise Trouble('the text does not tell to which state a step leads')
            for value in (0, 1):
                branch = view.assuming(question, value)
                if branch.is_possible():
                    waiting.append((branch, asked + [(question, value)]))
        return self.named(found, writer)

    @staticmethod
    def named(found, writer):
        """The ways with their tests as texts, that with the fewest and plainest first. The last is behind all others."""
        by_state = {}
        for asked, state in found:
            texts = [writer.text(question) if value else writer.negated(question, 0) for question, value in asked]
            by_state.setdefault(state, []).append(' and '.join(texts))
        if len(by_state) == 1:
            return [('', found[0][1])]
        ordered = sorted(by_state.items(), key=lambda way: (len(way[1]), way[1][0].startswith('!'), way[0]))
        return [(cut(' or '.join(tests)), state) for state, tests in ordered[:-1]] + [(None, ordered[-1][0])]
