"""Runs: step by step over the tree, copies in lockstep, threads in order."""
from .events import number_of_bank
from .shapes import dims_of, memory_of, product


class Ends(Exception):
    """The first fault or conflict of a step."""

    def __init__(self, outcome):
        super().__init__(outcome)
        self.outcome = outcome


def value_in(kind, number):
    """The value of a kind that a number is modulo its width."""
    sort, width = kind
    number %= 2 ** width
    return number - 2 ** width if sort == 'bit' and number >= 2 ** (width - 1) else number


def divided(left, right):
    """Quotient, cut towards zero, and remainder."""
    quotient = abs(left) // abs(right) * (1 if (left < 0) == (right < 0) else -1)
    return quotient, left - quotient * right


COMPUTED = {
    '+': lambda a, b: a + b, '-': lambda a, b: a - b, '*': lambda a, b: a * b,
    '&': lambda a, b: a & b, '|': lambda a, b: a | b, '^': lambda a, b: a ^ b,
    '<<': lambda a, b: a << min(b, 64), '>>': lambda a, b: a >> min(b, 64),
    '/': lambda a, b: divided(a, b)[0], '%': lambda a, b: divided(a, b)[1]}
COMPARED = {
    '<': lambda a, b: a < b, '>': lambda a, b: a > b, '<=': lambda a, b: a <= b, '>=': lambda a, b: a >= b,
    '==': lambda a, b: a == b, '!=': lambda a, b: a != b, '&&': lambda a, b: a and b, '||': lambda a, b: a or b}


def text_of(place):
    """A place as it is printed."""
    return '%d:%d' % place


class Run:
    """A run of a tree without calls. `memories` maps each memory to its elements in row-major order."""

    def __init__(self, phases, memories):
        self.memories, self.variables, self.turns, self.flags = memories, {}, {}, {}
        self.outcome, self.steps = 'going', 0
        self.coming = self.go(phases, [()])
        self.next = next(self.coming, None)
        if self.next is None:
            self.outcome = 'done'

    # What comes next

    def go(self, phases, paths):
        """Gives, step by step, the straight phases that are done together, each with its paths."""
        for phase in phases:
            yield from getattr(self, 'do_' + phase.form)(phase, paths)

    def do_straight(self, phase, paths):
        """A phase that takes one step."""
        yield [(phase, paths)]

    def do_turns(self, phase, paths):
        """A `for`."""
        loop = phase.command
        if loop.factor > 1:
            paths = [path + (copy,) for path in paths for copy in range(loop.factor)]
        for turn in range(phase.count):
            self.turns[loop] = turn
            yield from self.go(phase.body, paths)

    def do_loop(self, phase, paths):
        """A `while`."""
        while True:
            yield [(phase.test, paths)]
            if not self.flags[phase.test][paths[0]]:
                return
            yield from self.go(phase.body, paths)

    def do_choice(self, phase, paths):
        """An `if` outside copies."""
        yield [(phase.test, paths)]
        yield from self.go(phase.then if self.flags[phase.test][paths[0]] else phase.other, paths)

    def do_masked(self, phase, paths):
        """An `if` inside copies: the ones that take the first arm, then the others."""
        yield [(phase.test, paths)]
        flags = dict(self.flags[phase.test])
        for arm, taken in ((phase.then, True), (phase.other, False)):
            chosen = [path for path in paths if bool(flags[path]) == taken]
            if chosen:
                yield from self.go(arm, chosen)

    def do_threads(self, phase, paths):
        """Parts beside one another; the phase ends with the last of them."""
        threads = [self.go(phases, paths) for phases in phase.lists]
        while True:
            steps = [next(thread, None) for thread in threads]
            threads = [thread for thread, step in zip(threads, steps) if step is not None]
            if not threads:
                return
            yield [done for step in steps if step is not None for done in step]

    # A step

    def step(self):
        """One logical step."""
        if self.outcome != 'going':
            return
        self.writes, self.read, self.written = [], {}, {}
        try:
            for phase, paths in self.next:
                self.straight(phase, paths)
        except Ends as ends:
            self.outcome = ends.outcome
            return
        for memory, position, value in self.writes:
            self.memories[memory][position] = value
        self.steps += 1
        self.next = next(self.coming, None)
        if self.next is None:
            self.outcome = 'done'

    def straight(self, phase, paths):
        """The effect of a straight phase at its active paths."""
        if phase.is_test:
            test = phase.commands[0].test
            self.flags[phase] = {path: self.value(test, path) for path in paths}
        else:
            self.commands(phase.commands, paths)

    def commands(self, commands, paths):
        """Each command at all paths before the next one."""
        for c in commands:
            if c.form == 'if':
                flags = [self.value(c.test, path) for path in paths]
                self.commands(c.then_commands, [path for path, flag in zip(paths, flags) if flag])
                self.commands(c.other_commands, [path for path, flag in zip(paths, flags) if not flag])
            else:
                for path in paths:
                    getattr(self, 'run_' + c.form)(c, path)

    def run_let(self, c, path):
        """A variable, which is 0 without a right side."""
        self.variables[c.name.entity, path] = self.value(c.value, path) if c.value else 0

    def run_assign(self, c, path):
        """An assignment."""
        entity = c.target.entity
        self.variables[entity, path[:entity.depth]] = self.value(c.value, path)

    def run_reduce(self, c, path):
        """One fold."""
        entity = c.target.entity
        at, right = (entity, path[:entity.depth]), self.value(c.value, path)
        if c.op == '/' and right == 0:
            raise Ends('fault DivideByZero ' + text_of(c.place))
        self.variables[at] = value_in(entity.kind, COMPUTED[c.op](self.variables[at], right))

    def run_view(self, c, path):
        """The offsets of a view are kept."""
        self.variables[c.name.entity, path] = [self.value(offset, path) for offset in c.offsets]

    def run_passed(self, c, path):
        """A call that does nothing."""

    def run_store(self, c, path):
        """A store: its right side, its indices, then the write."""
        value = self.value(c.value, path)
        memory, bank, row, position = self.element(c.target, path)
        self.written[memory, bank] = self.written.get((memory, bank), 0) + 1
        self.spend(memory, bank, c.target.place)
        self.writes.append((memory, position, value))

    def value(self, e, path):
        """The value of an expression at a path."""
        if e.form == 'number':
            return -e.value if e.negative else e.value
        if e.form == 'truth':
            return int(e.value)
        if e.form == 'variable':
            entity = e.of.entity
            if entity.sort == 'iterator':
                loop = entity.command
                copy = path[entity.depth] if loop.factor > 1 else 0
                return loop.low + self.turns[loop] * loop.factor + copy
            return self.variables[entity, path[:entity.depth]]
        if e.form == 'cast':
            return value_in(e.to, self.value(e.inner, path))
        if e.form == 'binary':
            return self.computed(e, path)
        memory, bank, row, position = self.element(e, path)
        self.read.setdefault((memory, bank), set()).add(row)
        self.spend(memory, bank, e.place)
        return self.memories[memory][position]

    def computed(self, e, path):
        """The value of an operator."""
        left, right = self.value(e.left, path), self.value(e.right, path)
        if e.op in COMPARED:
            return int(bool(COMPARED[e.op](left, right)))
        if e.op in '/%' and right == 0:
            raise Ends('fault DivideByZero ' + text_of(e.place))
        return value_in(e.kind, COMPUTED[e.op](left, right))

    def element(self, e, path):
        """The memory, bank, row and position of an access, which has to be in range."""
        memory = memory_of(e.of.entity)
        dims = memory.shape.dims
        banks = [bank for _, bank in dims]
        if e.form == 'physical':
            row = self.value(e.row, path)
            rows = [size // bank for size, bank in dims]
            if not 0 <= row < product(rows):
                raise Ends('fault OutOfRange ' + text_of(e.place))
            quotients, remainders = digits(row, rows), digits(e.bank, banks)
            at = [q * m + r for q, m, r in zip(quotients, banks, remainders)]
            return memory, e.bank, row, number_of(at, [size for size, _ in dims])
        at = self.through(e.of.entity, [self.value(index, path) for index in e.indices], path)
        if at is None:
            raise Ends('fault OutOfRange ' + text_of(e.place))
        bank = number_of_bank(dims, [i % m for i, m in zip(at, banks)])
        row = number_of([i // m for i, m in zip(at, banks)], [size // m for size, m in dims])
        return memory, bank, row, number_of(at, [size for size, _ in dims])

    def through(self, entity, at, path):
        """The indices of the memory that indices of a view name, or None out of range."""
        if any(not 0 <= i < size for i, (size, _) in zip(at, dims_of(entity))):
            return None
        if entity.sort == 'memory':
            return at
        c = entity.command
        if c.sort in ('suffix', 'shift'):
            offsets = self.variables[entity, path[:entity.depth]]
            factors = [factor for factor, _ in c.factors] or [1] * len(offsets)
            at = [k * e + i for k, e, i in zip(factors, offsets, at)]
        elif c.sort == 'split':
            k, m = c.factors[0][0], dims_of(c.parent.entity)[0][1]
            part = m // k
            at = [at[1] // part * m + at[0] * part + at[1] % part]
        return self.through(c.parent.entity, at, path)

    def spend(self, memory, bank, place):
        """Ends the step where a bank has spent more than its ports."""
        spent = len(self.read.get((memory, bank), ())) + self.written.get((memory, bank), 0)
        if spent > memory.shape.ports:
            raise Ends(f'stuck {memory.name} {bank} {text_of(place)}')


def digits(number, radices):
    """A row-major number as its digits."""
    result = []
    for radix in reversed(radices):
        result.append(number % radix)
        number //= radix
    return result[::-1]


def number_of(at, sizes):
    """The row-major number of some digits."""
    number = 0
    for i, size in zip(at, sizes):
        number = number * size + i
    return number


