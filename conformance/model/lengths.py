"""How many clocks a straight phase takes, by levels of values."""
from .events import way_of
from .shapes import product


class Levels:
    """The levels in one phase. `shared` tells of each read that shares one which one that is."""

    def __init__(self, shared):
        self.shared, self.levels, self.of_read, self.greatest = shared, {}, {}, 0

    def note(self, level):
        """Keeps the level of a read or a division."""
        self.greatest = max(self.greatest, level)
        return level

    def expression(self, e, tests):
        """The level of an expression under tests of this level."""
        if e.form == 'variable':
            return self.levels.get(e.of.entity, 0)
        if e.form == 'binary':
            level = max(self.expression(e.left, tests), self.expression(e.right, tests))
            if e.op in '/%':
                level = self.note(max(e.left.kind[1], e.right.kind[1]) + max(level, tests))
            return level
        if e.form == 'cast':
            return self.expression(e.inner, tests)
        if e.form in ('access', 'physical'):
            return self.read(e, tests)
        return 0

    def read(self, e, tests):
        """The level of a read."""
        indices = e.indices if e.form == 'access' else [e.row]
        levels = [self.expression(index, tests) for index in indices]
        levels += [self.levels.get(view, 0) for view in way_of(e.of.entity)]
        if e in self.shared:
            self.of_read[e] = self.of_read[self.shared[e]]
        else:
            self.of_read[e] = self.note(1 + max(levels + [tests]))
        return self.of_read[e]

    def commands(self, commands, tests):
        """The levels behind some commands."""
        for c in commands:
            getattr(self, 'on_' + c.form)(c, tests)

    def on_let(self, c, tests):
        """A variable has the level of its value."""
        self.levels[c.name.entity] = self.expression(c.value, tests) if c.value else 0

    def on_assign(self, c, tests):
        """So has the target of an assignment."""
        self.levels[c.target.entity] = self.expression(c.value, tests)

    def on_reduce(self, c, tests):
        """The folds of one copy of the target are one chain."""
        entity = c.target.entity
        level = max(self.levels.get(entity, 0), self.expression(c.value, tests))
        if c.op == '/':
            folds = product(loop.factor for loop in c.loops[entity.depth:])
            level = self.note(folds * entity.kind[1] + max(level, tests))
        self.levels[entity] = level

    def on_view(self, c, tests):
        """A view's offsets."""
        self.levels[c.name.entity] = max(self.expression(offset, tests) for offset in c.offsets)

    def on_store(self, c, tests):
        """A store waits for the end of the step anyway."""
        self.expression(c.value, tests)
        for index in c.target.indices if c.target.form == 'access' else [c.target.row]:
            self.expression(index, tests)

    def on_passed(self, c, tests):
        """A call that does nothing."""

    def on_if(self, c, tests):
        """Behind an `if` what an arm assigns waits for the test."""
        test = self.expression(c.test, tests)
        before, arms = dict(self.levels), []
        for commands in (c.then_commands, c.other_commands):
            self.levels = dict(before)
            self.commands(commands, max(tests, test))
            arms.append(self.levels)
        changed = assigned_in(c.then_commands + c.other_commands)
        self.levels = before
        for entity in changed:
            self.levels[entity] = max([test] + [arm.get(entity, 0) for arm in arms])


def assigned_in(commands):
    """The variables that some commands assign."""
    found = set()
    for c in commands:
        if c.form == 'if':
            found |= assigned_in(c.then_commands + c.other_commands)
        elif c.form in ('assign', 'reduce'):
            found.add(c.target.entity)
    return found


def length(phase, shared):
    """The clocks of a straight phase. `shared` maps each read that shares an earlier one to it."""
    levels = Levels(shared)
    if phase.is_test:
        levels.expression(phase.commands[0].test, 0)
    else:
        levels.commands(phase.commands, 0)
    return 1 + levels.greatest
