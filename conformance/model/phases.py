"""Phases: which commands take a step together, and what follows what.

Each command with an expression gets the `phase` in which it is evaluated; a straight `if` keeps the commands
of its arms as `then_commands` and `other_commands`."""
from .shapes import memory_of
from .trees import all_commands, expressions_in, expressions_of


class Phase:
    """A phase. `form` is straight, turns, loop, choice, masked, threads or call; a straight one has commands,
    of which a test alone is the command itself with `is_test`."""

    def __init__(self, form, command=None, **fields):
        self.form, self.command, self.is_test = form, command, False
        self.__dict__.update(fields)


def straight(commands):
    """A straight phase of some commands, which are marked as its own."""
    phase = Phase('straight', commands=commands)
    mark(commands, phase)
    return phase


def mark(commands, phase):
    """Notes the phase of commands, and of those in the arms of straight `if`s among them."""
    for c in commands:
        c.phase = phase
        if c.form == 'if':
            mark(c.then_commands + c.other_commands, phase)


def phase_of_test(c):
    """The phase of a test that takes a step of its own."""
    phase = Phase('straight', commands=[c])
    phase.is_test = True
    c.phase = phase
    return phase


def is_straight(phases):
    """Whether these are one straight phase, and no test."""
    return len(phases) == 1 and phases[0].form == 'straight' and not phases[0].is_test


class Phaser:
    """Finds phases. With `threads`, stepped parts of a list that are independent are grouped."""

    def __init__(self, threads=False, masks=False):
        self.threads, self.masks = threads, masks

    def command(self, c, copies=False):
        """The phases of a command; `copies` tells that it stands in a body of several copies."""
        form = c.form
        if form == 'block':
            return [phase for part in c.body for phase in self.list(part, copies)]
        if form == 'if':
            return self.branch(c, copies)
        if form == 'while':
            test = phase_of_test(c)
            return [Phase('loop', c, test=test, body=self.command(c.body, copies))]
        if form == 'for':
            return self.loop(c, copies)
        if form == 'call':
            return self.call(c)
        if form in ('memory', 'passed') or (form == 'view' and c.sort in ('shrink', 'split')):
            return []
        return [straight([c])]

    def list(self, commands, copies):
        """The phases of an unordered list."""
        parts = [(c, self.command(c, copies)) for c in commands]
        parts = [(c, phases) for c, phases in parts if phases]
        found, at = [], 0
        while at < len(parts):
            run = at
            straights = is_straight(parts[at][1])
            while run < len(parts) and is_straight(parts[run][1]) == straights:
                run += 1
            if straights:
                found.append(straight([c for _, phases in parts[at:run] for c in phases[0].commands]))
            else:
                found += self.stepped(parts[at:run])
            at = run
        return found

    def stepped(self, parts):
        """The phases of a run of stepped parts."""
        groups = []
        for c, phases in parts:
            if self.threads and groups and all(independent(c, other) for other, _ in groups[-1]):
                groups[-1].append((c, phases))
            else:
                groups.append([(c, phases)])
        found = []
        for group in groups:
            if len(group) == 1:
                found += group[0][1]
            else:
                found.append(Phase('threads', lists=[phases for _, phases in group]))
        return found

    def branch(self, c, copies):
        """The phases of an `if`."""
        arms = [self.command(c.then, copies), self.command(c.other, copies) if c.other else []]
        c.is_straight = all(not arm or is_straight(arm) for arm in arms)
        if c.is_straight:
            c.then_commands, c.other_commands = [arm[0].commands if arm else [] for arm in arms]
            return [straight([c])]
        test = phase_of_test(c)
        form = 'masked' if copies and self.masks else 'choice'
        return [Phase(form, c, test=test, then=arms[0], other=arms[1])]

    def loop(self, c, copies):
        """The phases of a `for`."""
        body = self.command(c.body, copies or c.factor > 1)
        fold = self.command(c.combine, copies) if c.combine else []
        if fold and body and is_straight(body[-1:]) and is_straight(fold):
            body = body[:-1] + [straight(body[-1].commands + fold[0].commands)]
        else:
            body = body + fold
        turns = (c.high - c.low) // c.factor
        return [Phase('turns', c, count=turns, body=body)] if turns and body else []

    def call(self, c):
        """The phases of a call that isn't substituted."""
        entity = c.function.entity
        c.phase = None
        if not suits(c):
            return []
        if not hasattr(entity, 'phases'):
            entity.phases = self.command(entity.command.body)
        scalars = any(not parameter.shape.is_memory() for parameter in entity.command.parameters)
        if is_straight(entity.phases) and not scalars or scalars and not entity.phases:
            return [straight([c])]
        if not entity.phases:
            return []
        c.phase = Phase('straight', commands=[c])
        return [Phase('call', c)]


def suits(c):
    """Whether a call keeps rule 18, wherever it stands."""
    return not list(call_breaches(c))


def call_breaches(c):
    """The breaches of rule 18 at a call, but for where it stands."""
    entity = c.function.entity
    if entity.sort != 'function':
        yield c.function.place, 18
        return
    parameters = entity.command.parameters
    if len(parameters) != len(c.arguments):
        yield c.function.place, 18
    for parameter, argument in zip(parameters, c.arguments):
        named = argument.of.entity if argument.form == 'variable' else None
        if parameter.shape.is_memory():
            good = named and named.sort == 'memory' and named.shape.same() == parameter.shape.same()
        else:
            kind, target = argument.kind, parameter.shape.kind
            good = kind and kind[0] == target[0] and kind[1] <= target[1]
        if not good:
            yield argument.place, 18


class Uses:
    """What a part mentions and assigns, and which memories it accesses and writes."""

    def __init__(self, part):
        self.mentioned, self.assigned, self.accessed, self.written = set(), set(), set(), set()
        for c in all_commands(part):
            if c.form in ('assign', 'reduce'):
                self.assigned.add(c.target.entity)
                self.mentioned.add(c.target.entity)
            elif c.form == 'store':
                self.written.add(memory_of(c.target.of.entity))
            elif c.form == 'passed':
                self.accessed |= c.accessed
                self.written |= c.written
            for outer in expressions_of(c):
                for e in expressions_in(outer):
                    if e.form == 'variable':
                        self.mentioned.add(e.of.entity)
                    elif e.form in ('access', 'physical'):
                        self.accessed.add(memory_of(e.of.entity))


def uses(part):
    """What a part uses, found once."""
    if not hasattr(part, 'uses'):
        part.uses = Uses(part)
    return part.uses


def independent(one, other):
    """Whether two parts may be threads beside each other."""
    a, b = uses(one), uses(other)
    return not (a.assigned & b.mentioned or b.assigned & a.mentioned or a.written & b.accessed
                or b.written & a.accessed)
