"""Accesses in order of evaluation: what they charge, which may meet, which reads share.

A charge is found by going over all copies of an access and counting the keys that reach each bank."""
import itertools

from .shapes import classify, dims_of, memory_of, product


class Event:
    """An access of the text. `sort` is read, write or call; `chain` tells the commands round it, as (command,
    part, whether parts of it never meet); `arms` the arms that it stands in."""

    def __init__(self, sort, entity, e, place, phase, standing, order):
        self.sort, self.entity, self.e, self.place, self.phase, self.order = sort, entity, e, place, phase, order
        self.memory = memory_of(entity)
        self.loops, self.chain, self.arms = standing
        self.shared = None
        self.reached = self.charge = {}

    def copies(self):
        """In how many copies it stands."""
        return product(loop.factor for loop in self.loops)


def structure(e):
    """What equal expressions have in common, their places and kinds aside."""
    if e.form == 'number':
        return 'number', e.negative, e.value
    if e.form == 'truth':
        return 'truth', e.value
    if e.form == 'variable':
        return 'variable', id(e.of.entity)
    if e.form == 'access':
        return ('access', id(e.of.entity)) + tuple(map(structure, e.indices))
    if e.form == 'physical':
        return 'physical', id(e.of.entity), e.bank, structure(e.row)
    if e.form == 'binary':
        return e.op, structure(e.left), structure(e.right)
    return 'cast', e.to, structure(e.inner)


def mentioned(e):
    """The variables and iterators that an expression mentions."""
    if e.form == 'variable':
        return {e.of.entity}
    if e.form == 'access':
        return set().union(*map(mentioned, e.indices))
    if e.form == 'physical':
        return mentioned(e.row)
    if e.form == 'binary':
        return mentioned(e.left) | mentioned(e.right)
    return mentioned(e.inner) if e.form == 'cast' else set()


def way_of(entity):
    """The views from a name to its memory, the named one first."""
    way = []
    while entity.sort == 'view':
        way.append(entity)
        entity = entity.command.parent.entity
    return way


def moving_depth(way):
    """The number of loops on which the offsets of a way depend, those of suffix and shift."""
    return max([view.depth for view in way if view.command.sort in ('suffix', 'shift')], default=0)


def loops_of(e):
    """The loops, by their number from the outside, on which the value of an index depends."""
    if e.form == 'variable':
        entity = e.of.entity
        if entity.sort == 'iterator':
            return {entity.depth} if entity.command.factor > 1 else set()
        return set(range(entity.depth))
    if e.form in ('access', 'physical'):
        return read_loops(e)
    if e.form == 'binary':
        return loops_of(e.left) | loops_of(e.right)
    return loops_of(e.inner) if e.form == 'cast' else set()


def read_loops(e):
    """The loops on which a read depends."""
    inner = e.indices if e.form == 'access' else [e.row]
    return set().union(range(moving_depth(way_of(e.of.entity))), *map(loops_of, inner))


def number_of_bank(dims, at):
    """The row-major number of a bank."""
    number = 0
    for (_, banks), bank in zip(dims, at):
        number = number * banks + bank
    return number


def bank_at(e, path):
    """The bank of the named memory or view that an access reaches at a path."""
    if e.form == 'physical':
        return e.bank
    dims, at = dims_of(e.of.entity), []
    for index, (_, banks) in zip(e.indices, dims):
        form = classify(index) if banks > 1 else ('constant', 0)
        if form[0] == 'iterator':
            loop = form[1].command
            copy = path[form[1].depth] if loop.factor > 1 else 0
            at.append((loop.low + copy + form[2]) % banks)
        else:
            at.append(form[1] % banks)
    return number_of_bank(dims, at)


def carried(view, charge):
    """What a charge on a view's banks is on its parent's."""
    c = view.command
    if c.sort in ('suffix', 'split'):
        return charge
    dims, parent = dims_of(view), dims_of(c.parent.entity)
    result = {}
    for at in itertools.product(*(range(banks) for _, banks in parent)):
        if c.sort == 'shift':
            spent = max(charge.values())
        else:
            covering = [bank % banks for bank, (_, banks) in zip(at, dims)]
            spent = charge.get(number_of_bank(dims, covering), 0)
        if spent:
            result[number_of_bank(parent, at)] = spent
    return result


def charge_of(event):
    """What an access charges on each bank of its memory, its sharing aside."""
    e, way = event.e, way_of(event.entity)
    depends = range(len(event.loops)) if event.sort == 'write' else sorted(read_loops(e))
    shifts = [view for view in way if view.command.sort == 'shift']
    grouped = moving_depth(shifts)
    keys = set()
    for path in itertools.product(*(range(loop.factor) for loop in event.loops)):
        keys.add((path[:grouped], tuple(path[loop] for loop in depends), bank_at(e, path)))
    groups = {}
    for group, _, bank in keys:
        charge = groups.setdefault(group, {})
        charge[bank] = charge.get(bank, 0) + 1
    total = {}
    for charge in groups.values():
        for view in way:
            charge = carried(view, charge)
        for bank, count in charge.items():
            total[bank] = total.get(bank, 0) + count
    return total


class Noter:
    """Walks a body in order of evaluation and keeps its events."""

    def __init__(self, masks=False):
        self.events, self.assigned, self.order, self.masks = [], {}, 0, masks
        self.tree = None

    def note(self, sort, entity, e, place, phase, standing):
        """Keeps an event, and tells it as a tree of meets."""
        self.order += 1
        event = Event(sort, entity, e, place, phase, standing, self.order)
        if sort == 'call':
            banks = product(banks for _, banks in entity.shape.dims)
            event.charge = event.reached = {bank: entity.shape.ports for bank in range(banks)}
        else:
            event.reached = event.charge = charge_of(event)
        self.events.append(event)
        return ('access', event)

    def expression(self, e, phase, standing):
        """The reads of an expression."""
        found = []
        if e.form in ('access', 'physical'):
            for inner in e.indices if e.form == 'access' else [e.row]:
                found += self.expression(inner, phase, standing)
            found.append(self.note('read', e.of.entity, e, e.place, phase, standing))
        elif e.form == 'binary':
            found = self.expression(e.left, phase, standing) + self.expression(e.right, phase, standing)
        elif e.form == 'cast':
            found = self.expression(e.inner, phase, standing)
        return found

    def assign(self, entity):
        """Notes that a variable is assigned."""
        self.order += 1
        self.assigned.setdefault(entity, []).append(self.order)

    def command(self, c, standing):
        """The tree of meets of a command."""
        loops, chain, arms = standing
        form = c.form
        if form == 'block':
            parts = []
            for number, part in enumerate(c.body):
                inner = (loops, chain + ((c, number, True),), arms)
                parts.append(('all', [self.command(command, inner) for command in part]))
            return ('one', parts)
        if form in ('if', 'while'):
            return self.tested(c, standing)
        if form == 'for':
            inner = (loops + (c,) if c.factor > 1 else loops, chain, arms)
            return ('all', [self.command(block, inner) for block in (c.body, c.combine) if block])
        phase = getattr(c, 'phase', None)
        found = []
        for outer in c.offsets if form == 'view' else [c.value] if getattr(c, 'value', None) else []:
            found += self.expression(outer, phase, standing)
        if form == 'store':
            for index in c.target.indices if c.target.form == 'access' else [c.target.row]:
                found += self.expression(index, phase, standing)
            found.append(self.note('write', c.target.of.entity, c.target, c.target.place, phase, standing))
        elif form == 'call':
            found += self.call(c, phase, standing)
        elif form in ('let', 'assign', 'reduce'):
            c.loops = loops
            self.assign(c.name.entity if form == 'let' else c.target.entity)
        return ('all', found)

    def tested(self, c, standing):
        """The tree of meets of an `if` or a `while`."""
        loops, chain, arms = standing
        never = c.form == 'while' or not loops or (self.masks and not c.is_straight)
        if c.form == 'while':
            test = self.expression(c.test, c.phase, (loops, chain + ((c, 0, True),), arms))
            body = self.command(c.body, (loops, chain + ((c, 1, True),), arms))
            return ('one', [('all', test), body])
        test = self.expression(c.test, c.phase, standing)
        found = []
        for number, arm in enumerate([c.then, c.other]):
            if arm:
                inner = (loops, chain + ((c, number, never),), arms | {(c, number)})
                found.append(self.command(arm, inner))
        return ('all', test + [('one' if never else 'all', found)])

    def call(self, c, phase, standing):
        """The arguments of a call, in the order in which they are written."""
        found = []
        entity = c.function.entity
        parameters = entity.command.parameters if entity.sort == 'function' else []
        for parameter, argument in zip(parameters, c.arguments):
            if parameter.shape.is_memory():
                found.append(self.note('call', argument.of.entity, None, argument.place, None, standing))
            else:
                found += self.expression(argument, phase, standing)
        return found


def share(noter):
    """Finds which read shares an earlier one; such a read charges nothing."""
    seen = {}
    for event in noter.events:
        if event.sort != 'read':
            continue
        earlier = seen.setdefault((event.phase, structure(event.e)), [])
        names = mentioned(event.e)
        for other in earlier:
            between = any(other.order < order < event.order for name in names
                          for order in noter.assigned.get(name, []))
            if not between and other.arms <= event.arms:
                event.shared, event.charge = other, {}
                break
        earlier.append(event)


def events_of(body, masks=False):
    """The accesses of a body, with their charges; and the tree that tells which may meet."""
    noter = Noter(masks)
    noter.tree = noter.command(body, ((), (), frozenset()))
    share(noter)
    return noter


def may_meet(one, other):
    """Whether two accesses may meet."""
    for (c, part, never), (d, another, _) in zip(one.chain, other.chain):
        if c is not d:
            return True
        if part != another:
            return not never
    return True
