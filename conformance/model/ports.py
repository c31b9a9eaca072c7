"""Ports: rules 19 and 20, and the size of a plan."""
from . import CannotJudge, TooLarge
from .events import events_of, may_meet
from .trees import bodies_of, commands_in, expressions_in, expressions_of

# Up to so many accesses of one memory, the sets of which any two may meet are gone through one by one.
FEW = 9


def greatest_set(event, earlier, bank):
    """The greatest charge on a bank of a set of accesses that may meet one another and this one."""
    if not earlier:
        return 0
    first, rest = earlier[0], earlier[1:]
    without = greatest_set(event, rest, bank)
    if not may_meet(first, event):
        return without
    friends = [other for other in rest if may_meet(first, other)]
    return max(without, first.charge.get(bank, 0) + greatest_set(event, friends, bank))


def spent_by_sets(events):
    """The first access, in order of evaluation, that completes a set beyond the ports; by going over all sets."""
    for number, event in enumerate(events):
        for bank, charge in event.charge.items():
            earlier = [other for other in events[:number] if other.memory is event.memory
                       and other.charge.get(bank)]
            if charge + greatest_set(event, earlier, bank) > event.memory.shape.ports:
                return event
    return None


class Loads:
    """The same by the tree: what stands before an access and may meet it has a greatest load."""

    def __init__(self):
        self.first = None

    def load(self, node, before):
        """The load of a node by memory and bank, behind what has the loads `before`."""
        sort, content = node
        if sort == 'access':
            load = {(content.memory, bank): charge for bank, charge in content.charge.items()}
            for key, charge in load.items():
                if self.first is None and charge + before.get(key, 0) > content.memory.shape.ports:
                    self.first = content
            return load
        total = {}
        for part in content:
            if sort == 'one':
                for key, charge in self.load(part, before).items():
                    total[key] = max(total.get(key, 0), charge)
            else:
                load = self.load(part, before)
                before = dict(before) if load else before
                for key, charge in load.items():
                    total[key] = total.get(key, 0) + charge
                    before[key] = before.get(key, 0) + charge
        return total


def first_spent(noter):
    """The access at which rule 19 stands in a body, or None."""
    loads = Loads()
    loads.load(noter.tree, {})
    if len(noter.events) <= FEW:
        by_sets = spent_by_sets(noter.events)
        if by_sets is not loads.first:
            raise CannotJudge('sets and loads differ')
    return loads.first


def read_after_write(noter):
    """The places of rule 20 in a body."""
    written = {}
    for event in noter.events:
        if event.phase is None:
            continue
        if event.sort == 'write':
            written.setdefault((event.phase, event.memory), []).append(event)
        elif event.sort == 'read':
            for write in written.get((event.phase, event.memory), []):
                if set(write.reached) & set(event.reached) and may_meet(write, event):
                    yield event.place
                    break


def breaches(tree, masks):
    """The breaches of rules 19 and 20 that can be the least."""
    found = []
    for body in bodies_of(tree):
        noter = events_of(body, masks)
        spent = first_spent(noter)
        if spent:
            found.append((spent.place, 19))
        found += [(place, 20) for place in read_after_write(noter)]
    return found


def counted(c, copies):
    """The commands, operators, casts and reducers in a command, each for its copies."""
    total = copies + (copies if c.form == 'reduce' else 0)
    for outer in expressions_of(c):
        total += copies * sum(e.form in ('binary', 'cast') for e in expressions_in(outer))
    inside = copies * c.factor if c.form == 'for' else copies
    return total + sum(counted(inner, inside) for inner in commands_in(c))


def plan_size(flat):
    """The size of the plan of a program whose calls are substituted."""
    noter = events_of(flat.body)
    accesses = sum(event.copies() * (1 + len(event.charge)) for event in noter.events)
    return counted(flat.body, 1) + accesses


def within_plan(flat):
    """Raises the limit Plan where it is exceeded."""
    size = plan_size(flat)
    if size > 200000:
        raise TooLarge('Plan', size)
