"""Calls read by substitution: a tree without functions, whose variables are each call's own."""
from .phases import Phaser, uses
from .shapes import memory_of
from .trees import Entity, Node, Ref, all_commands, commands_in, expressions_in, expressions_of

# Above so many commands a call without phases stays as it is; it does nothing.
MANY = 300000


class Copier:
    """Copies the commands of one body with entities of its own."""

    def __init__(self, memories, prune):
        self.entities, self.prune = dict(memories), prune

    def entity(self, old):
        """The copy of what a name stands for, or the thing itself where it is from outside."""
        return self.entities.get(old, old)

    def ref(self, old):
        """A copy of a name that is used."""
        new = Ref(old.name, old.place)
        new.entity = self.entity(old.entity)
        return new

    def declared(self, old, command):
        """A copy of a name that is declared."""
        entity = old.entity
        fields = dict(entity.__dict__)
        for known in ('name', 'place', 'sort', 'dims', 'phases'):
            fields.pop(known, None)
        self.entities[entity] = Entity(entity.name, entity.place, entity.sort, **dict(fields, command=command))
        return self.ref(old)

    def expression(self, e):
        """A copy of an expression."""
        if e is None:
            return None
        new = Node(e.form, e.place)
        new.__dict__.update(e.__dict__)
        if e.form in ('variable', 'access', 'physical'):
            new.of = self.ref(e.of)
        if e.form == 'access':
            new.indices = [self.expression(index) for index in e.indices]
        elif e.form == 'physical':
            new.row = self.expression(e.row)
        elif e.form == 'binary':
            new.left, new.right = self.expression(e.left), self.expression(e.right)
        elif e.form == 'cast':
            new.inner = self.expression(e.inner)
        return new

    def command(self, c):
        """A copy of a command; a call becomes a block."""
        if c.form == 'call':
            return self.call(c)
        new = Node(c.form, c.place)
        new.__dict__.update({key: value for key, value in c.__dict__.items() if key not in ('phase', 'uses')})
        for field in ('value', 'test'):
            if getattr(c, field, None):
                setattr(new, field, self.expression(getattr(c, field)))
        if c.form == 'store':
            new.target = self.expression(c.target)
        elif c.form in ('assign', 'reduce'):
            new.target = self.ref(c.target)
        elif c.form == 'block':
            new.body = [[self.command(inner) for inner in part] for part in c.body]
        elif c.form == 'view':
            new.offsets = [self.expression(offset) for offset in c.offsets]
            new.parent = self.ref(c.parent)
        if c.form in ('let', 'memory', 'view'):
            new.name = self.declared(c.name, new)
        elif c.form == 'for':
            new.iterator = self.declared(c.iterator, new)
        for field in ('then', 'other', 'combine') if c.form != 'while' else ():
            if getattr(c, field, None) and field != 'combine':
                setattr(new, field, self.command(getattr(c, field)))
        if c.form in ('while', 'for'):
            new.body = self.command(c.body)
        if c.form == 'for' and c.combine:
            new.combine = self.command(c.combine)
        return new

    def call(self, c):
        """A call as one block: its arguments, then what the braces of the function hold."""
        function = c.function.entity.command
        memories, lets = {}, []
        inner = Copier({}, self.prune)
        for parameter, argument in zip(function.parameters, c.arguments):
            if parameter.shape.is_memory():
                memories[parameter.name.entity] = self.entity(argument.of.entity)
            else:
                let = Node('let', c.place, declared=parameter.shape.kind, value=self.expression(argument))
                let.name = inner.declared(parameter.name, let)
                lets.append(let)
        inner.entities.update(memories)
        if self.prune and not phases_of(c.function.entity):
            body = [[passed(function, memories, c.place)]]
        else:
            body = inner.command(function.body).body
        return Node('block', c.place, body=([lets] if lets else []) + body)


def phases_of(entity):
    """The phases of a function's body, calls as they stand."""
    if not hasattr(entity, 'phases'):
        entity.phases = Phaser().command(entity.command.body)
    return entity.phases


def passed(function, memories, place):
    """What stands for a body that does nothing: the memories that its text accesses and writes."""
    accessed, written = text_of(function)
    return Node('passed', place, accessed={memories.get(m, m) for m in accessed},
                written={memories.get(m, m) for m in written})


def text_of(function):
    """The memory parameters that the text of a function accesses and writes, with its calls."""
    if not hasattr(function, 'text'):
        found = uses(function.body)
        accessed, written = set(found.accessed), set(found.written)
        for c in all_commands(function.body):
            if c.form == 'call':
                inner = c.function.entity.command
                names = {p.name.entity: memory_of(a.of.entity) for p, a in zip(inner.parameters, c.arguments)
                         if p.shape.is_memory()}
                accessed |= {names[m] for m in text_of(inner)[0]}
                written |= {names[m] for m in text_of(inner)[1]}
        function.text = accessed, written
    return function.text


def sizes(body, known):
    """The commands, operators and casts of a body with its calls substituted, and its accesses."""
    commands = accesses = 0
    waiting = [(body, 1)]
    while waiting:
        c, copies = waiting.pop()
        commands += copies * (2 if c.form == 'reduce' else 1)
        for outer in expressions_of(c):
            forms = [e.form for e in expressions_in(outer)]
            commands += copies * sum(form in ('binary', 'cast') for form in forms)
            accesses += copies * sum(form in ('access', 'physical') for form in forms)
        if c.form == 'call':
            function = c.function.entity.command
            if function not in known:
                known[function] = sizes(function.body, known)
            scalars = sum(not parameter.shape.is_memory() for parameter in function.parameters)
            # The body's own block is the call's.
            commands += scalars + known[function][0] - 1
            accesses += known[function][1]
        inside = copies * c.factor if c.form == 'for' else copies
        waiting += [(inner, inside) for inner in commands_in(c)]
    return commands, accesses


def substitute(tree, prune):
    """The tree without functions. With `prune`, calls that do nothing stay out of it."""
    if not tree.functions:
        return tree
    body = Copier({}, prune).command(tree.body)
    return Node('tree', tree.place, decls=tree.decls, functions=[], items=tree.decls, body=body)
