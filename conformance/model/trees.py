"""Trees: commands, expressions, and what names stand for."""

BOOL = ('bool', 1)
INT32 = ('bit', 32)
WORD32 = ('ubit', 32)


class Node:
    """A node of the tree, with the fields that it was made with."""

    def __init__(self, form, place, **fields):
        self.form, self.place = form, place
        self.__dict__.update(fields)

    def __repr__(self):
        return f'<{self.form} {self.place}>'


class Shape:
    """A type with what its numbers' places are: ports and dims are (number, place) or None."""

    def __init__(self, kind, ports, dims):
        self.kind, self.ports_written, self.dims_written = kind, ports, dims
        self.ports = ports[0] if ports else 1
        self.dims = [(size[0], banks[0] if banks else 1) for size, banks in dims]

    def is_memory(self):
        """Whether the type is one of a memory."""
        return bool(self.dims_written) or self.ports_written is not None

    def same(self):
        """What equal shapes have in common."""
        return self.kind, self.ports, tuple(self.dims)


class Entity:
    """What a name stands for. `sort` is variable, iterator, memory, view or function."""

    def __init__(self, name, place, sort, **fields):
        self.name, self.place, self.sort = name, place, sort
        self.kind = None
        self.__dict__.update(fields)


class Ref:
    """A name that is used or declared."""
    __slots__ = ('name', 'place', 'entity')

    def __init__(self, name, place):
        self.name, self.place, self.entity = name, place, None


def parts_of_expression(e):
    """The expressions directly in one, in order of evaluation."""
    if e.form == 'access':
        return e.indices
    if e.form == 'physical':
        return [e.row]
    if e.form == 'binary':
        return [e.left, e.right]
    return [e.inner] if e.form == 'cast' else []


def expressions_in(e):
    """An expression and all inside it, each behind what it holds."""
    for part in parts_of_expression(e):
        yield from expressions_in(part)
    yield e


def expressions_of(command):
    """The expressions directly in a command, in order of evaluation; a store's target last."""
    form = command.form
    if form in ('let', 'memory', 'assign', 'reduce'):
        return [command.value] if command.value else []
    if form == 'store':
        return [command.value, command.target]
    if form == 'view':
        return command.offsets
    if form == 'call':
        return command.arguments
    return [command.test] if form in ('if', 'while') else []


def commands_in(command):
    """The commands directly in one, in order of the text."""
    form = command.form
    if form == 'block':
        return [inner for part in command.body for inner in part]
    if form == 'if':
        return [command.then] + ([command.other] if command.other else [])
    if form == 'while':
        return [command.body]
    if form == 'for':
        return [command.body] + ([command.combine] if command.combine else [])
    return []


def all_commands(command):
    """A command and all inside it, in order of the text."""
    yield command
    for inner in commands_in(command):
        yield from all_commands(inner)


def bodies_of(tree):
    """The bodies of a tree: those of its functions, then the program's."""
    return [function.body for function in tree.functions] + [tree.body]
