"""Shapes, indices and bounds: rules 8 to 13, and the limits on memories and copies."""
from . import TooLarge
from .kinds import fits, number_of
from .trees import all_commands, bodies_of, commands_in, expressions_in, expressions_of


def product(numbers):
    """The product of some numbers."""
    result = 1
    for number in numbers:
        result *= number
    return result


def memory_of(entity):
    """The memory at the end of a view's parents."""
    while entity.sort == 'view':
        entity = entity.command.parent.entity
    return entity


def dims_of(entity):
    """The sizes and banks of a memory's or a view's dimensions; None where a factor is wrong."""
    if entity.sort == 'memory':
        return entity.shape.dims
    if not hasattr(entity, 'dims'):
        entity.dims = dims_of_view(entity.command)
    return entity.dims


def dims_of_view(c):
    """The dimensions of the view that a command declares."""
    parent = dims_of(c.parent.entity)
    if parent is None or breaches_of_view(c):
        return None
    factors = [factor for factor, _ in c.factors]
    if c.sort == 'shrink':
        return [(size, banks // factor) for (size, banks), factor in zip(parent, factors)]
    if c.sort == 'split':
        (size, banks), factor = parent[0], factors[0]
        return [(factor, factor), (size // factor, banks // factor)]
    return parent


def shape_breaches(shape):
    """Rules 8 and 12 at a type."""
    if shape.ports_written and shape.ports_written[0] == 0:
        yield shape.ports_written[1], 12
    for size, banks in shape.dims_written:
        if size[0] == 0:
            yield size[1], 12
        if banks and (banks[0] == 0 or size[0] % banks[0]):
            yield banks[1], 8


def breaches_of_view(c):
    """Rule 13 at a view command."""
    parent = dims_of(c.parent.entity)
    if parent is None:
        return []
    brackets = len(c.offsets) if c.sort == 'shift' else len(c.factors)
    if brackets != len(parent) or (c.sort == 'split' and len(parent) != 1):
        return [(c.parent.place, 13)]
    found = []
    for (factor, place), (_, banks) in zip(c.factors, parent):
        wrong = factor % banks if c.sort == 'suffix' and banks else factor and banks % factor
        if factor == 0 or wrong:
            found.append((place, 13))
    return found


def classify(e):
    """An index as ('constant', value), ('iterator', entity, constant) or ('dynamic',)."""
    if e.form == 'number':
        return 'constant', number_of(e)
    base, constant = e, 0
    if e.form == 'binary' and e.op == '+' and e.left.form == 'number':
        base, constant = e.right, number_of(e.left)
    elif e.form == 'binary' and e.op in '+-' and e.right.form == 'number':
        base, constant = e.left, number_of(e.right) * (1 if e.op == '+' else -1)
    if base.form == 'variable' and base.of.entity.sort == 'iterator':
        loop = base.of.entity.command
        lowest, highest = loop.low + constant, loop.high - 1 + constant
        if loop.high <= loop.low or (lowest >= 0 and fits(e.kind, lowest) and fits(e.kind, highest)):
            return 'iterator', base.of.entity, constant
    return ('dynamic',)


def index_breaches(e, size, banks):
    """Rules 10, 11 and 12 at an index."""
    form = classify(e)
    if form[0] == 'constant':
        if not 0 <= form[1] < size:
            yield e.place, 12
    elif banks > 1:
        if form[0] == 'dynamic':
            yield e.place, 11
        elif form[1].command.factor % banks:
            yield e.place, 10


def access_breaches(e):
    """Rules 10 to 13 at an access."""
    entity = e.of.entity
    dims = dims_of(entity)
    if e.form == 'physical' and entity.sort == 'view':
        yield e.place, 13
    elif dims is not None and not any(shape_breaches(memory_of(entity).shape)):
        if e.form == 'physical':
            if e.bank >= product(banks for _, banks in dims):
                yield e.bank_place, 12
            yield from index_breaches(e.row, product(size // banks for size, banks in dims), 1)
        else:
            for index, (size, banks) in zip(e.indices, dims):
                yield from index_breaches(index, size, banks)


def command_breaches(c):
    """Rules 8 to 13 directly at a command."""
    if c.form == 'memory':
        yield from shape_breaches(c.shape)
    elif c.form == 'view':
        yield from breaches_of_view(c)
    elif c.form == 'for':
        if c.high < c.low:
            yield c.high_place, 12
        if c.factor == 0 or (c.high - c.low) % c.factor:
            yield c.factor_place, 9
    for outer in expressions_of(c):
        for e in expressions_in(outer):
            if e.form in ('access', 'physical'):
                yield from access_breaches(e)


def shapes_of(tree):
    """The types of a tree, in order of the text, each with whether its elements count."""
    for item in tree.items:
        if item.form == 'decl':
            yield item.shape, True
        else:
            for parameter in item.parameters:
                yield parameter.shape, False
            for c in all_commands(item.body):
                if c.form == 'memory':
                    yield c.shape, True
    for c in all_commands(tree.body):
        if c.form == 'memory':
            yield c.shape, True


def breaches(tree):
    """The breaches of rules 8 to 13."""
    found = []
    for item in tree.items:
        for shape in [item.shape] if item.form == 'decl' else [p.shape for p in item.parameters]:
            found += shape_breaches(shape)
    for body in bodies_of(tree):
        for c in all_commands(body):
            found += command_breaches(c)
    return found


def copies_within(command, copies):
    """Raises the limit Copies at the first loop, in order of the text, inside which it is too large."""
    if command.form == 'for':
        copies *= command.factor
        if copies > 256:
            raise TooLarge('Copies', copies)
    for inner in commands_in(command):
        copies_within(inner, copies)


def within_limits(tree):
    """Raises the first limit on memories and copies that is exceeded."""
    if len(tree.functions) > 64:
        raise TooLarge('Functions', len(tree.functions))
    shapes = list(shapes_of(tree))
    counts = [('Dimensions', 6, lambda shape: len(shape.dims)),
              ('Banks', 64, lambda shape: product(banks for _, banks in shape.dims)),
              ('Ports', 8, lambda shape: shape.ports)]
    for name, most, counted in counts:
        for shape, _ in shapes:
            if counted(shape) > most:
                raise TooLarge(name, counted(shape))
    for body in bodies_of(tree):
        copies_within(body, 1)
    elements = sum(product(size for size, _ in shape.dims) for shape, counts_too in shapes if counts_too)
    if elements > 1048576:
        raise TooLarge('Elements', elements)
