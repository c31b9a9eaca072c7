"""Kinds: `type mismatch` (rule 6) and `width lost` (rule 7)."""
from .trees import BOOL, INT32, WORD32, bodies_of, commands_in

BARE = {'+', '-', '*', '/', '%', '&', '|', '^', '<<', '>>'}
SHIFTS = {'<<', '>>'}


def fits(kind, number):
    """Whether a number is a value of a number kind."""
    sort, width = kind
    if sort == 'bit':
        return -2 ** (width - 1) <= number < 2 ** (width - 1)
    return 0 <= number < 2 ** width


def number_of(e):
    """The number of a literal."""
    return -e.value if e.negative else e.value


def is_bare(e):
    """Whether all of an expression takes the kind of its place."""
    if e.form == 'number':
        return True
    return e.form == 'binary' and e.op in BARE and is_bare(e.left) and is_bare(e.right)


class Typer:
    """Gives expressions their kinds, and keeps every breach as (place, rule)."""

    def __init__(self):
        self.breaches = []

    def mismatch(self, place):
        """Keeps a breach of rule 6."""
        self.breaches.append((place, 6))

    def lost(self, place):
        """Keeps a breach of rule 7."""
        self.breaches.append((place, 7))

    def expression(self, e, wanted=None):
        """The kind of an expression whose place has the kind `wanted`, or None where it holds a breach."""
        e.kind = getattr(self, e.form)(e, None if wanted == BOOL else wanted)
        return e.kind

    def number(self, e, wanted):
        """A number has the kind of its place."""
        kind = wanted or INT32
        if fits(kind, number_of(e)):
            return kind
        return self.lost(e.place)

    def truth(self, _e, _wanted):
        """`true` and `false`."""
        return BOOL

    def variable(self, e, _wanted):
        """A name that is used as a value."""
        if e.of.entity.sort in ('variable', 'iterator'):
            return e.of.entity.kind
        return self.mismatch(e.place)

    def index(self, e):
        """The kind of what must be a number of any kind."""
        kind = self.expression(e)
        if kind == BOOL:
            return self.mismatch(e.place)
        return kind

    def access(self, e, _wanted):
        """An access by indices."""
        entity = e.of.entity
        had_kinds = [self.expression(index) for index in e.indices]
        kinds = [self.mismatch(i.place) if kind == BOOL else kind for i, kind in zip(e.indices, had_kinds)]
        if entity.sort not in ('memory', 'view'):
            return self.mismatch(e.place)
        if None not in had_kinds and entity.count is not None and len(e.indices) != entity.count:
            return self.mismatch(e.place)
        return None if None in kinds else entity.kind

    def physical(self, e, _wanted):
        """An access by bank and row."""
        kind = self.index(e.row)
        if e.of.entity.sort not in ('memory', 'view'):
            return self.mismatch(e.place)
        return kind and e.of.entity.kind

    def cast(self, e, _wanted):
        """A cast."""
        kind = self.expression(e.inner, e.to)
        if kind and e.to == BOOL:
            return self.mismatch(e.place)
        return kind and e.to

    def binary(self, e, wanted):
        """An operator."""
        if is_bare(e):
            left = self.expression(e.left, wanted)
            right = self.expression(e.right, WORD32 if e.op in SHIFTS else wanted)
        elif e.op in SHIFTS:
            left = self.expression(e.left)
            right = self.expression(e.right, WORD32 if is_bare(e.right) else None)
        elif is_bare(e.left):
            right = self.expression(e.right)
            left = self.expression(e.left, right)
        else:
            left = self.expression(e.left)
            right = self.expression(e.right, left)
        if left is None or right is None:
            return None
        return self.result(e, left, right)

    def result(self, e, left, right):
        """The kind of an operator on operands of these kinds."""
        if e.op in ('&&', '||'):
            wrong = e.left if left != BOOL else e.right if right != BOOL else None
            return self.mismatch(wrong.place) if wrong else BOOL
        if e.op in ('==', '!=') and left == BOOL:
            return BOOL if right == BOOL else self.mismatch(e.right.place)
        if left == BOOL:
            return self.mismatch(e.left.place)
        if right[0] != ('ubit' if e.op in SHIFTS else left[0]):
            return self.mismatch(e.right.place)
        if e.op in SHIFTS:
            return left
        return (left[0], max(left[1], right[1])) if e.op in BARE else BOOL

    def assigned(self, e, target):
        """A right side for a place of a kind."""
        kind = self.expression(e, target)
        if kind and target:
            if kind[0] != target[0]:
                self.mismatch(e.place)
            elif kind[1] > target[1]:
                self.lost(e.place)
        return kind

    # Commands

    def command(self, c):
        """Types a command and all inside it."""
        getattr(self, 'on_' + c.form)(c)
        for inner in commands_in(c):
            self.command(inner)

    def on_block(self, _c):
        """A block has no expression."""

    def on_let(self, c):
        """A variable."""
        kind = self.assigned(c.value, c.declared) if c.value else None
        c.name.entity.kind = c.declared or kind

    def on_memory(self, c):
        """A local memory."""
        note_memory(c.name.entity)
        if c.value:
            self.assigned(c.value, c.shape.kind)

    def on_view(self, c):
        """A view has the kind of its parent."""
        parent, entity = c.parent.entity, c.name.entity
        entity.kind = entity.count = None
        if parent.sort in ('memory', 'view'):
            entity.kind, entity.count = parent.kind, 2 if c.sort == 'split' else parent.count
        else:
            self.mismatch(c.parent.place)
        for offset in c.offsets:
            self.index(offset)

    def on_assign(self, c):
        """An assignment."""
        entity = c.target.entity
        if entity.sort not in ('variable', 'iterator'):
            self.mismatch(c.target.place)
        self.assigned(c.value, entity.kind if entity.sort in ('variable', 'iterator') else None)

    def on_reduce(self, c):
        """A reducer is an assignment whose target is an operand, too."""
        self.on_assign(c)
        if c.target.entity.kind == BOOL and c.target.entity.sort in ('variable', 'iterator') and c.value.kind:
            self.mismatch(c.target.place)

    def on_store(self, c):
        """A store."""
        self.assigned(c.value, self.expression(c.target))

    def on_call(self, c):
        """A call: whether an argument suits its parameter is judged elsewhere."""
        entity = c.function.entity
        parameters = entity.command.parameters if entity.sort == 'function' else []
        for number, argument in enumerate(c.arguments):
            if argument.form == 'variable' and argument.of.entity.sort in ('memory', 'view'):
                argument.kind = None
                continue
            wanted = parameters[number].shape.kind if number < len(parameters) else None
            self.expression(argument, wanted)

    def on_if(self, c):
        """A test."""
        kind = self.expression(c.test)
        if kind and kind != BOOL:
            self.mismatch(c.test.place)

    on_while = on_if

    def on_for(self, c):
        """An iterator and its bounds."""
        kind = c.declared or WORD32
        c.iterator.entity.kind = kind
        if kind == BOOL:
            self.mismatch(c.iterator.place)
            return
        if not fits(kind, c.low):
            self.lost(c.low_place)
        if c.high > c.low and not fits(kind, c.high - 1):
            self.lost(c.high_place)


def note_memory(entity):
    """What accesses ask of a memory."""
    entity.kind, entity.count = entity.shape.kind, len(entity.shape.dims)


def type_tree(tree):
    """Gives each expression its kind; the breaches of rules 6 and 7."""
    typer = Typer()
    for item in tree.items:
        if item.form == 'decl':
            note_memory(item.name.entity)
        else:
            for parameter in item.parameters:
                if parameter.shape.is_memory():
                    note_memory(parameter.name.entity)
                else:
                    parameter.name.entity.kind = parameter.shape.kind
    for body in bodies_of(tree):
        typer.command(body)
    return typer.breaches
