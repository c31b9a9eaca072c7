"""What names stand for: `unknown name` (rule 4) and `name twice` (rule 5)."""
from . import Refused
from .trees import Entity, expressions_of


class Resolver:
    """Walks a body in order of the text. `visible` has the entities in sight, `depth` the number of loops of
    several copies round the walk, `loops` these loops and `fors` all loops."""

    def __init__(self, visible):
        self.visible, self.loops = dict(visible), []

    def declare(self, ref, sort, **fields):
        """Makes the entity of a declaration; it is in sight only when `show` is called."""
        if ref.name in self.visible:
            raise Refused(5, ref.place)
        ref.entity = Entity(ref.name, ref.place, sort, depth=len(self.loops), loops=tuple(self.loops), **fields)
        return ref.entity

    def show(self, entity):
        """Brings an entity into sight."""
        self.visible[entity.name] = entity

    def use(self, ref):
        """Finds what a name stands for."""
        if ref.name not in self.visible:
            raise Refused(4, ref.place)
        ref.entity = self.visible[ref.name]

    def expression(self, e):
        """Resolves the names of an expression."""
        if e.form == 'binary':
            self.expression(e.left)
            self.expression(e.right)
        elif e.form == 'cast':
            self.expression(e.inner)
        elif e.form in ('variable', 'access', 'physical'):
            self.use(e.of)
            for inner in e.indices if e.form == 'access' else [e.row] if e.form == 'physical' else []:
                self.expression(inner)

    def command(self, c):
        """Resolves the names of a command."""
        form = c.form
        if form in ('let', 'memory', 'view'):
            self.declaration(c)
        elif form in ('assign', 'reduce'):
            self.use(c.target)
            self.expression(c.value)
        elif form == 'store':
            self.expression(c.target)
            self.expression(c.value)
        elif form == 'call':
            self.use(c.function)
            for argument in c.arguments:
                self.expression(argument)
        elif form == 'block':
            outside = dict(self.visible)
            self.inside(c)
            self.visible = outside
        elif form == 'for':
            self.loop(c)
        else:
            self.expression(c.test)
            for inner in [c.body] if form == 'while' else [c.then] + ([c.other] if c.other else []):
                self.command(inner)

    def declaration(self, c):
        """Resolves a command that declares a name, which is in sight behind it."""
        if c.form == 'view':
            entity = self.declare(c.name, 'view', command=c)
            self.use(c.parent)
            for offset in c.offsets:
                self.expression(offset)
        else:
            entity = self.declare(c.name, 'memory' if c.form == 'memory' else 'variable', command=c)
            if c.form == 'memory':
                entity.shape, entity.outside = c.shape, False
            for value in expressions_of(c):
                self.expression(value)
        self.show(entity)

    def inside(self, block):
        """Resolves the commands of a block, in the scope that is open."""
        for part in block.body:
            for inner in part:
                self.command(inner)

    def loop(self, c):
        """Resolves a `for`: what its body declares is in sight in its `combine` block."""
        outside = dict(self.visible)
        iterator = self.declare(c.iterator, 'iterator', command=c)
        if c.factor > 1:
            self.loops.append(c)
        self.show(iterator)
        self.inside(c.body)
        if c.combine:
            self.inside(c.combine)
        if c.factor > 1:
            self.loops.pop()
        self.visible = outside


def resolve(tree):
    """Gives each name of a tree its entity."""
    top = Resolver({})
    functions = {}
    for item in tree.items:
        if item.form == 'decl':
            entity = top.declare(item.name, 'memory', shape=item.shape, outside=True, command=item)
        else:
            entity = top.declare(item.name, 'function', command=item)
            inner = Resolver(functions)
            for parameter in item.parameters:
                sort = 'memory' if parameter.shape.is_memory() else 'variable'
                inner.show(inner.declare(parameter.name, sort, shape=parameter.shape, outside=False,
                                         command=parameter))
            inner.inside(item.body)
            functions[item.name.name] = entity
        top.show(entity)
    top.inside(tree.body)
