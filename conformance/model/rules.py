"""Where commands may stand: rules 14 to 18."""
from .phases import Phaser, call_breaches
from .trees import BOOL, bodies_of, commands_in


class Standing:
    """What encloses a command: loops of several copies, whether a local memory may stand there, and the loop
    whose `combine` block it stands in, with whether it stands there directly."""

    def __init__(self, loops=0, memories=True, combined=None, direct=False):
        self.loops, self.memories, self.combined, self.direct = loops, memories, combined, direct


class Judge:
    """Keeps every breach of rules 14 to 18 as (place, rule)."""

    def __init__(self, masks):
        self.masks, self.breaches = masks, []

    def breach(self, rule, place):
        """Keeps a breach."""
        self.breaches.append((place, rule))

    def type(self, name, shape, is_decl):
        """Rule 14 at a declared type."""
        if not shape.dims_written and (is_decl or shape.ports_written):
            self.breach(14, name.place)
        elif shape.kind == BOOL and shape.is_memory():
            self.breach(14, name.place)

    def command(self, c, standing):
        """Judges a command and all inside it."""
        if standing.direct and c.form != 'reduce':
            self.breach(17, c.place)
        judge = getattr(self, 'on_' + c.form, None)
        if judge:
            judge(c, standing)
        if c.form == 'for':
            self.loop(c, standing)
            return
        memories = standing.memories and c.form == 'block'
        for inner in commands_in(c):
            self.command(inner, Standing(standing.loops, memories, standing.combined))

    def loop(self, c, standing):
        """Judges what stands in a `for`."""
        body = Standing(standing.loops + (c.factor > 1), False, standing.combined)
        self.command(c.body, body)
        if c.combine:
            if len(c.combine.body) > 1:
                self.breach(17, c.combine_place)
            for inner in commands_in(c.combine):
                self.command(inner, Standing(standing.loops, False, c, True))

    def on_memory(self, c, standing):
        """A local memory."""
        self.type(c.name, c.shape, False)
        if not standing.memories or c.value:
            self.breach(14, c.name.place)

    def on_assign(self, c, standing):
        """An assignment."""
        entity = c.target.entity
        if entity.sort == 'iterator' or entity.depth < standing.loops:
            self.breach(15, c.target.place)

    def on_while(self, c, standing):
        """A `while`."""
        if standing.loops:
            self.breach(16, c.place)

    def on_if(self, c, standing):
        """An `if`."""
        if standing.loops and not self.masks and not c.is_straight:
            self.breach(16, c.place)

    def on_reduce(self, c, standing):
        """A reducer."""
        loop = standing.combined
        if loop is None:
            self.breach(17, c.target.place)
            return
        target, value = c.target.entity, c.value
        if target.sort != 'variable' or target in declared_inside(loop):
            self.breach(17, c.target.place)
        named = value.of.entity if value.form == 'variable' else None
        if named is None or named.sort != 'variable' or named not in declared_directly(loop.body):
            self.breach(17, value.place)

    def on_call(self, c, standing):
        """A call."""
        self.breaches += call_breaches(c)
        if standing.loops:
            self.breach(18, c.function.place)


def declared_directly(block):
    """What is declared in the braces of a block themselves."""
    return {c.name.entity for c in commands_in(block) if c.form in ('let', 'memory', 'view')}


def declared_inside(c):
    """What is declared anywhere in a command."""
    found = {c.name.entity} if c.form in ('let', 'memory', 'view') else set()
    if c.form == 'for':
        found.add(c.iterator.entity)
    for inner in commands_in(c):
        found |= declared_inside(inner)
    return found


def breaches(tree, masks):
    """The breaches of rules 14 to 18. The phases of all bodies are found on the way."""
    judge = Judge(masks)
    phaser = Phaser(masks=masks)
    for item in tree.items:
        if item.form == 'decl':
            judge.type(item.name, item.shape, True)
        else:
            for parameter in item.parameters:
                judge.type(parameter.name, parameter.shape, False)
    for body in bodies_of(tree):
        phaser.command(body)
        judge.command(body, Standing(memories=body is tree.body))
    return judge.breaches
