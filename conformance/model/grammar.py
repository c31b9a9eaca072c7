"""The grammar, and the first token that no program has."""
from . import Refused
from .tokens import OUT_WORDS
from .trees import Node, Ref, Shape

LEVELS = [['||'], ['&&'], ['==', '!='], ['<', '>', '<=', '>='], ['|'], ['^'], ['&'], ['<<', '>>'], ['+', '-'],
          ['*', '/', '%']]
LEVEL_OF = {sign: level for level, signs in enumerate(LEVELS) for sign in signs}
REDUCERS = ['+=', '-=', '*=', '/=']


class Parser:
    """Reads tokens from left to right. Each token that it takes is one that some program has there."""

    def __init__(self, tokens, division):
        self.tokens, self.at, self.division = tokens, 0, division

    # Tokens

    def sort(self):
        """The sort of the next token."""
        return self.tokens[self.at].sort

    def place(self):
        """The place of the next token."""
        return self.tokens[self.at].place

    def fail(self):
        """Refuses the next token."""
        divides = not self.division and self.sort() in ('/', '%', '/=')
        raise Refused(3 if self.sort() in OUT_WORDS or divides else 2, self.place())

    def take(self, *sorts):
        """Takes a token of one of these sorts."""
        token = self.tokens[self.at]
        if token.sort not in sorts or (not self.division and token.sort in ('/', '%', '/=')):
            self.fail()
        self.at += 1
        return token

    def taken(self, sort):
        """Whether the next token was of this sort, and then it is taken."""
        if self.sort() != sort:
            return False
        self.at += 1
        return True

    def name(self):
        """Takes a name."""
        token = self.take('name')
        return Ref(token.value, token.place)

    def number(self):
        """Takes a number, with its place."""
        token = self.take('number')
        return token.value, token.place

    # Types

    def kind(self):
        """Takes a kind."""
        word = self.take('bool', 'bit', 'ubit').sort
        if word == 'bool':
            return ('bool', 1)
        self.take('<')
        token = self.tokens[self.at]
        if token.sort == 'number' and not 1 <= token.value <= 64:
            raise Refused(3, token.place)
        width = self.number()[0]
        self.take('>')
        return (word, width)

    def type(self):
        """Takes a type."""
        kind, ports, dims = self.kind(), None, []
        if self.taken('{'):
            ports = self.number()
            self.take('}')
        while self.taken('['):
            size = self.number()
            banks = self.number() if self.taken('bank') else None
            self.take(']')
            dims.append((size, banks))
        return Shape(kind, ports, dims)

    # Expressions

    def expression(self, level=0):
        """Takes an expression of operators of this level and tighter ones."""
        if level == len(LEVELS):
            return self.primary()
        left = self.expression(level + 1)
        while self.sort() in LEVELS[level]:
            sign = self.take(*LEVELS[level]).sort
            right = self.expression(level + 1)
            left = Node('binary', left.place, op=sign, left=left, right=right)
        return left

    def primary(self):
        """Takes an expression that no operator is outside of."""
        token = self.tokens[self.at]
        if token.sort == 'number':
            return Node('number', token.place, value=self.number()[0], negative=False)
        if self.taken('-'):
            return Node('number', token.place, value=self.number()[0], negative=True)
        if token.sort in ('true', 'false'):
            self.at += 1
            return Node('truth', token.place, value=token.sort == 'true')
        if self.taken('('):
            inner = self.expression()
            if self.taken('as'):
                inner = Node('cast', token.place, inner=inner, to=self.kind())
            self.take(')')
            return inner
        name = self.name()
        if self.sort() in ('[', '{'):
            return self.access(name)
        return Node('variable', name.place, of=name)

    def access(self, name):
        """Takes what stands behind the name of an access."""
        if self.taken('{'):
            bank, bank_place = self.number()
            self.take('}')
            self.take('[')
            row = self.expression()
            self.take(']')
            return Node('physical', name.place, of=name, bank=bank, bank_place=bank_place, row=row)
        indices = []
        while self.taken('['):
            indices.append(self.expression())
            self.take(']')
        return Node('access', name.place, of=name, indices=indices)

    # Commands

    def simple(self):
        """Takes a command that a `;` may stand behind."""
        place = self.place()
        if self.taken('let'):
            return self.let(place)
        if self.taken('view'):
            return self.view(place)
        name = self.name()
        if self.sort() in ('[', '{'):
            target = self.access(name)
            self.take(':=')
            return Node('store', place, target=target, value=self.expression())
        if self.taken('('):
            arguments = []
            if self.sort() != ')':
                arguments.append(self.expression())
                while self.taken(','):
                    arguments.append(self.expression())
            self.take(')')
            return Node('call', place, function=name, arguments=arguments)
        sign = self.take(':=', *REDUCERS).sort
        if sign == ':=':
            return Node('assign', place, target=name, value=self.expression())
        return Node('reduce', place, target=name, op=sign[0], value=self.expression())

    def let(self, place):
        """Takes what stands behind `let`."""
        name, shape, value = self.name(), None, None
        if self.take(':', '=').sort == ':':
            shape = self.type()
            if self.taken('='):
                value = self.expression()
        else:
            value = self.expression()
        if shape and shape.is_memory():
            return Node('memory', place, name=name, shape=shape, value=value)
        return Node('let', place, name=name, declared=shape.kind if shape else None, value=value)

    def view(self, place):
        """Takes what stands behind `view`."""
        name = self.name()
        self.take('=')
        sort = self.take('shrink', 'split', 'suffix', 'shift').sort
        parent, factors, offsets = self.name(), [], []
        while True:
            self.take('[')
            self.take('by')
            if sort != 'shift':
                factors.append(self.number())
            if sort == 'suffix':
                self.take('*')
                offsets.append(self.primary())
            elif sort == 'shift':
                offsets.append(self.expression())
            self.take(']')
            if self.sort() != '[':
                break
        return Node('view', place, name=name, parent=parent, sort=sort, factors=factors, offsets=offsets)

    def compound(self):
        """Takes a command that no `;` need stand behind."""
        place, sort = self.place(), self.sort()
        if sort == '{':
            return self.block()
        if self.taken('if'):
            return self.branch(place)
        if self.taken('while'):
            self.take('(')
            test = self.expression()
            self.take(')')
            return Node('while', place, test=test, body=self.block())
        self.take('for')
        return self.loop(place)

    def branch(self, place):
        """Takes what stands behind `if`."""
        self.take('(')
        test = self.expression()
        self.take(')')
        then, other = self.block(), None
        if self.taken('else'):
            inner = self.place()
            if self.taken('if'):
                other = Node('block', inner, body=[[self.branch(inner)]])
            else:
                other = self.block()
        return Node('if', place, test=test, then=then, other=other)

    def loop(self, place):
        """Takes what stands behind `for`."""
        self.take('(')
        self.take('let')
        name = self.name()
        declared = self.kind() if self.taken(':') else None
        self.take('=')
        low = self.number()
        self.take('..')
        high = self.number()
        self.take(')')
        factor = self.number() if self.taken('unroll') else (1, None)
        body, combine, word = self.block(), None, self.place()
        if self.taken('combine'):
            combine = self.block()
        return Node('for', place, iterator=name, declared=declared, low=low[0], low_place=low[1], high=high[0],
                    high_place=high[1], factor=factor[0], factor_place=factor[1], body=body, combine=combine,
                    combine_place=word)

    def block(self):
        """Takes a block."""
        place = self.take('{').place
        body = self.sequence('}')
        self.take('}')
        return Node('block', place, body=body)

    def sequence(self, end):
        """Takes the parts of a block, up to the token that ends it."""
        parts = [[]]
        while self.sort() != end:
            sort = self.sort()
            if self.taken('---'):
                parts.append([])
            elif self.taken(';'):
                pass
            elif sort in ('{', 'if', 'while', 'for'):
                parts[-1].append(self.compound())
            else:
                if sort not in ('let', 'view', 'name'):
                    self.fail()
                parts[-1].append(self.simple())
                if self.sort() not in (';', '---', end):
                    self.fail()
        return parts

    def program(self):
        """Takes a program."""
        decls, functions, items = [], [], []
        while self.sort() in ('decl', 'def'):
            place = self.place()
            if self.taken('decl'):
                name = self.name()
                self.take(':')
                decls.append(Node('decl', place, name=name, shape=self.type()))
                items.append(decls[-1])
                self.take(';')
            else:
                self.take('def')
                functions.append(self.function(place))
                items.append(functions[-1])
        body = Node('block', self.place(), body=self.sequence('end'))
        return Node('tree', (1, 1), decls=decls, functions=functions, items=items, body=body)

    def function(self, place):
        """Takes what stands behind `def`."""
        name, parameters = self.name(), []
        self.take('(')
        if self.sort() != ')':
            parameters.append(self.parameter())
            while self.taken(','):
                parameters.append(self.parameter())
        self.take(')')
        self.take('=')
        return Node('function', place, name=name, parameters=parameters, body=self.block())

    def parameter(self):
        """Takes a parameter."""
        name = self.name()
        self.take(':')
        return Node('parameter', name.place, name=name, shape=self.type())


def parse(tokens, division):
    """The tree that the tokens spell."""
    return Parser(tokens, division).program()
