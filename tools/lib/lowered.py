"""The first lines of a text that `lower` writes, docs/NETLIST.md, "The text": its memories and faults."""
import re

HEAD = re.compile(r'^// memory (\d+) (\w+) (u?bit) (\d+) ports (\d+) dims (\S+) (outside|local)$', re.M)
FAULT = re.compile(r'^// fault \d+ (\w+) (\S+)$', re.M)


class Memory:
    """A memory, as the first lines of a text tell it."""

    def __init__(self, number, name, sign, width, ports, dims, side):
        self.number, self.name = int(number), name
        self.signed, self.width = sign == 'bit', int(width)
        self.ports, self.outside = int(ports), side == 'outside'
        self.dims = [tuple(map(int, dim.split(':'))) for dim in dims.split('x')]
        self.banks, self.rows = 1, 1
        for size, banks in self.dims:
            self.banks *= banks
            self.rows *= size // banks
        self.elements_count = self.banks * self.rows
        self.row_width = max(1, (self.rows - 1).bit_length())

    def declaration(self):
        """The memory as the language declares it."""
        ports = f'{{{self.ports}}}' if self.ports != 1 else ''
        dims = ''.join(f'[{size} bank {banks}]' if banks != 1 else f'[{size}]' for size, banks in self.dims)
        return f"{self.name}: {'' if self.signed else 'u'}bit<{self.width}>{ports}{dims}"

    def format(self):
        """What a data file says of the kind of the memory."""
        return {'is_signed': self.signed, 'numeric_type': 'bitnum', 'width': self.width}

    def places(self):
        """The bank and the row of each element, in order of the elements: row-major remainders and quotients."""
        places = [(0, 0)]
        for size, banks in self.dims:
            places = [(b * banks + i % banks, r * (size // banks) + i // banks) for b, r in places for i in range(size)]
        return places

    def flat(self, value):
        """The elements of nested lists, in order."""
        return [x for v in value for x in self.flat(v)] if isinstance(value, list) else [value]

    def nested(self, elements):
        """The elements in lists nested in order of indices."""
        for size, _ in self.dims[:0:-1]:
            elements = [elements[at:at + size] for at in range(0, len(elements), size)]
        return elements

    def banked(self, value):
        """For each bank the bits of its rows, of the elements of nested lists."""
        mask = 2 ** self.width - 1
        banks = [[0] * self.rows for _ in range(self.banks)]
        for (bank, row), element in zip(self.places(), self.flat(value)):
            banks[bank][row] = element & mask
        return banks

    def number_of(self, bits):
        """The number that bits stand for."""
        return bits - 2 ** self.width if self.signed and bits >> (self.width - 1) else bits


def head_of(text):
    """The lines of a text before its module."""
    return text[:text.find('module kernel(')]


def memories_of(text):
    """The memories of a text."""
    return [Memory(*found) for found in HEAD.findall(head_of(text))]


def faults_of(text):
    """What a text names its faults, in order: the outcomes of reports."""
    return [f'fault {kind} {place}' for kind, place in FAULT.findall(head_of(text))]
