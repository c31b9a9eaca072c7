"""Data files and reports."""
import json
import math
import re

from .kinds import fits
from .shapes import product

DEEPEST = 127


class BadData(Exception):
    """A data file that does not suit the memories; the text behind `bad data`."""


class Float(float):
    """A number that is no whole number of 64 bits."""


def whole(text):
    """A number without point and exponent."""
    number = int(text) if len(text) < 40 else None
    if number is not None and text != '-0' and -2 ** 63 <= number < 2 ** 64:
        return number
    return real(text)


def real(text):
    """Any other number, which a float has to hold."""
    number = float(text)
    if math.isinf(number):
        raise ValueError(text)
    return Float(number)


def refuse(text):
    """`NaN` and the like are no JSON."""
    raise ValueError(text)


def depth(text):
    """The greatest number of open lists and objects of a JSON text."""
    open_now = most = 0
    for sign in re.findall(r'"(?:[^"\\]|\\.)*"|[\[\]{}]', text, re.DOTALL):
        if sign in '[{':
            open_now += 1
            most = max(most, open_now)
        elif sign in ']}':
            open_now -= 1
    return most


def parsed(content):
    """The value of a JSON text."""
    try:
        text = content.decode()
        if depth(text) > DEEPEST:
            raise ValueError('too deep')
        value = json.loads(text, parse_int=whole, parse_float=real, parse_constant=refuse)
        json.dumps(value, ensure_ascii=False).encode()
    except (ValueError, RecursionError):
        raise BadData('NotJson') from None
    if not isinstance(value, dict):
        raise BadData('NotJson')
    return value


def name_text(name):
    """A name as it is printed."""
    return json.dumps(name, ensure_ascii=False)


def elements(value, sizes, name):
    """The elements of nested lists, in row-major order."""
    if not sizes:
        if isinstance(value, list):
            raise BadData('Size ' + name_text(name))
        return [value]
    if not isinstance(value, list) or len(value) != sizes[0]:
        raise BadData('Size ' + name_text(name))
    return [element for inner in value for element in elements(inner, sizes[1:], name)]


def contents(entity, member):
    """The elements that a member gives a memory."""
    kind, name = entity.shape.kind, entity.name
    if not isinstance(member, dict) or 'data' not in member:
        raise BadData('Format ' + name_text(name))
    form = member.get('format', {})
    wanted = {'is_signed': kind[0] == 'bit', 'numeric_type': 'bitnum', 'width': kind[1]}
    right = isinstance(form, dict) and all(
        type(form[key]) is type(value) and form[key] == value for key, value in wanted.items() if key in form)
    if not right:
        raise BadData('Format ' + name_text(name))
    found = elements(member['data'], [size for size, _ in entity.shape.dims], name)
    for position, element in enumerate(found):
        if type(element) is not int or not fits(kind, element):
            raise BadData(f'Value {name_text(name)} {position}')
    return found


def read(outside, content):
    """The elements of the outside memories that a data file gives."""
    value = parsed(content)
    for entity in outside:
        if entity.name not in value:
            raise BadData('Missing ' + name_text(entity.name))
    names = {entity.name for entity in outside}
    unknown = sorted((name for name in value if name not in names), key=lambda name: name.encode())
    if unknown:
        raise BadData('Unknown ' + name_text(unknown[0]))
    return {entity: contents(entity, value[entity.name]) for entity in outside}


def zeros(entity):
    """The elements of a local memory as a run begins."""
    return [0] * product(size for size, _ in entity.shape.dims)


def nested(found, sizes):
    """Elements as nested lists."""
    if len(sizes) <= 1:
        return found
    inner = product(sizes[1:])
    return [nested(found[at:at + inner], sizes[1:]) for at in range(0, len(found), inner)]


def report(outside, memories, outcome, steps, clocks=None):
    """The line that reports how a run stands."""
    shown = {}
    for entity in outside:
        sort, width = entity.shape.kind
        shown[entity.name] = {
            'data': nested(memories[entity], [size for size, _ in entity.shape.dims]),
            'format': {'is_signed': sort == 'bit', 'numeric_type': 'bitnum', 'width': width}}
    value = {'memories': shown, 'outcome': outcome, 'steps': steps}
    if clocks is not None:
        value['clocks'] = clocks
    return json.dumps(value, sort_keys=True, separators=(',', ':'), ensure_ascii=False) + '\n'
