"""Tokens, and what the limits count of them."""
import re

from . import Refused, TooLarge

WORDS = set('decl def let view shrink suffix shift split by for while if else unroll combine bank bit '
            'ubit bool true false as'.split())
OUT_WORDS = set('float double fix ufix record import decor return'.split())
SIGNS = ['---', '..', ':=', '==', '!=', '<=', '>=', '<<', '>>', '&&', '||', '+=', '-=', '*=', '/=',
         '(', ')', '[', ']', '{', '}', ',', ';', ':', '=', '<', '>', '+', '-', '*', '/', '%', '&', '|', '^']
OPERATORS = set('+ - * / % & | ^ << >> < > <= >= == != && ||'.split())
DIVIDERS = {';', '{', '}', '---'}

BLANK = re.compile(rb'[ \t\r\n]+')
LINE_COMMENT = re.compile(rb'//[^\n]*')
BLOCK_COMMENT = re.compile(rb'/\*.*?\*/', re.DOTALL)
NAME = re.compile(rb'[A-Za-z_][A-Za-z0-9_]*')
DIGITS = re.compile(rb'[0-9][A-Za-z0-9_]*')
NUMBER = re.compile(rb'0|[1-9][0-9]*|0x[0-9a-fA-F]+')
SIGN = re.compile(b'|'.join(re.escape(sign.encode()) for sign in SIGNS))


class Token:
    """A token: `sort` is 'name', 'number', 'end', or the spelling of a word or a sign."""
    __slots__ = ('sort', 'value', 'place')

    def __init__(self, sort, value, place):
        self.sort, self.value, self.place = sort, value, place


def number_of(spelling, place):
    """The number that a run of letters and digits spells."""
    if not NUMBER.fullmatch(spelling):
        raise Refused(1, place)
    # No number within the limit has more digits, and Python converts no text of thousands of them.
    digits = spelling[2:].lstrip(b'0') if spelling.startswith(b'0x') else spelling
    if len(digits) > 20:
        raise Refused(1, place)
    value = int(spelling, 16 if spelling.startswith(b'0x') else 10)
    if value >= 2 ** 64:
        raise Refused(1, place)
    return value


def token_at(text, at, place):
    """The token that begins at a byte, with the byte behind it."""
    found = NAME.match(text, at)
    if found:
        name = found.group().decode()
        sort = name if name in WORDS or name in OUT_WORDS else 'name'
        return Token(sort, name, place), found.end()
    found = DIGITS.match(text, at)
    if found:
        return Token('number', number_of(found.group(), place), place), found.end()
    found = SIGN.match(text, at)
    if not found:
        raise Refused(1, place)
    sign = found.group().decode()
    return Token(sign, sign, place), found.end()


def lex(text):
    """The tokens of a text, the last of them 'end'."""
    tokens, at, line, start = [], 0, 1, 0
    while at < len(text):
        place = (line, at - start + 1)
        passed = BLANK.match(text, at) or LINE_COMMENT.match(text, at)
        if not passed and text.startswith(b'/*', at):
            passed = BLOCK_COMMENT.match(text, at)
            if not passed:
                raise Refused(1, place)
        if passed:
            feeds = text.count(b'\n', at, passed.end())
            if feeds:
                line += feeds
                start = text.rfind(b'\n', at, passed.end()) + 1
            at = passed.end()
        else:
            token, at = token_at(text, at, place)
            tokens.append(token)
    tokens.append(Token('end', None, (line, at - start + 1)))
    return tokens


def count(tokens):
    """The greatest number of open brackets, of operators between dividers, and of `else if`."""
    brackets = most_brackets = operators = most_operators = else_ifs = 0
    before = None
    for token in tokens:
        sort = token.sort
        if sort in ('(', '[', '{'):
            brackets += 1
            most_brackets = max(most_brackets, brackets)
        elif sort in (')', ']', '}'):
            brackets = max(0, brackets - 1)
        if sort in DIVIDERS:
            operators = 0
        elif sort in OPERATORS:
            operators += 1
            most_operators = max(most_operators, operators)
        if sort == 'if' and before == 'else':
            else_ifs += 1
        before = sort
    return most_brackets, most_operators, else_ifs


def within_limits(tokens):
    """Raises the first limit on tokens that is exceeded."""
    brackets, operators, else_ifs = count(tokens)
    if brackets > 64:
        raise TooLarge('Brackets', brackets)
    if operators > 128:
        raise TooLarge('Operators', operators)
    if else_ifs > 64:
        raise TooLarge('ElseIfs', else_ifs)
