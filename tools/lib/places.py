"""A place of a program, shown as its line with a caret below."""
import unicodedata

# Of a long line so many characters are shown on each side of the place.
ASIDE = 60
CUT = '…'


def drawn(sign):
    """A character as it is shown: one that moves or hides others has a picture of its own."""
    if sign == '\t':
        return sign
    if ord(sign) < 32:
        return chr(0x2400 + ord(sign))
    return '\ufffd' if unicodedata.category(sign) in ('Cc', 'Cf', 'Cs', 'Cn', 'Zl', 'Zp') else sign


def blank(sign):
    """What stands in the caret's line below a character."""
    if sign == '\t':
        return sign
    if unicodedata.category(sign) in ('Mn', 'Me'):
        return ''
    return '  ' if unicodedata.east_asian_width(sign) in ('W', 'F') else ' '


def line_at(content, line):
    """The bytes of a line, counted from 1. The end of a text that ends with a line feed stands in an empty line."""
    lines = content.split(b'\n')
    return lines[line - 1].rstrip(b'\r') if line <= len(lines) else b''


def pointed(content, line, column):
    """Two lines, the program's line and a caret below the column, which counts bytes from 1."""
    text = line_at(content, line)
    before = ''.join(map(drawn, text[:column - 1].decode('utf-8', 'replace')))
    after = ''.join(map(drawn, text[column - 1:].decode('utf-8', 'replace')))
    if len(before) > ASIDE:
        before = CUT + before[-ASIDE:]
    if len(after) > ASIDE:
        after = after[:ASIDE] + CUT
    margin = f'{line} | '
    caret = ' ' * (len(margin) - 2) + '| ' + ''.join(map(blank, before)) + '^'
    return [margin + before + after, caret]
