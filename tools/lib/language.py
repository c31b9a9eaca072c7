"""What docs/LANGUAGE.md says of a rule or a limit: its row in the index, and the paragraphs of its sections."""
import os
import re

from lib.calls import TOP, Trouble, reason

DOCUMENT = os.path.join('docs', 'LANGUAGE.md')
PIECE = re.compile(r'(?:(\d+(?:,\d+)*) × )?(`+)(.+?)\2(?!`)')


def cells_of(line):
    """The cells of a row of a table."""
    return [cell.strip() for cell in re.split(r'(?<!\\)\|', line)[1:-1]]


def plain(text):
    """A text without the signs of its form, bold and links; quotes of code stay."""
    return re.sub(r'\[([^\]]*)\]\([^)]*\)', r'\1', text).replace('**', '').replace('\\|', '|')


def program_in(cell):
    """A program of a table, as one line: what stands many times is not written out."""
    parts = []
    for times, _, text in PIECE.findall(cell):
        parts.append(f"{times} × '{text}'" if times else text)
    return ' '.join(parts).replace('\\|', '|') if parts else plain(cell)


def slug(heading):
    """The anchor of a heading."""
    return re.sub(r'[^\w\- ]', '', heading.replace('`', '').strip().lower()).replace(' ', '-')


class Block:
    """A paragraph, an item of a list, or a table."""

    def __init__(self, kind, text, rows=()):
        self.kind, self.text, self.rows = kind, text, list(rows)


def blocks_of(lines):
    """The blocks of a section, in order."""
    blocks, fenced = [], False
    for line in lines:
        if line.startswith('```'):
            fenced = not fenced
        elif fenced or not line.strip():
            blocks.append(Block('gap', ''))
        elif line.startswith('|'):
            if blocks and blocks[-1].kind == 'table':
                blocks[-1].rows.append(cells_of(line))
            else:
                blocks.append(Block('table', '', [cells_of(line)]))
        elif line.startswith('- '):
            blocks.append(Block('item', line[2:]))
        elif blocks and blocks[-1].kind in ('item', 'text'):
            blocks[-1].text += ' ' + line.strip()
        else:
            blocks.append(Block('text', line))
    return [block for block in blocks if block.kind != 'gap']


class Language:
    """The document, cut into sections."""

    def __init__(self, text):
        self.sections, lines = {}, []
        for line in text.split('\n'):
            heading = re.match(r'#+ +(.*)', line)
            if heading:
                lines = self.sections.setdefault(slug(heading.group(1)), [])
            else:
                lines.append(line)

    def blocks(self, section):
        return blocks_of(self.sections.get(section, []))

    def rows(self, section, first):
        """The rows of the section's tables whose first column is headed so, each by its heads."""
        found = []
        for block in self.blocks(section):
            if block.kind == 'table' and block.rows[0][0] == first:
                heads = block.rows[0]
                found += [dict(zip(heads, row)) for row in block.rows[2:]]
        return found

    def rule(self, rule):
        """The row of a rule in the index, as `K19 PortsSpent`, or None."""
        rows = self.rows('the-rules', 'Rule')
        return next((row for row in rows if row['Rule'] == f'`{rule}`'), None)

    def limit(self, limit):
        """The row of a limit in the index, and the one in the section that tells what is counted, or None."""
        row = next((row for row in self.rows('the-limits', 'Limit') if row['Limit'] == limit), None)
        counted = next((row for row in self.rows('limits', 'Name') if row['Name'] == limit), None)
        return row, counted

    def paragraphs(self, rule, row):
        """What the sections that a rule's row links say of it, as blocks: those in which its whole name stands, or,
        where a section has none, the first with its number."""
        found = []
        for anchor in re.findall(r'\(#([\w-]+)\)', row.get('More', '')):
            blocks = self.blocks(anchor)
            whole = [at for at, block in enumerate(blocks) if f'`{rule}`' in block.text]
            number = [at for at, block in enumerate(blocks) if f"`{rule.split()[0]}`" in block.text]
            for at in whole or number[:1]:
                found += [block for block in with_list(blocks, at) if block not in found]
        return found


def with_list(blocks, at):
    """A block, with the list or the table that it leads to."""
    found = [blocks[at]]
    if blocks[at].kind == 'text' and not re.search(r'[.!?)]$', blocks[at].text.strip()):
        for block in blocks[at + 1:]:
            if block.kind == 'text' or (block.kind == 'table' and found[1:]):
                break
            found.append(block)
    return found


def read_language():
    """The document of this checkout."""
    try:
        with open(os.path.join(TOP, DOCUMENT), encoding='utf-8') as file:
            return Language(file.read())
    except (OSError, UnicodeDecodeError) as fault:
        raise Trouble(f'cannot read {DOCUMENT}: {reason(fault) if isinstance(fault, OSError) else fault}') from None
