"""The colours of editors/: every word, sign, number and comment form of docs/LANGUAGE.md, "Tokens", in Vim and by the
TextMate grammar; what the program refuses as no token is shown as an error, and nothing else is."""
import functools
import glob
import json
import os
import re
import shutil
import subprocess
import tempfile
import unittest

from support import PATIENCE, PROGRAM, TOP

EDITORS = os.path.join(TOP, 'editors')
GRAMMAR = os.path.join(EDITORS, 'textmate', 'dahlia.tmLanguage.json')
VIM = shutil.which('vim')
GOOD_NUMBERS = ['0', '7', '42', '0x0', '0xfF09', '18446744073709551615']
BAD_NUMBERS = ['01', '00', '0x', '0X1', '0xg', '12ab', '1_000', '7f']
# For each line of the file the names of the groups of its bytes, each with a comma behind it.
VIM_COLOURS = """
for line in range(1, line('$'))
  let names = []
  for column in range(1, len(getline(line)))
    call add(names, synIDattr(synID(line, column, 1), 'name'))
  endfor
  call add(answer, join(names + [''], ','))
endfor
"""
# What `:make` lists, and where the cursor stands then.
VIM_MAKE = """
compiler dahlia
silent make
for each in getqflist()
  call add(answer, each.lnum . ':' . each.col . ' ' . fnamemodify(bufname(each.bufnr), ':t') . ' ' . each.text)
endfor
call add(answer, line('.') . ':' . col('.'))
"""


def tokens_of_language():
    """The rows of the table of tokens: the quotes of each spelling by the token's name."""
    with open(os.path.join(TOP, 'docs', 'LANGUAGE.md'), encoding='utf-8') as file:
        section = file.read().split('\n## Tokens\n')[1].split('\n## ')[0]
    rows = [re.split(r'(?<!\\)\|', line)[1:-1] for line in section.split('\n') if line.startswith('|')]
    return {row[0].strip(): [quote.replace('\\|', '|') for quote in re.findall(r'`([^`]+)`', row[1])] for row in rows}


class Grammar:
    """What a TextMate grammar says of a text: patterns are tried in order at each place, and a `begin` lasts to its `end`."""

    def __init__(self, path):
        with open(path, encoding='utf-8') as file:
            self.grammar = json.load(file)
        self.patterns = self.flat(self.grammar['patterns'])

    def flat(self, patterns):
        """The patterns with those that are included in their place."""
        found = []
        for pattern in patterns:
            if 'include' in pattern:
                found += self.flat(self.grammar['repository'][pattern['include'][1:]]['patterns'])
            else:
                found.append((pattern['name'], re.compile(pattern.get('match') or pattern['begin']),
                              re.compile(pattern['end']) if 'end' in pattern else None))
        return found

    def first(self, line, at):
        """The pattern that matches first behind a place, with its match: the least place, then the order of the patterns."""
        matches = [(name, regex.search(line, at), end) for name, regex, end in self.patterns]
        return min((each for each in matches if each[1]), key=lambda each: each[1].start(), default=None)

    def classes(self, text):
        """The name of each character's pattern, or '', line by line."""
        lines, inside = [], None
        for line in text.split('\n'):
            names, at = [''] * len(line), 0
            while at < len(line):
                if inside:
                    closing = inside[1].search(line, at)
                    until = closing.end() if closing else len(line)
                    names[at:until] = [inside[0]] * (until - at)
                    at, inside = until, None if closing else inside
                    continue
                found = self.first(line, at)
                if found is None:
                    break
                name, match, end = found
                names[match.start():match.end()] = [name] * (match.end() - match.start())
                at, inside = match.end(), (name, end) if end else None
            lines.append(names)
        return lines


def vim_says(text, asks):
    """The lines that these commands add to the list `answer` in Vim, where a file p.fuse with this text is open. The
    folder editors/vim is found by a link, as a package of Vim."""
    with tempfile.TemporaryDirectory() as folder:
        source, script, answer, link = (os.path.join(folder, name) for name in ('p.fuse', 'ask.vim', 'answer', 'link'))
        os.symlink(os.path.join(EDITORS, 'vim'), link)
        with open(source, 'w', encoding='utf-8', newline='') as file:
            file.write(text + '\n')
        with open(script, 'w', encoding='utf-8') as file:
            file.write(f"set nocompatible runtimepath^={link} encoding=utf-8\nfiletype plugin on\nsyntax on\n"
                       f"edit {source}\nlet answer = []\n{asks}call writefile(answer, '{answer}')\nqall!\n")
        subprocess.run([VIM, '-u', 'NONE', '-i', 'NONE', '-n', '-es', '-S', script], stdin=subprocess.DEVNULL,
                       stdout=subprocess.DEVNULL, stderr=subprocess.DEVNULL, timeout=PATIENCE, check=False,
                       env={**os.environ, 'DAHLIA': PROGRAM})
        with open(answer, encoding='utf-8') as file:
            return file.read().split('\n')[:-1]


@functools.lru_cache(None)
def groups_that_are_errors():
    """The groups that the Vim file shows as errors."""
    with open(os.path.join(EDITORS, 'vim', 'syntax', 'dahlia.vim'), encoding='utf-8') as file:
        return set(re.findall(r'highlight default link (\w+) Error', file.read()))


def is_error(name):
    return name.startswith('invalid.') or name in groups_that_are_errors()


def is_comment(name):
    return name.startswith('comment.') or name == 'dahliaComment'


def is_no_token(text):
    """Whether the program refuses a text's first byte as no token."""
    with tempfile.NamedTemporaryFile('w', suffix='.fuse', encoding='utf-8', newline='') as file:
        file.write(text)
        file.flush()
        done = subprocess.run([PROGRAM, 'check', file.name], stdout=subprocess.PIPE, timeout=PATIENCE, check=False)
    return done.stdout.startswith(b'refused K1 Lex 1:1\n')


class Colours:
    """The tests, for one way to find the classes of a text."""

    def one_class(self, text):
        """The one class of all characters of each line of a text."""
        found = []
        for line, names in zip(text.split('\n'), self.classes(text)):
            self.assertEqual(1, len(set(names)), f'{line}: {names}')
            found.append(names[0])
        return found

    def test_words(self):
        words = tokens_of_language()['Word']
        self.assertGreater(len(words), 20)
        for word, name in zip(words, self.one_class('\n'.join(words))):
            self.assertTrue(name and not is_error(name) and 'variable' not in name, f'{word}: {name}')

    def test_words_that_are_kept_out(self):
        words = tokens_of_language()['Word that is kept out']
        self.assertGreater(len(words), 5)
        for word, name in zip(words, self.one_class('\n'.join(words))):
            self.assertTrue(is_error(name), f'{word}: {name}')

    def test_names_are_no_words(self):
        words = tokens_of_language()
        names = ['A', '_', 'x1', 'bitter', 'for_', '_if', 'As', 'double2', 'Bank']
        known = set(self.one_class('\n'.join(words['Word'])))
        for name, found in zip(names, self.one_class('\n'.join(names))):
            self.assertFalse(found in known or is_error(found), f'{name}: {found}')

    def test_signs(self):
        signs = tokens_of_language()['Sign']
        self.assertGreater(len(signs), 30)
        for sign, name in zip(signs, self.one_class('\n'.join(signs))):
            self.assertTrue(name and not is_error(name), f'{sign}: {name}')

    def test_the_divider_stands_out(self):
        signs = tokens_of_language()['Sign']
        names = dict(zip(signs, self.one_class('\n'.join(signs))))
        self.assertEqual(['---'], [sign for sign in signs if names[sign] == names['---']])

    def test_the_longest_sign_is_taken(self):
        names = self.classes('a---1\na--1\nubit<8>=\nx:=1')
        self.assertEqual(1, len(set(names[0][1:4])))
        self.assertNotEqual(names[0][1], names[1][1])
        self.assertEqual(names[2][6], names[2][7])
        self.assertEqual(names[3][1], names[3][2])

    def test_numbers(self):
        for text, name in zip(GOOD_NUMBERS, self.one_class('\n'.join(GOOD_NUMBERS))):
            self.assertTrue(name and not is_error(name) and not is_no_token(text), f'{text}: {name}')
        for text, name in zip(BAD_NUMBERS, self.one_class('\n'.join(BAD_NUMBERS))):
            self.assertTrue(is_error(name) and is_no_token(text), f'{text}: {name}')

    def test_bytes_that_begin_no_token_are_errors(self):
        lines = [chr(code) for code in range(33, 127)] + ['é', '!x', '.x', '. .', '!', '~']
        for text, names in zip(lines, self.classes('\n'.join(lines))):
            self.assertEqual(is_no_token(text), is_error(names[0]), f'{text!r}: {names[0]}')
        self.assertTrue(is_error(self.classes('0...2')[0][3]))

    def test_comments(self):
        whole = ['// /* let', '/**/', '/* // */', '/* * / */', '//', '///*', '/* "é" @ */']
        for text, name in zip(whole, self.one_class('\n'.join(whole))):
            self.assertTrue(is_comment(name), f'{text}: {name}')

    def test_a_comment_lasts_to_its_end_and_no_further(self):
        names = self.classes('/*/ let\nlet */let // let\nlet /* a /* b */let')
        self.assertTrue(all(is_comment(name) for name in names[0] + names[1][:6] + names[1][10:] + names[2][4:16]))
        self.assertFalse(any(is_comment(name) for name in names[1][6:9] + names[2][:3] + names[2][16:]))

    def test_no_example_has_an_error(self):
        for path in sorted(glob.glob(os.path.join(TOP, 'examples', '*.fuse'))):
            with open(path, encoding='utf-8') as file:
                text = file.read()
            for number, names in enumerate(self.classes(text), 1):
                self.assertFalse(any(map(is_error, names)), f'{path}:{number}')


class TextMate(Colours, unittest.TestCase):
    grammar = Grammar(GRAMMAR)

    def classes(self, text):
        return self.grammar.classes(text)

    def test_the_package_names_what_is_there(self):
        with open(os.path.join(EDITORS, 'textmate', 'package.json'), encoding='utf-8') as file:
            package = json.load(file)['contributes']
        for each in package['grammars']:
            self.assertEqual(self.grammar.grammar['scopeName'], each['scopeName'])
        paths = [each['path'] for each in package['grammars']] + [each['configuration'] for each in package['languages']]
        for path in paths:
            with open(os.path.join(EDITORS, 'textmate', path), encoding='utf-8') as file:
                json.load(file)


@unittest.skipUnless(VIM, 'there is no vim')
class Vim(Colours, unittest.TestCase):
    def classes(self, text):
        return [line.split(',')[:-1] for line in vim_says(text, VIM_COLOURS)]

    def test_the_file_is_known_by_its_name(self):
        self.assertEqual(['dahlia', '// %s'], vim_says('', 'let answer = [&filetype, &commentstring]\n'))

    def test_make_jumps_to_the_place_of_a_refusal(self):
        listed, place = vim_says('decl A: ubit<8>[1];\nA[0] := 1; A[0] := 2;', VIM_MAKE)
        self.assertRegex(listed, r'\A2:12 p\.fuse K19 PortsSpent: ')
        self.assertEqual('2:12', place)
        self.assertEqual(['1:1'], vim_says('decl A: ubit<8>[1];', VIM_MAKE))
        self.assertRegex(vim_says('decl A: ubit<8>{9}[1];', VIM_MAKE)[0], r'\A0:0 p\.fuse too large Ports: 9')


if __name__ == '__main__':
    unittest.main()
