"""tools/explain: its first line, the line of the program with the caret, and what it reads of the document."""
import os
import re
import unittest

from support import TOP, ToolCase, example, run_tool
from lib.language import Language, read_language
from lib.places import pointed


class Explaining(ToolCase):
    def explained(self, text):
        """The status and the lines for a program."""
        self.write('p.fuse', text)
        status, out, err = run_tool('explain', 'p.fuse', folder=self.folder)
        self.assertEqual(err, '')
        return status, out.split('\n')

    def test_an_accepted_program(self):
        self.assertEqual(self.explained('let x = 1;'), (0, ['p.fuse: ok', '']))

    def test_a_refused_program(self):
        status, out, _ = run_tool('explain', example('two_ports_wanted.fuse'))
        lines = out.split('\n')
        self.assertEqual(status, 1)
        self.assertRegex(lines[0], r'two_ports_wanted\.fuse:4:26: error: K19 PortsSpent: accesses that may meet')
        self.assertEqual(lines[1], '4 | table[0] := 3; sum[0] := table[1] + 1;')
        self.assertEqual(lines[2].index('^'), lines[1].index('table[1]'))
        self.assertIn('K19 PortsSpent, as docs/LANGUAGE.md tells it:', lines)
        self.assertIn('  accepted  decl A: ubit<8>[1]; A[0] := 1 --- A[0] := 2;', lines)

    def test_a_program_that_is_too_large(self):
        status, lines = self.explained('decl A: ubit<8>[9000][9000];')
        self.assertEqual(status, 6)
        self.assertEqual(lines[0], 'p.fuse: error: too large Elements: 81000000, where the greatest is 1048576')
        self.assertIn('  counted are elements of all memories together, local ones among them', lines)
        status, lines = self.explained(';' * 3000000)
        self.assertEqual((status, lines[0]), (6, 'p.fuse: error: too large Source: 1048577, where the greatest is 1048576'))

    def test_the_end_of_a_text(self):
        status, lines = self.explained('{\n')
        self.assertEqual((status, lines[1:3]), (1, ['2 | ', '  | ^']))

    def test_bytes_that_are_no_text(self):
        status, lines = self.explained(b'let x = 1; \xff\xfe\x00\x1b[31m')
        self.assertEqual(status, 1)
        self.assertEqual(lines[1], '1 | let x = 1; \ufffd\ufffd␀␛[31m')


class Carets(unittest.TestCase):
    def test_tabs_stand_in_both_lines(self):
        self.assertEqual(pointed(b'\n\tx\t:= 1;\n', 2, 4), ['2 | \tx\t:= 1;', '  | \t \t^'])

    def test_wide_and_combining_characters(self):
        text = '/* 漢e\u0301 */ x'.encode()
        self.assertEqual(pointed(text, 1, text.index(b'x') + 1)[1], '  | ' + ' ' * 10 + '^')

    def test_a_line_feed_of_two_bytes(self):
        self.assertEqual(pointed(b'x\r\ny\r\n', 2, 1), ['2 | y', '  | ^'])

    def test_a_long_line_is_cut_on_both_sides(self):
        line, caret = pointed(b'a' * 5000 + b'X' + b'b' * 5000, 1, 5001)
        self.assertLess(len(line), 140)
        self.assertEqual(line[caret.index('^')], 'X')


class Reading(unittest.TestCase):
    def test_each_rule_of_the_index_has_its_paragraph_and_its_neighbours(self):
        language = read_language()
        rows = [row for row in language.rows('the-rules', 'Rule') if 'More' in row]
        self.assertGreaterEqual(len(rows), 18)
        for row in rows:
            rule = row['Rule'].strip('`')
            with self.subTest(rule=rule):
                self.assertEqual(language.rule(rule), row)
                told = ' '.join(block.text for block in language.paragraphs(rule, row))
                self.assertIn(f'`{rule.split()[0]}', told)
                self.assertTrue(row['Nearest accepted program'])

    def test_each_limit_that_check_tells_is_counted(self):
        language = read_language()
        for limit in ('Source', 'Brackets', 'Operators', 'ElseIfs', 'Dimensions', 'Banks', 'Ports', 'Copies', 'Elements'):
            row, counted = language.limit(limit)
            self.assertTrue(row['Nearest accepted program'] and re.fullmatch('[0-9,]+', counted['Greatest']))
        self.assertEqual(language.limit('Nonsense'), (None, None))

    def test_no_rule_of_another_document(self):
        self.assertIsNone(Language('# The rules\n').rule('K1 Lex'))

    def test_nothing_of_the_document_stands_in_the_tool(self):
        with open(os.path.join(TOP, 'tools', 'explain'), encoding='utf-8') as file:
            self.assertIsNone(re.search(r'PortsSpent|1048576', file.read()))


if __name__ == '__main__':
    unittest.main()
