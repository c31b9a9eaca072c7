"""tools/zeros: its data files have the shape that `simulate` reads."""
import json
import subprocess
import unittest

from support import PROGRAM, ToolCase, run_tool

KINDS = 'decl A: bit<3>[2][4 bank 2][3]; decl B: ubit<64>[1]; decl c: ubit<1>{2}[8 bank 4]; let m: ubit<8>[4]; m[0] := 1;'


class Zeros(ToolCase):
    def data(self, *words, text=KINDS):
        """The data file of a program, which `simulate` must take."""
        path = self.write('p.fuse', text)
        status, out, err = run_tool('zeros', path, *words)
        self.assertEqual((status, err), (0, ''))
        answer = subprocess.run([PROGRAM, 'simulate', path, self.write('d.json', out)], stdout=subprocess.PIPE)
        self.assertEqual(answer.returncode, 0, answer.stdout)
        return out

    def test_zeros_of_every_outside_memory(self):
        data = json.loads(self.data())
        self.assertEqual(list(data), ['A', 'B', 'c'])
        self.assertEqual(data['A'], {'data': [[[0] * 3] * 4] * 2, 'format': {'is_signed': True, 'numeric_type': 'bitnum', 'width': 3}})
        self.assertEqual((data['B']['data'], data['c']['data']), ([0], [0] * 8))

    def test_random_values_by_their_seed(self):
        first = self.data('--random', 'seed')
        self.assertEqual(first, self.data('--random', 'seed'))
        self.assertNotEqual(first, self.data('--random', 'other'))
        values = [x for plane in json.loads(first)['A']['data'] for row in plane for x in row]
        self.assertTrue(all(-4 <= x < 4 for x in values) and min(values) < 0)

    def test_a_program_without_memories(self):
        self.assertEqual(self.data(text=''), '{}\n')

    def test_data_that_the_program_would_not_read(self):
        path = self.write('p.fuse', 'decl A: ubit<64>[1048576];')
        self.refused('zeros', path, '--random', '1', says='and the program reads 16777216')


if __name__ == '__main__':
    unittest.main()
