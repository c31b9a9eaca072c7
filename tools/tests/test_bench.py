"""tools/bench: what it writes, and what keeps it from it. conformance/verilog runs its folders in the three tools."""
import os
import shutil
import subprocess
import unittest

from support import ToolCase, example, run_tool


class Benches(ToolCase):
    def made(self, name, *words):
        """The folder of a bench for an example."""
        folder = os.path.join(self.folder, 'made')
        status, out, err = run_tool('bench', example(f'{name}.fuse'), example(f'{name}.json'), '-o', folder, *words)
        self.assertEqual((status, err), (0, ''))
        return folder, out

    def text(self, *path):
        with open(os.path.join(self.folder, 'made', *path), encoding='utf-8') as file:
            return file.read()

    def icarus(self, folder):
        """The status and the last line of `make icarus`."""
        done = subprocess.run(['make', '-s', 'icarus'], cwd=folder, stdout=subprocess.PIPE, stderr=subprocess.STDOUT)
        return done.returncode, done.stdout.decode().strip().split('\n')

    def test_the_files(self):
        folder, out = self.made('dot_product')
        self.assertEqual(out, f'{folder}: expected: done after 10 clocks, 6 steps\n')
        self.assertEqual(sorted(os.listdir(folder)), ['Makefile', 'bench.v', 'data', 'harness.cpp', 'kernel.v'])
        self.assertEqual(self.text('data', 'm0_b1.start.hex'), '0002\n0004\n0006\n0008\n')
        self.assertIn('$dumpvars', self.text('bench.v'))
        for target in ('icarus:', 'verilator:', 'yosys:', 'synth', 'stat'):
            self.assertIn(target, self.text('Makefile'))

    def test_the_folder_is_named_after_the_program(self):
        status, _, _ = run_tool('bench', example('first.fuse'), example('first.json'), folder=self.folder)
        self.assertEqual((status, os.listdir(self.folder)), (0, ['first_bench']))

    @unittest.skipUnless(shutil.which('iverilog') and shutil.which('make'), 'no Icarus Verilog')
    def test_a_bench_that_passes_and_one_that_does_not(self):
        folder, _ = self.made('first')
        status, lines = self.icarus(folder)
        self.assertEqual((status, lines[-1]), (0, 'passed: done after 3 clocks, 2 steps'))
        self.assertIn('waves.vcd', os.listdir(folder))
        with open(os.path.join(folder, 'data', 'm1_b0.end.hex'), 'w', encoding='ascii') as file:
            file.write('00000009\n')
        status, lines = self.icarus(folder)
        self.assertNotEqual(status, 0)
        self.assertIn('B{0}[0]: 8, expected: 9', [line.strip() for line in lines])

    @unittest.skipUnless(shutil.which('iverilog') and shutil.which('make'), 'no Icarus Verilog')
    def test_a_run_that_is_cut(self):
        folder, out = self.made('dot_product', '--clocks', '4')
        self.assertIn('expected: going after 4 clocks, 2 steps', out)
        self.assertEqual(self.icarus(folder)[0], 0)

    def test_what_keeps_it_from_its_work(self):
        first, data = example('first.fuse'), example('first.json')
        self.refused('bench', first, data, '-o', self.folder, says='is there already')
        self.refused('bench', first, data, '-o', os.path.join(self.folder, 'no', 'made'), says='No such file')
        self.refused('bench', first, data, '-o', '', says='-o wants the name of a folder')
        self.refused('bench', first, data, '-o', '/proc/made', says='/proc/made cannot be made')
        self.refused('bench', first, data, '--clocks', '-1', says='--clocks wants a number', folder=self.folder)
        self.refused('bench', first, 'none.json', says='cannot read none.json', folder=self.folder)
        self.refused('bench', first, example('table.json'), says='table.json: bad data Missing "A"', folder=self.folder)
        self.refused('bench', first, self.write('d.json', 'x'), says='d.json: bad data NotJson', folder=self.folder)
        self.assertEqual(os.listdir(self.folder), ['d.json'])


if __name__ == '__main__':
    unittest.main()
