"""examples/README.md: every program stands there once, with its data, its steps and its clocks, or its refusal; and what
is said of a change to a program is so."""
import glob
import json
import os
import re
import shutil
import subprocess
import tempfile
import unittest

from support import PATIENCE, PROGRAM, TOP

EXAMPLES = os.path.join(TOP, 'examples')
# A change of a program that the page speaks of, and what `simulate` then comes to: the clocks, or the line.
CHANGES = [
    ('first', '---', ';', 'refused K19 PortsSpent 1:63'),
    ('histogram', '    ---\n', '', 48),
    ('two_ports_wanted', 'table[0] := 3;', 'table[0] := 3 ---', 3),
    ('two_ports_wanted', 'ubit<32>[2]', 'ubit<32>{2}[2]', 'refused K20 ReadAfterWrite 4:26'),
    ('block_beside_a_store', '+ 1 }', '+ 1 } ---', 4),
    ('stencil_through_suffix', 'let left = window[i];', 'let left = a[4 * turn + i];', 'refused K11 DynamicBank 10:22'),
    ('stencil_through_suffix', 'let left = window[i];\n        ---\n', 'let left = window[i];\n', 'refused K19 PortsSpent 11:22'),
    ('stencil_through_shift', 'let left = window[i];\n        ---\n', 'let left = window[i];\n', 'refused K19 PortsSpent 12:22'),
    ('matrix_product_through_views', 'product[4 * i + j]', 'c[4 * i + j]', 'refused K11 DynamicBank 22:11'),
    ('matrix_product_through_views', '[by 2 * j];\n', '[by 2 * j];\n        ---\n', 80),
]


def simulated(name, folder=EXAMPLES):
    """The status and the output of `simulate` over a program of a folder and its data."""
    words = ['simulate', os.path.join(folder, f'{name}.fuse'), os.path.join(EXAMPLES, f'{name}.json')]
    done = subprocess.run([PROGRAM, *words], stdout=subprocess.PIPE, timeout=PATIENCE, check=False)
    return done.returncode, done.stdout.decode().strip()


def rows():
    """The rows of the tables: name, what it shows, steps and clocks."""
    with open(os.path.join(EXAMPLES, 'README.md'), encoding='utf-8') as file:
        lines = file.read().split('\n')
    cells = [[cell.strip() for cell in line.split('|')[1:-1]] for line in lines if line.startswith('| `')]
    return [(row[0].strip('`'), *row[1:]) for row in cells]


def worth(terms):
    """The number that a sum of products, as `1 + 4 x (2 + 2)`, is."""
    assert re.fullmatch(r'[\d +x()]+', terms), terms
    return eval(terms.replace('x', '*'))  # pylint: disable=eval-used


class Examples(unittest.TestCase):
    def test_every_program_stands_there_once(self):
        programs = sorted(os.path.basename(path)[:-5] for path in glob.glob(os.path.join(EXAMPLES, '*.fuse')))
        self.assertEqual(programs, sorted(row[0] for row in rows()))
        for name in programs:
            self.assertTrue(os.path.exists(os.path.join(EXAMPLES, f'{name}.json')), name)

    def test_refusals(self):
        refused = [row for row in rows() if '**Refused**' in row[1]]
        self.assertGreater(len(refused), 2)
        for name, what, steps, clocks in refused:
            line = re.search(r'`(refused [^`]*)` and status 1', what).group(1)
            self.assertEqual((1, line, '', ''), (*simulated(name), steps, clocks), name)

    def test_steps_and_clocks(self):
        for name, what, steps, clocks in rows():
            if '**Refused**' in what:
                continue
            outcome = re.search(r'outcome `([^`]*)`', what)
            status, out = simulated(name)
            report = json.loads(out)
            terms, _, total = clocks.rpartition(' = ')
            self.assertEqual(int(total), worth(terms or total), name)
            self.assertEqual((outcome.group(1) if outcome else 'done', int(steps), int(total)),
                             (report['outcome'], report['steps'], report['clocks']), name)
            self.assertEqual(3 if outcome else 0, status, name)

    def test_what_is_said_of_the_results(self):
        results = {'first': {'A': [7], 'B': [8]}}
        results.update((name, {'product': [120]}) for name, what, *_ in rows() if 'dot_product' in name and '**' not in what)
        results.update((name, {'counts': [1, 2, 2, 3, 1, 3, 1, 3]}) for name, *_ in rows() if name.startswith('histogram'))
        results.update((name, {'b': [2, 2, 2, 5, 6, 4, 4, 4]}) for name, *_ in rows() if name.startswith('stencil'))
        rows_of_c = [[32, 19, 41, 21], [76, 59, 105, 53], [120, 99, 169, 85], [164, 139, 233, 117]]
        products = [name for name, *_ in rows() if name.startswith('matrix_product')]
        results.update((name, {'c': sum(rows_of_c, []) if 'views' in name else rows_of_c}) for name in products)
        self.assertEqual(17, len(results))
        for name, memories in results.items():
            found = json.loads(simulated(name)[1])['memories']
            self.assertEqual(memories, {each: found[each]['data'] for each in memories}, name)

    def test_changes(self):
        for name, old, new, wanted in CHANGES:
            with open(os.path.join(EXAMPLES, f'{name}.fuse'), encoding='utf-8') as file:
                text = file.read()
            self.assertEqual(1, text.replace('`---`', '').count(old), f'{name}: {old}')
            with tempfile.TemporaryDirectory() as folder:
                with open(os.path.join(folder, f'{name}.fuse'), 'w', encoding='utf-8') as file:
                    file.write(text.replace(old, new))
                status, out = simulated(name, folder)
            self.assertEqual(wanted, out if status == 1 else json.loads(out)['clocks'], name)

    @unittest.skipUnless(shutil.which('iverilog') and shutil.which('vvp'), 'there is no Icarus Verilog')
    def test_the_bench(self):
        with open(os.path.join(EXAMPLES, 'README.md'), encoding='utf-8') as file:
            bench = file.read().split('\n## A test bench\n')[1]
        commands = re.findall(r'^    (.*)$', bench, re.M)
        wanted = re.findall(r'`([^`]*)`', bench.split('It prints ')[1])
        with tempfile.TemporaryDirectory() as folder:
            os.symlink(EXAMPLES, os.path.join(folder, 'examples'))
            os.symlink(PROGRAM, os.path.join(folder, 'dahlia'))
            done = subprocess.run(['sh', '-c', '\n'.join(commands)], cwd=folder, stdout=subprocess.PIPE, timeout=PATIENCE, check=False)
        self.assertEqual(wanted, done.stdout.decode().split('\n')[:-1])


if __name__ == '__main__':
    unittest.main()
