"""docs/COMING_FROM.md: each program there answers as the lines behind it say, and data go round as it says."""
import json
import os
import re
import subprocess
import tempfile
import unittest

from support import PATIENCE, PROGRAM, TOP

DOCUMENT = os.path.join(TOP, 'docs', 'COMING_FROM.md')
BLOCK = re.compile(r'^```\n(.*?)\n```\n(.*?)$', re.M | re.S)
# What a line behind a program can say.
CHECKED = re.compile(r'`check` answers `([^`]*)`\. ?')
CHANGED = re.compile(r'With `([^`]*)` in the place of `([^`]*)`, `check` answers `([^`]*)`\. ?')
RUN = re.compile(r'`simulate` from ([^:]*?) answers `([^`]*)`: (\d+) steps?, (\d+) clocks?((?:, \w+ `[^`]*`)*)\. ?')
CONTENTS = re.compile(r'(\w+) `(\[[^`]*\])`')
MEMORY = re.compile(r'^// memory \d+ (\w+) \w+ \d+ ports \d+ dims (\S+) outside$', re.M)


def answer(job, text, data=None):
    """The status and the output of a job over a program's text and data."""
    with tempfile.TemporaryDirectory() as folder:
        paths = [os.path.join(folder, name) for name in ('p.fuse', 'd.json')]
        for path, content in zip(paths, (text, json.dumps(data))):
            with open(path, 'w', encoding='utf-8', newline='') as file:
                file.write(content)
        words = [PROGRAM, job, *(paths if data is not None else paths[:1])]
        done = subprocess.run(words, stdout=subprocess.PIPE, timeout=PATIENCE, check=False)
    return done.returncode, done.stdout.decode()


def zeros(sizes):
    """Lists of zeros, nested by sizes."""
    return [zeros(sizes[1:]) for _ in range(sizes[0])] if sizes else 0


def data_of(text, contents):
    """The data of a program: these contents, and zeros for its other memories."""
    shapes = {name: [int(each.split(':')[0]) for each in dims.split('x')] for name, dims in MEMORY.findall(answer('lower', text)[1])}
    assert set(contents) <= set(shapes), (contents, shapes)
    return {name: {'data': contents.get(name, zeros(sizes))} for name, sizes in shapes.items()}


class ComingFrom(unittest.TestCase):
    def judge(self, text, wanted):
        status, out = answer('check', text)
        self.assertEqual((0 if wanted == 'ok' else 1, wanted + '\n'), (status, out), text)

    def run_it(self, text, contents, outcome, steps, clocks, memories):
        status, out = answer('simulate', text, data_of(text, contents))
        report = json.loads(out)
        self.assertEqual((0 if outcome == 'done' else 3, outcome, steps, clocks),
                         (status, report['outcome'], report['steps'], report['clocks']), text)
        self.assertEqual(memories, {name: report['memories'][name]['data'] for name in memories}, text)

    def say(self, text, said):
        """Tries what stands behind a program; gives what of it is no such sentence."""
        for changed in CHANGED.finditer(said):
            new, old, wanted = changed.groups()
            self.assertEqual(1, text.count(old), f'{old} in {text}')
            self.judge(text.replace(old, new), wanted)
        said = CHANGED.sub('', said)
        for wanted in CHECKED.findall(said):
            self.judge(text, wanted)
        said = CHECKED.sub('', said)
        for start, outcome, steps, clocks, end in RUN.findall(said):
            given, left = [{name: json.loads(value) for name, value in CONTENTS.findall(part)} for part in (start, end)]
            self.assertTrue(given or start == 'zeros', start)
            self.run_it(text, given, outcome, int(steps), int(clocks), left)
        return RUN.sub('', said)

    def test_programs(self):
        with open(DOCUMENT, encoding='utf-8') as file:
            page = file.read()
        blocks = BLOCK.findall(page)
        self.assertEqual(page.count('\n```\n') // 2, len(blocks))
        self.assertGreater(len(blocks), 25)
        for text, said in blocks:
            self.assertLessEqual(text.count('\n'), 2, text)
            self.assertEqual('', self.say(text, said), text)
            self.assertNotEqual('', said, text)

    def test_data_go_round(self):
        text = 'decl A: bit<8>[2][2 bank 2]; A[1][0] := A[0][1] + 1;'
        first = json.loads(answer('simulate', text, {'A': {'data': [[1, -128], [3, 4]]}})[1])
        self.assertEqual([[1, -128], [-127, 4]], first['memories']['A']['data'])
        again = json.loads(answer('simulate', text, first['memories'])[1])
        self.assertEqual(first['memories'], again['memories'])

    def test_data_that_do_not_fit(self):
        text = 'decl A: ubit<32>[2];'
        good = {'numeric_type': 'bitnum', 'is_signed': False, 'width': 32}
        self.assertEqual(0, answer('simulate', text, {'A': {'data': [1, 2], 'format': good}})[0])
        self.assertEqual(0, answer('simulate', text, {'A': {'data': [1, 2]}})[0])
        for other in ({'width': 16}, {'is_signed': True}, {'numeric_type': 'fixed_point', 'int_width': 16}):
            wrong = {'A': {'data': [1, 2], 'format': {**good, **other}}}
            self.assertEqual((5, 'bad data Format "A"\n'), answer('simulate', text, wrong))


if __name__ == '__main__':
    unittest.main()
