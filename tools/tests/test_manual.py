"""docs/dahlia.1: it has each job, option and status, its examples answer as they say there, and groff has nothing to say."""
import os
import re
import shutil
import subprocess
import unittest

from support import PATIENCE, PROGRAM, TOP

PAGE = os.path.join(TOP, 'docs', 'dahlia.1')
EXAMPLES = os.path.join(TOP, 'examples')


def answered(*words):
    """The status and the output of the program, which runs in examples/."""
    done = subprocess.run([PROGRAM, *words], cwd=EXAMPLES, stdout=subprocess.PIPE, timeout=PATIENCE, check=False)
    return done.returncode, done.stdout.decode()


def plain(text):
    """A text of the page without changes of font and escapes."""
    text = re.sub(r'\\f[BIR]', '', text).replace('\\-', '-').replace('\\(dq', '"')
    return re.sub(r'^\.(?:B|I|BI|BR|RB|IR) ', '', text, flags=re.M)


def sections():
    """The text of each section of the page by its name."""
    with open(PAGE, encoding='utf-8') as file:
        parts = re.split(r'^\.SH (.*)\n', file.read(), flags=re.M)[1:]
    return {name: plain(text) for name, text in zip(parts[::2], parts[1::2])}


class Manual(unittest.TestCase):
    def setUp(self):
        self.usage = answered()[1].strip().removeprefix('usage: dahlia ').split(' | ')
        self.sections = sections()

    def built(self):
        """The jobs of the synopsis, each with its options."""
        lines = re.findall(r'^dahlia (\w+)(.*)$', self.sections['SYNOPSIS'], re.M)
        return {job: re.findall(r'--\w+', words) for job, words in lines}

    def test_jobs_and_options_of_the_usage_line(self):
        for form in self.usage:
            job = form.split()[0]
            names = [job] + re.findall(r'--\w+', form)
            for name in names:
                is_built = job in self.built() and (name == job or name in self.built()[job])
                section = 'NOT BUILT' if not is_built else 'COMMANDS' if name == job else 'OPTIONS'
                self.assertRegex(self.sections[section], rf'(?m)(^|[" ,]){re.escape(name)}\b', f'{job} {name}')

    def test_what_is_built_and_nothing_else_is_taken(self):
        for form in self.usage:
            job = form.split()[0]
            files = [{'FILE': 'first.fuse', 'DATA': 'first.json'}.get(word, '1') for word in form.split('[')[0].split()[1:]]
            self.assertEqual(job in self.built(), answered(job, *files)[0] != 2, job)
            for option, number in re.findall(r'\[(--\w+)( N)?\]', form):
                status = answered(job, *files, option, *(['1'] if number else []))[0]
                self.assertEqual(option in self.built().get(job, []), status != 2, f'{job} {option}')

    def test_words_as_the_page_tells_them(self):
        files = ['first.fuse', 'first.json']
        self.assertEqual(0, answered('interpret', *files, '--unchecked', '--steps', '1000000000000')[0])
        for wrong in (['check', ''], ['check', '-x'], ['simulate', '--clocks', '1', *files],
                      ['simulate', *files, '--clocks', '03'], ['simulate', *files, '--clocks', '1000000000001'],
                      ['interpret', *files, '--unchecked', '--unchecked']):
            self.assertEqual(2, answered(*wrong)[0], wrong)

    def test_statuses_of_the_readme(self):
        with open(os.path.join(TOP, 'README.md'), encoding='utf-8') as file:
            table = file.read().split('\n| Status | Code |')[1].split('\n\n')[0]
        rows = [[cell.strip() for cell in line.split('|')[1:3]] for line in table.split('\n')[2:]]
        told = re.findall(r'^\.TP\n(\d+)\n(.*?)\.', self.sections['EXIT STATUS'], re.M)
        self.assertEqual([(code, names.replace(', ', ' or ')) for names, code in rows], told)

    def test_examples(self):
        lines = re.search(r'\.EX\n(.*?)\.EE', self.sections['EXAMPLES'], re.S).group(1)
        runs = re.findall(r'^\$ dahlia (.*)\n((?:[^$].*\n)+)', lines, re.M)
        self.assertGreater(len(runs), 2)
        for command, wanted in runs:
            done = subprocess.run(['sh', '-c', f'"$PROGRAM" {command}'], cwd=EXAMPLES, env={**os.environ, 'PROGRAM': PROGRAM},
                                  stdout=subprocess.PIPE, timeout=PATIENCE, check=False)
            text = done.stdout.decode()
            self.assertEqual(wanted, text if text.endswith('\n') else text + '\n', command)

    @unittest.skipUnless(shutil.which('groff'), 'there is no groff')
    def test_groff_says_nothing(self):
        done = subprocess.run(['groff', '-man', '-Tutf8', '-ww', '-z', PAGE], stderr=subprocess.PIPE, timeout=PATIENCE, check=False)
        self.assertEqual((0, b''), (done.returncode, done.stderr))

    @unittest.skipUnless(shutil.which('mandoc'), 'there is no mandoc')
    def test_mandoc_finds_no_error(self):
        done = subprocess.run(['mandoc', '-Tlint', '-Werror', PAGE], stdout=subprocess.PIPE, timeout=PATIENCE, check=False)
        self.assertEqual((0, b''), (done.returncode, done.stdout))


if __name__ == '__main__':
    unittest.main()
