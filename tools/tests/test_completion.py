"""The completion of the words of `dahlia` in bash: each word that it offers is taken by the program, and each job and
option that the program takes is offered."""
import os
import re
import shutil
import subprocess
import tempfile
import unittest

from support import PATIENCE, PROGRAM, TOP

BASH = shutil.which('bash')
COMPLETION = os.path.join(TOP, 'tools', 'completion', 'dahlia.bash')
PROGRAM_TEXT = 'decl A: ubit<8>[1]; A[0] := 1;'
DATA = '{"A":{"data":[0]}}'
ASKS = """source "$0"
COMP_WORDS=("$@") COMP_CWORD=$(($# - 1))
$(complete -p dahlia | sed 's/.*-F \\([^ ]*\\).*/\\1/')
[ ${#COMPREPLY[@]} -eq 0 ] || printf '%s\\n' "${COMPREPLY[@]}"
"""


def usage():
    """The jobs of the usage line, each with its words."""
    line = subprocess.run([PROGRAM], stdout=subprocess.PIPE, timeout=PATIENCE, check=False).stdout.decode()
    return {job.split()[0]: job for job in line.strip().removeprefix('usage: dahlia ').split(' | ')}


@unittest.skipUnless(BASH, 'there is no bash')
class Completion(unittest.TestCase):
    def setUp(self):
        self.folder = tempfile.TemporaryDirectory()
        self.addCleanup(self.folder.cleanup)
        for name, text in {'p.fuse': PROGRAM_TEXT, 'q r.fuse': PROGRAM_TEXT, 'd.json': DATA, 'notes.txt': ''}.items():
            with open(os.path.join(self.folder.name, name), 'w', encoding='utf-8') as file:
                file.write(text)
        os.mkdir(os.path.join(self.folder.name, 'sub'))

    def offered(self, *words):
        """What bash offers for the last of these words."""
        done = subprocess.run([BASH, '--norc', '-c', ASKS, COMPLETION, 'dahlia', *words], cwd=self.folder.name, timeout=PATIENCE,
                              stdout=subprocess.PIPE, stderr=subprocess.PIPE, check=False)
        self.assertEqual(b'', done.stderr)
        return sorted(done.stdout.decode().split('\n')[:-1])

    def is_taken(self, *words):
        """Whether the program takes these words, and does not answer with the usage line."""
        done = subprocess.run([PROGRAM, *words], cwd=self.folder.name, stdout=subprocess.DEVNULL, timeout=PATIENCE, check=False)
        return done.returncode != 2

    def test_jobs_are_those_that_the_program_takes(self):
        jobs = self.offered('')
        for job in usage():
            tries = [(job, *words) for words in ([], ['1'], ['p.fuse'], ['p.fuse', 'd.json'])]
            self.assertEqual(any(self.is_taken(*words) for words in tries), job in jobs, job)
        self.assertLessEqual(set(jobs), set(usage()))

    def test_options_are_those_that_the_program_takes(self):
        for job in self.offered(''):
            files = ['p.fuse', 'd.json'] if 'DATA' in usage()[job] else ['p.fuse']
            for option, number in re.findall(r'\[(--\w+)( N)?\]', usage()[job]):
                is_taken = self.is_taken(job, *files, option, *(['1'] if number else []))
                self.assertEqual(is_taken, option in self.offered(job, *files, ''), f'{job} {option}')

    def test_jobs_by_their_beginning(self):
        self.assertEqual(['check'], self.offered('c'))
        self.assertEqual([], self.offered('z'))

    def test_files(self):
        for job in self.offered(''):
            self.assertEqual(['p.fuse', 'q r.fuse', 'sub'], self.offered(job, ''))
        self.assertEqual(['d.json', 'sub'], self.offered('simulate', 'p.fuse', ''))
        self.assertEqual(['q r.fuse'], self.offered('check', 'q'))
        self.assertEqual(['notes.txt'], self.offered('check', 'no'))

    def test_an_option_once_and_no_word_for_a_number(self):
        self.assertEqual(['--steps', '--unchecked'], self.offered('interpret', 'p.fuse', 'd.json', ''))
        self.assertEqual(['--unchecked'], self.offered('interpret', 'p.fuse', 'd.json', '--steps', '3', '--'))
        self.assertEqual([], self.offered('interpret', 'p.fuse', 'd.json', '--steps', ''))
        self.assertEqual([], self.offered('check', 'p.fuse', ''))
        self.assertEqual([], self.offered('no-job', ''))


if __name__ == '__main__':
    unittest.main()
