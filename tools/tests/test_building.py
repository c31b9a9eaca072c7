"""The script `dahlia`: how it tells how far a build of the program is, with a command `rt` that only plays one."""
import os
import pty
import re
import select
import shutil
import signal
import subprocess
import tempfile
import time
import unittest

from support import PATIENCE, PROGRAM, TOP

# Plays a build: says the lines of the file `lines`, of which `sleep` takes a while, and leaves the program.
RT = """#!/bin/sh
echo "$PWD $*" >>"$ROOM/calls"
while IFS= read -r line; do
    case $line in sleep) sleep 300 ;; *) echo "$line" >&2 ;; esac
done <"$ROOM/lines"
[ ! -e "$ROOM/fails" ] || exit 1
mkdir -p out && cp "$PROGRAM_TO_BUILD" out/dahlia
"""


def begins(name):
    return f'rt: chose --jobs 2 for {name}'


def hear_interrupts():
    """Of a process that is about to begin: what a script runs in the background begins with interrupts ignored, and so
    would all that it calls."""
    signal.signal(signal.SIGINT, signal.SIG_DFL)


class Building(unittest.TestCase):
    def setUp(self):
        room = tempfile.TemporaryDirectory()
        self.addCleanup(room.cleanup)
        self.room, self.top = room.name, os.path.join(room.name, 'a checkout')
        for path in ('dahlia', 'crates.txt', 'docs/PROVING.md'):
            os.makedirs(os.path.dirname(os.path.join(self.top, path)), exist_ok=True)
            shutil.copy(os.path.join(TOP, path), os.path.join(self.top, path))
        for path in ('src', 'specs', 'proofs', 'data'):
            os.makedirs(os.path.join(self.top, 'crates', 'dahlia', path))
        for path in ('bin', 'temporary'):
            os.mkdir(os.path.join(self.room, path))
        self.write('bin/rt', RT)
        os.chmod(os.path.join(self.room, 'bin', 'rt'), 0o755)
        self.environment = {**os.environ, 'ROOM': self.room, 'TMPDIR': os.path.join(self.room, 'temporary'), 'TERM': 'xterm',
                            'PROGRAM_TO_BUILD': PROGRAM, 'PATH': os.path.join(self.room, 'bin') + os.pathsep + os.environ['PATH']}
        self.order = self.crates()

    def write(self, path, text):
        with open(os.path.join(self.room, path), 'w', encoding='utf-8') as file:
            file.write(text)

    def play(self, lines):
        self.write('lines', ''.join(line + '\n' for line in lines))

    def calls(self):
        try:
            with open(os.path.join(self.room, 'calls'), encoding='utf-8') as file:
                return file.read().split('\n')[:-1]
        except FileNotFoundError:
            return []

    def start(self, *words, **how):
        return subprocess.Popen([os.path.join(self.top, 'dahlia'), *words], env=self.environment, stdin=subprocess.DEVNULL, **how)

    def run_piped(self, *words):
        """The status, the output and the lines on standard error of a call whose output is no terminal."""
        with self.start(*words, stdout=subprocess.PIPE, stderr=subprocess.PIPE) as call:
            out, error = call.communicate(timeout=PATIENCE)
        return call.returncode, out.decode(), error.decode().split('\n')[:-1]

    def crates(self):
        """The crates of the program, each behind those that it uses."""
        with open(os.path.join(TOP, 'crates.txt'), encoding='utf-8') as file:
            lines = [line.split('#')[0].split(':') for line in file if ':' in line.split('#')[0]]
        uses, order = {name.split()[0]: below.split() for name, below in lines}, []

        def visit(name):
            if name in uses and name not in order:
                for each in uses[name]:
                    visit(each)
                order.append(name)
        visit('dahlia')
        return order

    def test_a_line_a_crate_where_there_is_no_terminal(self):
        self.play(line for name in self.order for line in (begins(name), 'so far: 3 of 9 functions checked', f'crate {name}: ..'))
        status, out, error = self.run_piped()
        self.assertEqual((2, 'usage: '), (status, out[:7]))
        count = len(self.order)
        told = [line for line in error if ' proving ' in line]
        self.assertEqual([f'dahlia: proving {name}, crate {number} of {count}' for number, name in enumerate(self.order, 1)],
                         [line.rsplit(', ', 1)[0] for line in told])
        self.assertTrue(all(re.search(r', about \d+ (s|min) left$', line) for line in told))
        self.assertFalse(any('\r' in line for line in error))
        self.assertRegex(error[-1], r'^dahlia: built in \d+ s$')
        self.assertEqual([], os.listdir(os.path.join(self.room, 'temporary')))

    def test_what_is_built_is_not_built_again(self):
        self.play([])
        self.run_piped()
        status, out, error = self.run_piped('check', os.path.join(TOP, 'examples', 'first.fuse'))
        self.assertEqual((0, 'ok\n', []), (status, out, error))
        folder = os.path.join(self.top, 'crates', 'dahlia')
        self.assertEqual([f'{folder} run -- simulate data/first.fuse data/first.json'], self.calls())
        later = time.time() + 10
        os.utime(os.path.join(folder, 'specs'), (later, later))
        self.run_piped()
        self.assertEqual(2, len(self.calls()))

    def test_the_estimate_is_that_of_the_table(self):
        with open(os.path.join(TOP, 'docs', 'PROVING.md'), encoding='utf-8') as file:
            rows = re.findall(r'^\| `(\w+)` \| [^|]* \| (\d+) \|', file.read(), re.M)
        seconds = {name: int(proof) for name, proof in rows}
        self.assertGreater(len(set(self.order) & set(seconds)), 0.8 * len(self.order))
        left = [sum(seconds.get(name, 15) for name in self.order[at:]) for at in range(len(self.order))]
        self.play([begins(self.order[0])])
        error = self.run_piped()[2]
        self.assertIn(f'about {left[0] // 60} minutes where none are', ' '.join(error))
        self.assertIn(f'dahlia: proving {self.order[0]}, crate 1 of {len(self.order)}, about {(left[0] + 30) // 60} min left', error)
        shutil.rmtree(os.path.join(self.top, 'crates', 'dahlia', 'out'))
        self.play([begins(self.order[-1])])
        told = f'{left[-1]} s' if left[-1] < 90 else f'{(left[-1] + 30) // 60} min'
        self.assertIn(f'dahlia: proving dahlia, crate {len(self.order)} of {len(self.order)}, about {told} left', self.run_piped()[2])

    def test_the_estimate_goes_by_the_time_that_crates_took(self):
        self.write('bin/date', '#!/bin/sh\necho . >>"$ROOM/clock"\nwc -l <"$ROOM/clock"\n')
        os.chmod(os.path.join(self.room, 'bin', 'date'), 0o755)
        table = '| `dh_value` | 1 | 40 |\n| `dh_base` | 1 | 60 |\n| `dh_tree` | 1 | 500 |\n| `dahlia` | 1 | 400 |\n'
        self.write('a checkout/docs/PROVING.md', table)
        self.write('a checkout/crates.txt', 'dh_base:\ndh_value: std\ndh_tree: dh_value dh_base\ndahlia: dh_tree\n')
        self.play(map(begins, ['dh_value', 'dh_base', 'dh_tree', 'dahlia']))
        told = [line.rsplit(', ', 1)[1] for line in self.run_piped()[2] if ' proving ' in line]
        # The clock goes on by a second each time that it is asked: at dh_tree 1 s for the 100 of two crates.
        self.assertEqual(['about 17 min left', 'about 16 min left', 'about 9 s left', 'about 1 s left'], told)

    def test_without_a_table_each_crate_is_a_small_one(self):
        os.remove(os.path.join(self.top, 'docs', 'PROVING.md'))
        self.play([begins('dahlia')])
        status, _, error = self.run_piped()
        self.assertEqual(2, status)
        self.assertIn(f'dahlia: proving dahlia, crate {len(self.order)} of {len(self.order)}, about 15 s left', error)

    def test_other_lines_of_rt_are_passed_over(self):
        self.play([begins('std'), 'rt: chose --jobs', 'so far', '', 'rt: waiting for another rt to finish in here'])
        status, _, error = self.run_piped()
        self.assertEqual(2, status)
        self.assertEqual([], [line for line in error if 'proving' in line])
        self.assertIn('dahlia: waiting for another rt to finish in here', error)

    def run_on_a_terminal(self):
        """The lines on standard error of a call without words where that is a terminal."""
        ours, theirs = pty.openpty()
        with self.start(stdout=subprocess.DEVNULL, stderr=theirs):
            os.close(theirs)
            seen = b''
            while select.select([ours], [], [], PATIENCE)[0]:
                try:
                    piece = os.read(ours, 4096)
                except OSError:
                    break
                if not piece:
                    break
                seen += piece
        os.close(ours)
        return seen.decode().replace('\r\n', '\n').split('\n')

    def test_one_line_that_is_rewritten_on_a_terminal(self):
        self.play(['so far: 1 of 9 functions checked', begins(self.order[0]), 'so far: 3 of 9 functions checked',
                   'so far: all functions checked', begins(self.order[1])])
        lines = self.run_on_a_terminal()
        one = next(line for line in lines if 'proving' in line).split('\r\x1b[K')
        self.assertEqual(f'dahlia: proving {self.order[0]}, crate 1 of {len(self.order)}', one[2].rsplit(', ', 1)[0])
        self.assertRegex(one[3], rf"\A{one[2].rsplit(', ', 1)[0]}, about \d+ (s|min) left \[3/9\]\Z")
        self.assertIn(f'proving {self.order[1]}, crate 2 ', one[4])
        self.assertTrue(one[-1].startswith('dahlia: built in '))

    def test_the_line_fits_a_terminal(self):
        longest = max(self.order, key=len)
        self.play([begins(longest), 'so far: 100 of 122 functions checked'])
        told = [part for line in self.run_on_a_terminal() for part in line.split('\r\x1b[K') if '[100/122]' in part]
        self.assertTrue(told and len(told[0]) < 78, told)

    def test_a_build_that_fails(self):
        self.play([begins(self.order[0]), 'error: the reason'])
        self.write('fails', '')
        status, out, error = self.run_piped('check', 'p.fuse')
        self.assertEqual((70, ''), (status, out))
        self.assertIn('error: the reason', error)
        self.assertEqual('dahlia: the build failed, so nothing was run', error[-1])
        self.assertEqual([], os.listdir(os.path.join(self.room, 'temporary')))

    def test_a_build_that_is_interrupted(self):
        self.play([begins(self.order[0]), 'sleep'])
        pipes = {'stdout': subprocess.PIPE, 'stderr': subprocess.PIPE}
        with self.start(**pipes, start_new_session=True, preexec_fn=hear_interrupts) as call:
            seen = b''
            while b'proving' not in seen:
                seen += os.read(call.stderr.fileno(), 4096)
            os.killpg(call.pid, signal.SIGINT)
            out, error = call.communicate(timeout=PATIENCE)
        self.assertEqual((130, b''), (call.returncode, out))
        self.assertIn(b'dahlia: the build was interrupted', error)
        self.assertEqual([], os.listdir(os.path.join(self.room, 'temporary')))
        self.play([])
        self.assertEqual(2, self.run_piped()[0])

    def test_malloc_is_set(self):
        """The script sets how malloc asks for memory where the caller has set nothing; what the caller has set stays."""
        self.write('settings', '#!/bin/sh\necho "$GLIBC_TUNABLES"\n')
        os.chmod(os.path.join(self.room, 'settings'), 0o755)
        self.environment['PROGRAM_TO_BUILD'] = os.path.join(self.room, 'settings')
        self.play([])
        set_here = 'glibc.malloc.hugetlb=1:glibc.malloc.mmap_threshold=33554432:glibc.malloc.trim_threshold=8589934592'
        for given, taken in ((None, set_here), ('', ''), ('glibc.malloc.top_pad=65536', 'glibc.malloc.top_pad=65536')):
            self.environment.pop('GLIBC_TUNABLES', None)
            if given is not None:
                self.environment['GLIBC_TUNABLES'] = given
            self.assertEqual((0, taken + '\n'), self.run_piped()[:2])

    def test_no_toolchain(self):
        self.environment['PATH'] = os.path.join(self.room, 'few')
        os.mkdir(self.environment['PATH'])
        for name in ('dirname', 'readlink', 'find', 'head'):
            os.symlink(shutil.which(name), os.path.join(self.environment['PATH'], name))
        status, out, error = self.run_piped()
        self.assertEqual((70, ''), (status, out))
        self.assertEqual(1, len(error))
        self.assertIn("no command 'rt'", error[0])


if __name__ == '__main__':
    unittest.main()
