"""`make install` and `make uninstall` of the Makefile at the top."""
import os
import shutil
import stat
import subprocess
import tempfile
import unittest

from support import PATIENCE, PROGRAM, TOP

FILES = {'bin/dahlia': 0o755, 'share/man/man1/dahlia.1': 0o644, 'share/bash-completion/completions/dahlia': 0o644}


def make(*words, top=TOP):
    return subprocess.run(['make', '-C', top, *words], stdout=subprocess.PIPE, stderr=subprocess.STDOUT, timeout=PATIENCE, check=False)


def files_below(folder):
    """Each file below a folder with its mode."""
    paths = [os.path.join(at, name) for at, _, names in os.walk(folder) for name in names]
    return {os.path.relpath(path, folder): stat.S_IMODE(os.stat(path).st_mode) for path in paths}


@unittest.skipUnless(shutil.which('make') and shutil.which('install'), 'there is no make')
class Install(unittest.TestCase):
    def setUp(self):
        room = tempfile.TemporaryDirectory()
        self.addCleanup(room.cleanup)
        self.room = os.path.join(room.name, 'a folder')

    def test_what_is_installed_runs_and_goes_again(self):
        words = [f'PREFIX={self.room}', f'PROGRAM={PROGRAM}']
        done = make('install', *words)
        self.assertEqual(0, done.returncode, done.stdout)
        self.assertEqual(FILES, files_below(self.room))
        example = os.path.join(TOP, 'examples', 'first.fuse')
        run = subprocess.run([os.path.join(self.room, 'bin', 'dahlia'), 'check', example], stdout=subprocess.PIPE, check=False)
        self.assertEqual((0, b'ok\n'), (run.returncode, run.stdout))
        self.assertEqual(0, make('install', *words).returncode)
        other = os.path.join(self.room, 'bin', 'other')
        with open(other, 'w', encoding='utf-8'):
            pass
        self.assertEqual(0, make('uninstall', *words).returncode)
        self.assertEqual({'bin/other'}, set(files_below(self.room)))
        self.assertEqual(0, make('uninstall', *words).returncode)

    def test_destdir_stands_before_each_path(self):
        words = ['PREFIX=/usr', f'DESTDIR={self.room}', f'PROGRAM={PROGRAM}']
        self.assertEqual(0, make('install', *words).returncode)
        self.assertEqual({f'usr/{path}' for path in FILES}, set(files_below(self.room)))
        self.assertEqual(0, make('uninstall', *words).returncode)
        self.assertEqual({}, files_below(self.room))

    def test_a_program_that_is_not_there(self):
        done = make('install', f'PREFIX={self.room}', 'PROGRAM=/no/program')
        self.assertNotEqual(0, done.returncode)
        self.assertIn(b'/no/program', done.stdout)

    def test_the_program_is_built_first(self):
        top = os.path.join(self.room, 'checkout')
        for path in ('Makefile', 'docs/dahlia.1', 'tools/completion/dahlia.bash'):
            os.makedirs(os.path.dirname(os.path.join(top, path)), exist_ok=True)
            shutil.copy(os.path.join(TOP, path), os.path.join(top, path))
        script = os.path.join(top, 'dahlia')
        for status, is_installed in ((2, True), (70, False)):
            with open(script, 'w', encoding='utf-8') as file:
                file.write(f'#!/bin/sh\nmkdir -p crates/dahlia/out && cp "{PROGRAM}" crates/dahlia/out/dahlia\nexit {status}\n')
            os.chmod(script, 0o755)
            prefix = os.path.join(self.room, f'prefix {status}')
            self.assertEqual(is_installed, make('install', f'PREFIX={prefix}', top=top).returncode == 0)
            self.assertEqual(set(FILES) if is_installed else set(), set(files_below(prefix)))


if __name__ == '__main__':
    unittest.main()
