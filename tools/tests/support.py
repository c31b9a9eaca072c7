"""What the tests of the tools share: how a tool is run, and programs that stand in for the built one."""
import os
import stat
import subprocess
import sys
import tempfile
import unittest

TOP = os.path.dirname(os.path.dirname(os.path.dirname(os.path.abspath(__file__))))
PROGRAM = os.environ.get('DAHLIA') or os.path.join(TOP, 'crates', 'dahlia', 'out', 'dahlia')
sys.path.insert(0, os.path.join(TOP, 'tools'))
PATIENCE = 300


def example(name):
    return os.path.join(TOP, 'examples', name)


def run_tool(name, *words, program=PROGRAM, folder=None, output=subprocess.PIPE):
    """The status, the standard output and the standard error of a tool, called on the program."""
    environment = {**os.environ, 'DAHLIA': program}
    done = subprocess.run([os.path.join(TOP, 'tools', name), *words], env=environment, cwd=folder, stdin=subprocess.DEVNULL,
                          stdout=output, stderr=subprocess.PIPE, timeout=PATIENCE)
    return done.returncode, (done.stdout or b'').decode('utf-8'), done.stderr.decode('utf-8')


class ToolCase(unittest.TestCase):
    """A test in a folder of its own."""

    def setUp(self):
        room = tempfile.TemporaryDirectory()
        self.addCleanup(room.cleanup)
        self.folder = room.name

    def write(self, name, content):
        """Writes a file, and gives its path."""
        path = os.path.join(self.folder, name)
        with open(path, 'wb') as file:
            file.write(content if isinstance(content, bytes) else content.encode())
        return path

    def stand_in(self, commands):
        """A shell script in the place of the program."""
        path = self.write('stand_in', '#!/bin/sh\n' + commands + '\n')
        os.chmod(path, stat.S_IRWXU)
        return path

    def refused(self, name, *words, says='', **how):
        """Runs a tool that has to end with status 2, nothing on standard output and one line on standard error."""
        status, out, err = run_tool(name, *words, **how)
        self.assertEqual((status, out), (2, ''), err)
        self.assertRegex(err, rf'\A{name}: [^\n]*\n\Z')
        self.assertIn(says, err)
