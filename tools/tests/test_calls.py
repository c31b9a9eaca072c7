"""How every tool answers what keeps it from its work: status 2 and one line."""
import os
import stat
import unittest

from support import PROGRAM, TOP, ToolCase, example, run_tool

TOOLS = {'explain': [], 'zeros': [], 'bench': [example('first.json'), '-o', 'made'], 'show': []}


class Calls(ToolCase):
    def of_each(self, file, says, **how):
        for name, more in TOOLS.items():
            with self.subTest(tool=name):
                self.refused(name, file, *more, says=says, folder=self.folder, **how)

    def test_a_file_that_is_not_there(self):
        self.of_each('none.fuse', 'cannot read none.fuse: No such file')

    def test_a_folder_in_the_place_of_a_file(self):
        self.of_each(self.folder, 'Is a directory')

    @unittest.skipIf(os.geteuid() == 0, 'root reads every file')
    def test_a_file_that_may_not_be_read(self):
        os.chmod(self.write('p.fuse', ''), 0)
        self.of_each('p.fuse', 'cannot read p.fuse: Permission denied')

    def test_words_that_are_too_few_or_unknown(self):
        for words in ([], ['--nonsense', 'x'], [example('first.fuse'), 'a', 'b', 'c']):
            for name in TOOLS:
                self.refused(name, *words, says='--help tells the words')

    def test_a_program_that_is_not_there(self):
        self.of_each(example('first.fuse'), 'no program at /none', program='/none')

    def test_a_program_that_is_not_executable(self):
        self.of_each(example('first.fuse'), 'is not executable', program=self.write('program', ''))

    def test_a_program_that_is_none(self):
        path = self.write('program', 'no program')
        os.chmod(path, stat.S_IRWXU)
        self.of_each(example('first.fuse'), 'cannot be run', program=path)

    def test_a_program_that_is_killed(self):
        self.of_each(example('first.fuse'), 'was ended by SIGKILL', program=self.stand_in('kill -9 $$'))

    def test_a_program_that_answers_nonsense(self):
        self.of_each(example('first.fuse'), "gave an answer that is none: 'hello'", program=self.stand_in('echo hello'))

    def test_a_program_that_fails(self):
        self.of_each(example('first.fuse'), 'ended with status 70', program=self.stand_in('exit 70'))
        self.of_each(example('first.fuse'), 'had not enough memory', program=self.stand_in('exit 9'))

    def test_a_program_that_is_refused_or_too_large(self):
        refused, large = self.write('p.fuse', 'x := 1;'), self.write('q.fuse', 'decl A: ubit<8>[1048577];')
        for name in ('zeros', 'bench', 'show'):
            self.refused(name, refused, *TOOLS[name], says=f'{refused}: refused K4 UnknownName 1:1', folder=self.folder)
            self.refused(name, large, *TOOLS[name], says=f'{large}: too large Elements 1048577', folder=self.folder)

    def test_an_output_that_is_full(self):
        with open('/dev/full', 'wb') as full:
            for name in ('explain', 'zeros', 'show'):
                status, _, err = run_tool(name, example('first.fuse'), output=full)
                self.assertEqual((status, err), (2, f'{name}: standard output cannot be written: No space left on device\n'))

    def test_a_reader_that_has_gone(self):
        for name in ('explain', 'zeros', 'show'):
            read, write = os.pipe()
            os.close(read)
            with os.fdopen(write, 'wb') as gone:
                status, _, err = run_tool(name, example('first.fuse'), output=gone)
            self.assertEqual((status, err), (0, ''))

    def test_help_tells_names_statuses_and_the_program(self):
        for name in TOOLS:
            status, out, err = run_tool(name, '--help')
            self.assertEqual((status, err), (0, ''))
            for part in ('NAME', 'SYNOPSIS', 'WHAT IT WRITES', 'STATUS', 'DAHLIA'):
                self.assertIn(part, out)

    def test_a_file_of_any_name(self):
        names = ['--odd.fuse', 'a b\n.fuse', 'ü.fuse', b'\xff.fuse'.decode('utf-8', 'surrogateescape')]
        for name in names:
            self.write(name, 'x := 1;')
            status, out, err = run_tool('explain', '--', name, folder=self.folder)
            self.assertEqual((status, err), (1, ''))
            self.assertRegex(out, r'\A[^\n]*:1:1: error: K4 UnknownName: ')

    def test_the_program_that_is_named_comes_first(self):
        status, out, _ = run_tool('explain', example('first.fuse'), '--program', PROGRAM, program='/none')
        self.assertEqual((status, out), (0, f"{example('first.fuse')}: ok\n"))

    def test_no_tool_builds_the_program(self):
        calls = os.path.join(TOP, 'tools', 'lib', 'calls.py')
        with open(calls, encoding='utf-8') as file:
            self.assertNotIn("join(TOP, 'dahlia')", file.read())


if __name__ == '__main__':
    unittest.main()
