"""How a tool reads its words, calls the program, and ends.

A tool ends with status 2 and one line on standard error where it cannot do its work. It gives the program
files of its own with the bytes that it has read, so that both see the same program, whatever its file is called."""
import argparse
import os
import shutil
import signal
import subprocess
import sys
import tempfile

TOP = os.path.dirname(os.path.dirname(os.path.dirname(os.path.realpath(__file__))))
UNUSABLE = 2
INTERRUPTED = 130
# The program's own limits: of a longer file these bytes and one more give the same answer.
PROGRAM_BYTES = 1048576
DATA_BYTES = 16777216
# Statuses of the program.
DONE, REFUSED, USAGE, FAULTED, GOING, BAD_DATA, TOO_LARGE, READ_FAULT, WRITE_FAULT, NO_MEMORY = range(10)
BUILT = os.path.join(TOP, 'crates', 'dahlia', 'out', 'dahlia')
FIND = """the program is that of --program, else that of the environment variable DAHLIA, else the one that is built in the
checkout that this tool stands in, else the `dahlia` that is found by PATH. No tool builds it: ./dahlia does"""


class Trouble(Exception):
    """Why a tool cannot do its work, in one line."""


class Words(argparse.ArgumentParser):
    """The words of a tool, whose mistakes are told in one line. Its help is the tool's docstring."""

    def __init__(self, document):
        super().__init__(description=document, formatter_class=argparse.RawDescriptionHelpFormatter, epilog=FIND)
        self.add_argument('file', metavar='FILE', help='a program')

    def add_program(self):
        """Adds the option that all tools have, as the last one."""
        self.add_argument('--program', metavar='PATH', help='the built program, or a script that runs it')

    def error(self, message):
        raise Trouble(f'{message} (--help tells the words)')


def reason(fault):
    """What an error of the system says, without the file."""
    return fault.strerror or str(fault)


def shown(name):
    """A file's name in a line of output: what cannot be printed is escaped."""
    text = os.fsencode(name).decode('utf-8', 'backslashreplace')
    return ''.join(sign if sign.isprintable() else repr(sign)[1:-1] for sign in text)


def read_file(name, most):
    """The first bytes of a file, at most one more than `most`."""
    try:
        with open(name, 'rb') as file:
            return file.read(most + 1)
    except (OSError, ValueError) as fault:
        raise Trouble(f'cannot read {shown(name)}: {reason(fault) if isinstance(fault, OSError) else fault}') from None


def program_path(option):
    """The program that is to be called."""
    named = option or os.environ.get('DAHLIA') or (BUILT if os.path.exists(BUILT) else shutil.which('dahlia'))
    if not named:
        raise Trouble('no program is built: ./dahlia builds it, and --program or DAHLIA names another')
    path = os.path.abspath(named)
    if not os.path.isfile(path):
        raise Trouble(f'no program at {shown(path)}')
    if not os.access(path, os.X_OK):
        raise Trouble(f'the program {shown(path)} is not executable')
    return path


class Program:
    """The program, called on given bytes."""

    def __init__(self, option):
        self.path = program_path(option)

    def answer(self, job, files, options=()):
        """The status and the standard output of a job over files with these bytes."""
        try:
            with tempfile.TemporaryDirectory() as folder:
                words = []
                for number, content in enumerate(files):
                    words.append(f'file{number}')
                    with open(os.path.join(folder, words[-1]), 'wb') as file:
                        file.write(content)
                done = subprocess.run([self.path, job, *words, *options], cwd=folder, stdin=subprocess.DEVNULL,
                                      stdout=subprocess.PIPE)
        except OSError as fault:
            raise Trouble(f'the program {shown(self.path)} cannot be run: {reason(fault)}') from None
        self.refuse_failure(done.returncode)
        return done.returncode, done.stdout

    def refuse_failure(self, status):
        """Stops the tool where the program gave no answer."""
        if status < 0:
            name = signal.Signals(-status).name if -status in set(signal.Signals) else f'signal {-status}'
            raise Trouble(f'the program {shown(self.path)} was ended by {name}')
        if status == NO_MEMORY:
            raise Trouble(f'the program {shown(self.path)} had not enough memory')
        if status not in range(10) or status in (USAGE, READ_FAULT, WRITE_FAULT):
            raise Trouble(f'the program {shown(self.path)} ended with status {status}, and gave no answer')

    def unknown(self, answer):
        """The trouble that an answer is of no known form."""
        line = answer[:60].decode('utf-8', 'backslashreplace').split('\n')[0]
        return Trouble(f'the program {shown(self.path)} gave an answer that is none: {line!r}')


def refuse_verdict(status, answer, file, data=None):
    """Stops the tool where the program is refused or too large, or its data does not fit it."""
    if status not in (REFUSED, BAD_DATA, TOO_LARGE):
        return
    line = answer.decode('utf-8', 'backslashreplace').strip()
    of_data = status == BAD_DATA or line.startswith('too large Data ')
    more = '' if of_data else ' (tools/explain tells more)' if status == REFUSED else ''
    raise Trouble(f'{shown(data if of_data and data is not None else file)}: {line}{more}')


def lowered(program, content, file):
    """The text that `lower` writes of a program."""
    status, answer = program.answer('lower', [content])
    refuse_verdict(status, answer, file)
    if status != DONE or not answer.startswith(b'// dahlia netlist 1\n'):
        raise program.unknown(answer)
    return answer.decode('ascii', 'replace')


def put(text):
    """Writes the tool's answer to standard output."""
    try:
        sys.stdout.buffer.write(text.encode('utf-8', 'replace'))
        sys.stdout.buffer.flush()
    except BrokenPipeError:
        raise
    except OSError as fault:
        raise Trouble(f'standard output cannot be written: {reason(fault)}') from None


def run(name, main):
    """Runs a tool, and ends with its status."""
    try:
        status = main(sys.argv[1:])
    except Trouble as trouble:
        print(f'{name}: {trouble}', file=sys.stderr)
        status = UNUSABLE
    except (MemoryError, RecursionError) as fault:
        print(f"{name}: {'not enough memory' if isinstance(fault, MemoryError) else 'nested too deep'}", file=sys.stderr)
        status = UNUSABLE
    except OSError as fault:
        if isinstance(fault, BrokenPipeError):
            # Whoever read has seen enough. Nothing may be flushed to it at the end.
            os.dup2(os.open(os.devnull, os.O_WRONLY), 1)
            sys.exit(0)
        print(f'{name}: {reason(fault)}' + (f': {shown(fault.filename)}' if fault.filename else ''), file=sys.stderr)
        status = UNUSABLE
    except KeyboardInterrupt:
        status = INTERRUPTED
    sys.exit(status)
