"""What bench/check, bench/interpret and bench/lower share: how the program is run, and a peer beside it.

Programs are run as ./dahlia runs its own: with what that script sets for malloc of the GNU C library, or, where the
word `--as-found` is given, with nothing set.

A peer is another program for the same jobs with the same words, named by `--peer PATH`: a plain one, without
contracts, shows what the jobs cost by themselves."""
import os
import re
import statistics
import subprocess
import time

# The script that runs the program for its users.
SCRIPT = os.path.join(os.path.dirname(os.path.abspath(__file__)), '..', 'dahlia')
# The program that tells how much memory another takes.
TIME = '/usr/bin/time'


def peer_and_rest(arguments):
    """The path behind `--peer`, or None, and the arguments without the two words."""
    if '--peer' not in arguments:
        return None, arguments
    at = arguments.index('--peer')
    if at + 1 == len(arguments):
        raise SystemExit('bench: --peer needs the path of a program')
    return os.path.abspath(arguments[at + 1]), arguments[:at] + arguments[at + 2:]


def set_as_run(arguments):
    """Sets for all programs that are run from here what ./dahlia sets for its own, or nothing where `--as-found` is among
    the arguments. Gives what was set, and the arguments without that word."""
    with open(SCRIPT, encoding='utf-8') as file:
        of_script = re.search(r'GLIBC_TUNABLES-([^}]*)}', file.read())[1]
    taken = '' if '--as-found' in arguments else of_script
    os.environ['GLIBC_TUNABLES'] = taken
    return taken or 'nothing', [argument for argument in arguments if argument != '--as-found']


def measured(words, folder):
    """The seconds of a call, and what it wrote."""
    began = time.perf_counter()
    written = subprocess.run(words, cwd=folder, stdin=subprocess.DEVNULL, stdout=subprocess.PIPE,
                             stderr=subprocess.DEVNULL, check=False).stdout
    return time.perf_counter() - began, written


def in_turn(calls, folder, rounds):
    """What `measured` tells of each of these calls, of as many rounds, made in turn: so all of them meet what else
    runs on the machine alike."""
    told = [[] for _ in calls]
    for _ in range(rounds):
        for words, of_call in zip(calls, told):
            of_call.append(measured(words, folder))
    return told


def least(told):
    """The least time of a call. What else runs on a machine only adds to the time of a call, so the least of many tells
    most of the call itself."""
    return min(time_ for time_, _ in told)


def paired(told, others, start=0.0, other_start=0.0):
    """How many times as long one call takes as another, without the starts of their processes: the median over the
    rounds, in each of which both were made one soon after the other, so that what slows the machine for a while slows
    both."""
    return statistics.median(max(one - start, 1e-9) / max(other - other_start, 1e-9)
                             for (one, _), (other, _) in zip(told, others))


def are_same(*told):
    """Whether these calls wrote the same."""
    return len({of_call[0][1] for of_call in told}) == 1


def memory(words, folder):
    """The most memory in KiB that a call holds. (What Python tells of a call that it makes itself is at least what
    Python holds.)"""
    if not os.path.exists(TIME):
        raise SystemExit(f'bench: {TIME} is not installed (Debian: apt-get install time)')
    told = subprocess.run([TIME, '--format=%M'] + words, cwd=folder, stdin=subprocess.DEVNULL, stdout=subprocess.DEVNULL,
                          stderr=subprocess.PIPE, check=False).stderr
    return int(told.split()[-1])
