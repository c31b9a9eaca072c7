"""What the program answers to its words: a status and a text."""
import json
import re

from . import CannotJudge, Refused, TooLarge, calls, events, kinds, least, lengths, names, phases, ports, rules, \
    shapes
from .data import BadData, read, report, zeros
from .grammar import parse
from .runs import Run
from .tokens import lex, within_limits
from .trees import all_commands, bodies_of, commands_in

RULES = ('Lex Syntax Unsupported UnknownName NameTwice TypeMismatch WidthLost BankDivides UnrollDivides BankUnroll '
         'DynamicBank ConstantRange ViewFactor MemoryPlace OuterWrite DivergentSteps Reducer CallShape PortsSpent '
         'ReadAfterWrite').split()
USAGE = ('usage: dahlia check FILE | lower FILE [--multipliers N] [--chain N] | interpret FILE DATA [--steps N] '
         '[--unchecked] | simulate FILE DATA [--clocks N] [--multipliers N] [--chain N] | batch FILE LIST '
         '| workload N\n')
MOST = 1000000000000
# A run of more logical steps is not gone through.
PATIENCE = 200000


def built_or_refused(tree, forms):
    """Raises rule 3 at the first place that has a form which is not built."""
    places = [] if 'functions' in forms else [function.place for function in tree.functions]
    for body in bodies_of(tree):
        for c in all_commands(body):
            if (c.form == 'view' and 'views' not in forms) or (c.form == 'call' and 'functions' not in forms):
                places.append(c.place)
            if c.form == 'block' and 'threads' not in forms:
                for part in c.body:
                    places += [command.place for command in part if is_stepped(command)][1:2]
    if places:
        raise Refused(3, min(places))


def is_stepped(c):
    """Whether a part holds a `---`, a `for`, a `while` or a call."""
    if c.form in ('for', 'while', 'call') or (c.form == 'block' and len(c.body) > 1):
        return True
    return any(is_stepped(inner) for inner in commands_in(c))


def checked(text, forms, with_ports=True):
    """The tree of a program that is accepted."""
    if len(text) > 1048576:
        raise TooLarge('Source', 1048577)
    tokens = lex(text)
    within_limits(tokens)
    tree = parse(tokens, 'division' in forms)
    built_or_refused(tree, forms)
    names.resolve(tree)
    least(kinds.type_tree(tree))
    least(shapes.breaches(tree))
    shapes.within_limits(tree)
    masks = 'masks' in forms
    least(rules.breaches(tree, masks))
    if with_ports:
        least(ports.breaches(tree, masks))
    return tree


class Flat:
    """A program with its calls substituted, and its phases."""

    def __init__(self, tree, forms):
        commands, _ = calls.sizes(tree.body, {})
        self.pruned = commands > calls.MANY
        tree = calls.substitute(tree, self.pruned)
        self.body = tree.body
        self.phases = phases.Phaser('threads' in forms, 'masks' in forms).command(tree.body)
        self.outside = [decl.name.entity for decl in tree.decls]
        self.local = [c.name.entity for c in all_commands(tree.body) if c.form == 'memory']


def within_plan(tree, forms):
    """Raises the limit Plan where it is exceeded."""
    commands, accesses = calls.sizes(tree.body, {})
    if commands > calls.MANY:
        if accesses:
            raise CannotJudge('the size of a plan of so many calls')
        raise TooLarge('Plan', commands)
    ports.within_plan(Flat(tree, forms))


def interpret(tree, content, steps, forms):
    """The report of a run over the tree."""
    flat = Flat(tree, forms)
    memories = read(flat.outside, content)
    memories.update((entity, zeros(entity)) for entity in flat.local)
    run = Run(flat.phases, memories)
    while run.outcome == 'going' and run.steps < steps:
        if run.steps >= PATIENCE:
            raise CannotJudge('a long run')
        run.step()
    return outcome_status(run.outcome), report(flat.outside, memories, run.outcome, run.steps)


def simulate(tree, content, clocks, forms):
    """The report of a run of the net."""
    flat = Flat(tree, forms)
    memories = read(flat.outside, content)
    memories.update((entity, zeros(entity)) for entity in flat.local)
    shared = {event.e: event.shared.e for event in events.events_of(flat.body).events if event.shared}
    run, spent, known = Run(flat.phases, memories), 0, {}
    while run.outcome == 'going':
        for phase, _ in run.next:
            if phase not in known:
                known[phase] = lengths.length(phase, shared)
        longest = max(known[phase] for phase, _ in run.next)
        if spent + longest > clocks:
            return 4, report(flat.outside, memories, 'going', run.steps, clocks)
        if run.steps >= PATIENCE:
            raise CannotJudge('a long run')
        run.step()
        spent += longest
    return outcome_status(run.outcome), report(flat.outside, memories, run.outcome, run.steps, spent)


def outcome_status(outcome):
    """The status of a report."""
    return 0 if outcome == 'done' else 4 if outcome == 'going' else 3


def batch(tree, names_of_data, files, forms):
    """The reports of the data files of a list; the status is that of the first that is not done."""
    status, text = 0, ''
    for number, name in enumerate(names_of_data, 1):
        if name not in files:
            return 7, ''
        if len(files[name]) > 16777216:
            raise TooLarge('Data', 16777217)
        try:
            one, line = simulate(tree, files[name], 10000000, forms)
        except BadData as bad:
            return 5, f'data {number}: bad data {bad}\n'
        status, text = status or one, text + line
    return status, text


def names_in(content):
    """The names of a list, one in each line."""
    if len(content) > 65536:
        raise TooLarge('ListBytes', 65537)
    try:
        lines = content.decode().split('\n')
    except UnicodeDecodeError:
        raise BadData('NotText') from None
    lines = [line[:-1] if line.endswith('\r') else line for line in lines[:-1]] + lines[-1:]
    found = [line for line in lines if line]
    if len(found) > 64:
        raise TooLarge('List', len(found))
    return found


WORKLOAD = """decl A: ubit<32>[N][N bank 4];
decl B: ubit<32>[N bank 4][N];
decl C: ubit<32>[N][N];
for (let i = 0..N) {
  for (let j = 0..N) {
    let acc: ubit<32> = 0;
    ---
    for (let k = 0..N) unroll 4 {
      let v = A[i][k] * B[k][j];
    } combine {
      acc += v;
    }
    ---
    C[i][j] := acc;
  }
}
"""


def workload(number):
    """The summary of a matrix product."""
    size = 4 * number
    if number > 3:
        raise CannotJudge('a long run')

    def matrix(element):
        """The rows of a matrix, by the number of an element."""
        return [[element(i * size + j) for j in range(size)] for i in range(size)]

    data = {'A': matrix(lambda at: at % 7), 'B': matrix(lambda at: at % 5), 'C': matrix(lambda at: 0)}
    content = json.dumps({name: {'data': rows} for name, rows in data.items()}).encode()
    tree = checked(WORKLOAD.replace('N', str(size)).encode(), ())
    result = json.loads(simulate(tree, content, 2 ** 64 - 1, ())[1])
    total = sum(sum(row) for row in result['memories']['C']['data'])
    return 0, '{"clocks":%d,"steps":%d,"sum":%d}\n' % (result['clocks'], result['steps'], total)


JOBS = {'check': (1, {}), 'lower': (1, {}), 'interpret': (2, {'--steps': 1000000, '--unchecked': None}),
        'simulate': (2, {'--clocks': 10000000}), 'batch': (2, {}), 'workload': (1, {}), 'plan-size': (1, {})}


def number_in(word, most):
    """The number that a word is, or None."""
    right = re.fullmatch('0|[1-9][0-9]*', word, re.ASCII) and len(word) <= 13 and int(word) <= most
    return int(word) if right else None


def job_of(words, forms):
    """The job that the words are: its name, its files and its options, or None."""
    job = words[0] if words else None
    if job not in JOBS or (job in ('batch', 'workload') and job not in forms):
        return None
    (files, allowed), rest = JOBS[job], list(words[1:])
    named, rest = rest[:files], rest[files:]
    if len(named) < files or any(not word or word.startswith('-') for word in named):
        return None
    chosen = {}
    while rest:
        word = rest.pop(0)
        if word in ('--multipliers', '--chain') and 'batch' in forms:
            raise CannotJudge('limits of a schedule')
        if word not in allowed or word in chosen:
            return None
        chosen[word] = True
        if allowed[word] is not None:
            chosen[word] = number_in(rest.pop(0) if rest else '', MOST)
            if chosen[word] is None:
                return None
    return job, named, {**allowed, **chosen}


def answer(words, files, forms):
    """The status and the text that answer some words, or a part of it: of `lower` the first line. `files` maps
    names to contents."""
    job = job_of(words, forms)
    if job and job[0] == 'workload':
        number = number_in(job[1][0], 32)
        return workload(number) if number else (2, USAGE)
    if job is None:
        return 2, USAGE
    try:
        return answer_to(*job, files, forms)
    except Refused as refused:
        return 1, 'refused K%d %s %d:%d\n' % (refused.rule, RULES[refused.rule - 1], *refused.place)
    except TooLarge as large:
        return 6, f'too large {large.limit} {large.count}\n'
    except BadData as bad:
        return 5, f'bad data {bad}\n'


def answer_to(job, named, options, files, forms):
    """The answer to a job with files."""
    if named[0] not in files:
        return 7, ''
    tree = checked(files[named[0]], forms, not options.get('--unchecked'))
    if job == 'plan-size':
        return 0, f'{ports.plan_size(Flat(tree, forms))}\n'
    if job in ('lower', 'simulate', 'batch'):
        within_plan(tree, forms)
    if job in ('check', 'lower'):
        return 0, 'ok\n' if job == 'check' else '// dahlia netlist 1\n'
    if named[1] not in files:
        return 7, ''
    content = files[named[1]]
    if job == 'batch':
        return batch(tree, names_in(content), files, forms)
    if len(content) > 16777216:
        raise TooLarge('Data', 16777217)
    if job == 'interpret':
        return interpret(tree, content, options['--steps'], forms)
    return simulate(tree, content, options['--clocks'], forms)
