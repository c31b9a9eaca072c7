#!/usr/bin/env python3
"""conformance/oracle.py: an independent program that answers what `dahlia` answers, and judges cases by it.

    oracle.py --cases [TABLE ..]       compares its answers with those of conformance/cases (or of these files)
    oracle.py [--with FORM,..] WORD .. answers words as `dahlia` does; of `lower` the first line alone

It is written from docs/LANGUAGE.md, in Python and by definitions (conformance/model). FORM is one of
functions, threads, division, masks, batch and workload: forms and jobs that `dahlia` may not have built,
which it then takes too. The last line of --cases is 'N agree, N differ, N not judged'; status 1 where an answer differs."""
import collections
import glob
import json
import os
import sys

sys.dont_write_bytecode = True
from cases import HERE, content, words_of
from model import FORMS, CannotJudge
from model.jobs import answer

BUILT = ('views',)
# In tables that number the stages of the language, the stage from which a form is there.
STAGES = {'views': 8, 'functions': 9, 'workload': 9, 'threads': 10, 'batch': 13, 'division': 15, 'masks': 16}
# A longer text takes Python too long.
LONGEST = 60000


def forms_of(case):
    """The forms that are built where a case holds."""
    if 'stage' not in case:
        return BUILT
    return tuple(form for form, stage in STAGES.items() if stage <= case['stage'])


def judged(case):
    """The status and the text that answer a case."""
    if case.get('needs') or case.get('slow') or 'output' in case or 'memory' in case:
        raise CannotJudge('a case of what surrounds the program')
    if 'until' in case:
        raise CannotJudge('a case that holds no longer')
    words = words_of(case)
    if not all(isinstance(word, str) for word in words):
        raise CannotJudge('a word that is no text')
    files = {name: content(value) for name, value in case['files'].items()}
    if any(word.startswith('/') for word in words):
        raise CannotJudge('a file of the machine')
    if any(len(file) > LONGEST for file in files.values()):
        raise CannotJudge('a long file')
    return answer(words, files, forms_of(case))


def wanted(case):
    """The text of a case, and whether only its first line counts."""
    if 'first_line' in case:
        return case['first_line'] + '\n', True
    text = case.get('stdout')
    return content(text).decode() if text is not None else None, False


def difference(case):
    """What differs in the answer to a case, or None."""
    status, text = judged(case)
    right, first = wanted(case)
    if case['words'][:1] == ['lower'] and status == 0 and not first:
        raise CannotJudge('the text of a net')
    if status == case['status'] and (case.get('partial') or text == right):
        return None
    return f"wanted {case['status']} {right!r}, found {status} {text!r}"


def compare(paths):
    """Compares all cases of some tables; whether none differs."""
    counts, reasons = collections.Counter(), collections.Counter()
    for path in paths:
        with open(path, encoding='utf-8') as file:
            table = json.load(file)
        for case in table:
            name = case.get('name') or case.get('id')
            try:
                differs = difference(case)
            except CannotJudge as reason:
                counts['not judged'] += 1
                reasons[str(reason)] += 1
                continue
            counts['differ' if differs else 'agree'] += 1
            if differs:
                print(f'DIFFER {os.path.basename(path)[:-5]}: {name}: {differs}')
    for reason, count in sorted(reasons.items()):
        print(f'not judged: {count}: {reason}')
    print(f"oracle: {counts['agree']} agree, {counts['differ']} differ, {counts['not judged']} not judged")
    return not counts['differ']


def run(words):
    """Answers words."""
    forms = BUILT
    if words[:1] == ['--with']:
        forms, words = BUILT + tuple(words[1].split(',')), words[2:]
        if set(forms) - set(FORMS):
            sys.exit('oracle: forms are ' + ', '.join(FORMS))
    files = {}
    for word in words[1:3]:
        if os.path.exists(word):
            with open(word, 'rb') as file:
                files[word] = file.read()
    status, text = answer(words, files, forms)
    sys.stdout.write(text)
    return status


def main():
    """Answers words, or judges cases."""
    sys.setrecursionlimit(20000)
    if sys.argv[1:2] == ['--cases']:
        tables = sys.argv[2:] or sorted(glob.glob(os.path.join(HERE, 'cases', '*.json')))
        return 0 if compare(tables) else 1
    return run(sys.argv[1:])


if __name__ == '__main__':
    sys.exit(main())
