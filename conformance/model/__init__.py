"""A model of the language in Python, written from docs/LANGUAGE.md and from nothing of crates/.

It answers what `dahlia` answers, slowly and by definitions: a rule on ports by counting keys over all
paths, a run step by step over the tree, a length by levels. conformance/oracle.py compares it with the
answers of the cases. It also knows the forms that are not built yet (FORMS), each behind a switch."""

# Forms of the grammar that a program is refused for while they are not built, and jobs that are not built.
FORMS = ('views', 'functions', 'threads', 'division', 'masks', 'batch', 'workload')


class Refused(Exception):
    """A rule that the program breaks, and where."""

    def __init__(self, rule, place):
        super().__init__(rule, place)
        self.rule, self.place = rule, place


class TooLarge(Exception):
    """A limit that the program or a file exceeds, and the count."""

    def __init__(self, limit, count):
        super().__init__(limit, count)
        self.limit, self.count = limit, min(count, 1000000000)


class CannotJudge(Exception):
    """The model has no answer: a run too long for it, or a thing that it does not speak of."""


def least(breaches):
    """Raises the breach at the least place, and there the one of the least rule."""
    if breaches:
        place, rule = min(breaches)
        raise Refused(rule, place)
