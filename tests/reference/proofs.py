"""Scripts and their replay."""

from collections import namedtuple

from .conditions import settled
from .elaboration import Elab, Here
from .errors import Refused
from .grammar import begin, first_fault
from .names import Scope
from .reading import quoted_expression, quoted_fault
from .rules import Rules
from .sequents import Sequent
from .trees import TooLarge, symbols_of, var
from .typing import Code, Typing

# A step: the place of its parenthesis, its word, and its arguments, of which each is a number with
# its place, a quoted token or a word.
Step = namedtuple('Step', 'at word arguments')

Number = namedtuple('Number', 'value at')

# What each step takes: 'n' is the number of a formula, 't' a term, 'c' the name of a constant, 'f'
# that of a formula, and 'rl' that word or nothing. The stage is the one that brings the step.
ARGUMENTS = {
    'axiom': (2, ''), 'postpone': (6, ''), 'weaken': (6, 'n'), 'copy': (6, 'n'), 'first': (6, 'n'),
    'cut': (6, 't'), 'if': (2, 'n'), 'iff': (6, 'n'), 'bool': (6, 'n'), 'skolem': (6, 'n'),
    'inst': (6, 'n t'), 'refl': (7, 'n'), 'replace': (7, 'n n rl'), 'cong': (7, 'n'), 'beta': (7, 'n'),
    'proj': (7, 'n'), 'ifred': (7, 'n'), 'ext': (7, 'n'), 'tupext': (7, 'n'), 'unfold': (7, 'n c'),
    'lemma': (7, 'f'), 'typepred': (7, 't'),
}

def script_of(text, tokens, stage):
    """The steps of a script with the scripts after them, or a refusal at its first fault."""
    step_rule = 'step' if stage >= 6 else 'boolean_step'
    fault = first_fault(begin('script', step_rule), tokens, None, None,
                        lambda token: quoted_fault(text, token))
    if fault:
        raise Refused(fault[0], fault[1] if stage >= 6 else 'OutOfProfile')
    return read_script(tokens)[0]


def read_script(tokens):
    steps, scripts, rest = [], [], tokens[1:]
    while rest[0].sort != ')':
        if rest[1].sort == '(':
            script, rest = read_script(rest)
            scripts.append(script)
        else:
            end = next(at for at, token in enumerate(rest) if token.sort == ')')
            steps.append(Step(rest[0].at, rest[1], arguments_of(rest[2:end])))
            rest = rest[end + 1:]
    return (steps, scripts), rest[1:]


def arguments_of(tokens):
    arguments, at = [], 0
    while at < len(tokens):
        token = tokens[at]
        sign = -1 if token.text == '-' else 1
        at += 2 if sign < 0 else 1
        digits = tokens[at - 1].text
        if digits[0].isdigit():
            arguments.append(Number(sign * int(digits) if len(digits) <= 9 else 0, token.at))
        else:
            arguments.append(token)
    return arguments


class Replay:
    """Replays a script on a formula of a theory.

    Afterwards `cited` has the formulas that were cited, and `used` the references and the names of
    the VARs that were used.
    """

    def __init__(self, development, theory, formula, text, stage):
        entry = development.signatures[theory].entries[formula]
        formals = entry.first[1] if isinstance(entry.first, tuple) else None
        self.scope = Scope(development, theory, formula, formals)
        self.theory, self.formula, self.text, self.stage = theory, formula, text, stage
        self.development, self.entry = development, entry
        self.cited, self.used, self.variables = set(), set(), set()
        self.open = None
        self.rules = Rules(Typing(development, theory))

    def run(self, script):
        """Whether the script proves the formula; raises a refusal at the first step that is refused."""
        self.replay(script, Sequent((), (), (self.entry.second,)))
        return self.open is None

    def replay(self, script, sequent):
        steps, scripts = script
        for step in steps[:-1]:
            premises = self.step(step, sequent)
            if len(premises) != 1:
                raise Refused(step.at, self.wrong_count())
            sequent = premises[0]
        premises = self.step(steps[-1], sequent)
        if len(premises) != len(scripts):
            raise Refused(steps[-1].at, self.wrong_count())
        for after, premise in zip(scripts, premises):
            self.replay(after, premise)

    def wrong_count(self):
        return 'BranchCount' if self.stage >= 6 else 'NotApplicable'

    def step(self, step, sequent):
        """The premises of a step."""
        stage, kinds = ARGUMENTS.get(step.word.text, (99, ''))
        if stage > self.stage:
            raise Refused(step.word.at, 'NoSuchRule')
        values = self.values(step, kinds.split(), sequent)
        if step.word.text == 'postpone':
            self.open = self.open or sequent
            return []
        name = 'if_' if step.word.text == 'if' else step.word.text
        try:
            main, owed = getattr(self.rules, name)(sequent, *values)
            goals = settled(owed, len(sequent.variables))
        except TooLarge:
            raise Refused(step.at, 'TooLarge') from None
        except Code as code:
            raise Refused(step.at, code.args[0]) from None
        if len(main) != 1:
            main = [premise for premise in main if not premise.is_closed]
        return main + [premise for premise in (sequent.concludes(goal) for goal in goals)
                       if not premise.is_closed]

    def values(self, step, kinds, sequent):
        """The arguments of a step as its rule takes them, refused in their order of faults."""
        arguments = step.arguments
        if kinds[-1:] == ['rl'] and len(arguments) < len(kinds):
            kinds = kinds[:-1]
        if len(arguments) != len(kinds) or not all(map(self.is_of, kinds, arguments)):
            raise Refused(step.at, 'BadArguments')
        for argument in arguments:
            if isinstance(argument, Number) and sequent.formula(argument.value) is None:
                if self.stage < 6:
                    raise Refused(step.at, 'NotApplicable')
                raise Refused(argument.at, 'NoSuchNumber')
        return [self.value(kind, argument, sequent) for kind, argument in zip(kinds, arguments)]

    def is_of(self, kind, argument):
        if kind == 'n' or isinstance(argument, Number):
            return kind == 'n' and isinstance(argument, Number)
        if kind == 'rl':
            return argument.text == 'rl'
        if argument.sort != 'quoted':
            return False
        return kind == 't' or quoted_expression(self.text, argument)[0] == 'name'

    def value(self, kind, argument, sequent):
        if kind == 'n':
            return argument.value
        if kind == 'rl':
            return True
        tree = quoted_expression(self.text, argument)
        locals_ = [('s!%d' % number, var(len(sequent.variables) - number))
                   for number in range(1, len(sequent.variables) + 1)]
        here, elab = Here(locals_, sequent.context), Elab(self.scope)
        found = self.quoted(kind, tree, here, elab)
        self.variables |= elab.variables
        return found

    def quoted(self, kind, tree, here, elab):
        """The term of a quoted expression, or the reference of a quoted name."""
        if kind == 't':
            term = elab.infer(tree, here)[0]
            self.used |= symbols_of(term)
            return term
        _, qualifier, word, at = tree
        if kind == 'c':
            return self.constant(qualifier, word, at, here, elab)
        return self.cited_formula(qualifier, word, at, here, elab)

    def constant(self, qualifier, word, at, here, elab):
        """The constant of a name; None for a variable of the sequent."""
        if qualifier is None and here.local(word.text) is not None:
            return None
        term = elab.term_of_name(qualifier, word, at, here)
        self.used |= symbols_of(term)
        return term.parts[0]

    def cited_formula(self, qualifier, word, at, here, elab):
        try:
            member = elab.reference('formula', qualifier, word, at, here)
        except Refused as refused:
            is_own = qualifier is None or (qualifier[0].text == self.theory and not qualifier[1])
            if is_own and refused.fault[1] in ('Unknown', 'OutOfProfile') and self.stands_later(word.text):
                raise Refused(at, 'NotCitable') from None
            raise
        self.cited.add(member.reference)
        self.used |= symbols_of(*(member.reference[3] if member.reference[0] == 'instance' else ()))
        return member.reference

    def stands_later(self, word):
        entries = self.development.signatures[self.theory].entries
        return any(entry.kind == 'formula' and entry.name == word for entry in entries[self.formula:])
