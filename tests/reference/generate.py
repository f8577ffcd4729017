"""Units made at random: of the whole grammar, of boolean theories and of theories with types, with proofs
and with mistakes."""

from . import typed
from .grammar import R, RULES, T, before, rule, ways_of
from .errors import Refused
from .reading import unit_of
from .rules import Rules
from .sequents import Sequent
from .theories import Checker
from .tokens import KEYWORDS, OUTSIDE, SYMBOLS, tokens_of
from .typing import Typing

NAMES = ['a', 'b', 'p', 'q', 'x', 'T', 'f', 'bool', 'boolean', 'proof', 'nat', 't?', 'open', 'complete']
BLANKS = [' ', '  ', '\n', '\t', ' % a comment\n', '\r\n']
SPELLINGS = {
    'AND': ['AND', '&', '/\\', 'and'], 'OR': ['OR', '\\/'], 'IMPLIES': ['IMPLIES', '=>', 'Implies'],
    'IFF': ['IFF', '<=>'], 'axiom': ['AXIOM', 'POSTULATE', 'axiom'],
    'lemma': ['LEMMA', 'THEOREM', 'CLAIM', 'OBLIGATION', 'fact'],
}


class Cost:
    """How many tokens the shortest text of a symbol has."""

    known = {}

    @classmethod
    def of(cls, symbol, depth=14):
        if isinstance(symbol, T):
            return 1
        if not isinstance(symbol, R):
            return 0
        if depth == 0:
            return 1000
        arguments = tuple(min(a, 2) if type(a) is int else a for a in symbol.arguments)
        key = (symbol.name, arguments, depth)
        if key not in cls.known:
            cls.known[key] = min(sum(cls.of(part, depth - 1) for part in way)
                                 for way in RULES[symbol.name](*arguments))
        return cls.known[key]


def spelled(random, terminal, theory):
    if terminal.does in ('axiom', 'if', '-'):
        return terminal.does
    if terminal.does == 'closes':
        return theory
    if terminal.sort in ('id', 'any'):
        return random.choice(NAMES)
    if terminal.sort == 'number':
        return random.choice(['0', '1', '2', '007', '12345678901'])
    if terminal.sort in SPELLINGS:
        return random.choice(SPELLINGS[terminal.sort])
    if terminal.sort in KEYWORDS and random.random() < 0.2:
        return terminal.sort.lower()
    return terminal.sort


def sentence(random, start, budget):
    """The words of a text of a rule, which grows shorter forms once the budget is spent."""
    todo, words, theory = before([rule(start)], None), [], None
    while todo:
        symbol, todo = todo.pair
        if isinstance(symbol, T):
            words.append(spelled(random, symbol, theory))
            theory = words[-1] if symbol.does == 'opens' else theory
        elif isinstance(symbol, R):
            ways = ways_of(symbol)
            if len(words) > budget:
                ways = [min(ways, key=lambda way: sum(Cost.of(part) for part in way))]
            todo = before(random.choice(ways), todo)
    return words


def joined(random, words):
    text = ''
    for word in words:
        if text and (random.random() < 0.6 or (text[-1] + word[0]).isalnum() or text[-1] + word[0] == '_?'):
            text += random.choice(BLANKS[:2] if random.random() < 0.7 else BLANKS)
        text += word
    return text


def formula(random, names, depth):
    if depth == 0 or random.random() < 0.2:
        return random.choice(names + ['TRUE', 'FALSE'])
    part = lambda: formula(random, names, depth - 1)
    sort = random.randrange(7)
    if sort == 0:
        return 'NOT (%s)' % part()
    if sort == 1:
        return 'IF %s THEN %s ELSE %s ENDIF' % (part(), part(), part())
    if sort == 2:
        return 'IF %s THEN %s ELSIF %s THEN %s ELSE %s ENDIF' % tuple(part() for _ in range(5))
    sign = random.choice(['AND', 'OR', '=>', '&', '\\/'])
    return ('(%s) %s (%s)' if sort < 5 else '%s %s %s') % (part(), sign, part())


def claim(random, names):
    """A formula, of every second one that it follows from itself."""
    one = formula(random, names, random.randrange(4))
    form = random.choice(['%s', '%s', '(%s) => (%s)', '(%s) OR NOT (%s)', 'NOT (%s) \\/ (%s)'])
    return form.replace('%s', one)


def script(random, rules, sequent, depth):
    """A script that works on conditionals of a sequent, mostly with as many scripts as are due."""
    steps, scripts = [], []
    while depth > 0:
        depth -= 1
        places = conditionals(sequent)
        number = random.choice(places) if places and random.random() < 0.95 else random.choice([0, 1, -1, 2])
        sign = '- ' if random.random() < 0.1 else '-'
        steps.append('(if %s%d)' % (sign if number < 0 else '', abs(number)))
        premises = rules.if_(sequent, number)[0] if number in places else []
        premises = [premise for premise in premises if not premise.is_closed]
        if len(premises) == 1:
            sequent = premises[0]
            continue
        scripts = [script(random, rules, premise, depth) for premise in premises]
        break
    if random.random() < 0.05:
        steps.append('(axiom)')
    return '(' + ' '.join((steps or ['(axiom)']) + scripts) + ')'


def conditionals(sequent):
    return ([-at - 1 for at, tree in enumerate(sequent.antecedents) if tree.form == 'If']
            + [at + 1 for at, tree in enumerate(sequent.consequents) if tree.form == 'If'])


def boolean_theory(random, name):
    """The text of a theory of boolean constants, and of proofs of its lemmas."""
    names, lines = ['a'], ['  a: bool']
    for number in range(random.randrange(1, 6)):
        if random.random() < 0.4:
            names.append(random.choice('abcd'))
            lines.append('  %s: %s' % (names[-1], random.choice(['bool', 'boolean', 'bool;'])))
        else:
            word = random.choice(['LEMMA', 'LEMMA', 'THEOREM', 'AXIOM'])
            pool = names if random.random() < 0.9 else names + ['zz']
            lines.append('  l%d: %s %s' % (number if random.random() < 0.95 else 0, word,
                                           claim(random, pool)))
    text = '%s: THEORY\nBEGIN\n%s\nEND %s\n' % (name, '\n'.join(lines), name)
    return text, proofs_of(random, text, name)


def proofs_of(random, text, name):
    items, fault = unit_of(text)
    if fault:
        return []
    checker = Checker({name: items[0]}, 2)
    if isinstance(checker.result(name), Refused):
        return []
    rules = Rules(Typing(checker.development, name))
    return ['(proof %s.%s %s)\n' % (name, entry.name,
                                    script(random, rules, Sequent((), (), (entry.second,)), 12))
            for entry in checker.result(name).entries if entry.kind == 'formula' and random.random() < 0.8]


def booleans(random):
    pieces = []
    for _ in range(random.randrange(1, 4)):
        theory, proofs = boolean_theory(random, random.choice(['t', 'u', 'open', 'complete']))
        pieces += [theory] + proofs
    if random.random() < 0.3:
        random.shuffle(pieces)
    return '\n'.join(pieces)


# What comes before pieces that are repeated, the piece, what comes between, and a piece that comes
# as often after it.
LONG = [
    ('l: LEMMA ', '(', 'a', ')'), ('l: LEMMA ', 'NOT ', 'a', ''), ('l: LEMMA ', 'a AND ', 'a', ''),
    ('l: LEMMA ', 'IF a THEN a ELSE ', 'a', ' ENDIF'), ('l: LEMMA a', '`1', '', ''), ('', 'a, ', 'a: bool', ''),
    ('l: LEMMA IF a THEN a ', 'ELSIF a THEN a ', 'ELSE a ENDIF', ''), ('l: LEMMA a', '(a)', '', ''),
    ('l: LEMMA a(', 'a, ', 'a)', ''), ('l: LEMMA LET ', 'a = a, ', 'a = a IN a', ''), ('x: ', '[', 'T, T', ', T]'),
    ('l: LEMMA FORALL ', 'x, ', 'x: a', ''), ('l: LEMMA ', 'FORALL x, y: ', 'a', ''), ('x: t[', 'a, ', 'a].T', ''),
    ('x: ', '{x: ', 'T', ' | a}'), ('l: LEMMA a', ' = a', '', ''), ('IMPORTING ', 't, ', 't', ''),
    ('l: LEMMA ', 'NOT FORALL x, y: ', 'a', ''), ('x: ', '[T -> ', 'T', ']'),
]


def long(random):
    """A unit that is near a bound on levels or on the entries of a list."""
    start, piece, middle, end = random.choice(LONG)
    times = random.choice([5, 99, 100, 101, 198, 199, 200, 201])
    return 't: THEORY BEGIN a: bool\n%s%s%s%s\nEND t\n' % (start, piece * times, middle, end * times)


def mistaken(random, text):
    """The text with some tokens taken out, put in, doubled or exchanged, or with a wrong byte."""
    for _ in range(random.choice([1, 1, 1, 2, 4])):
        tokens, _ = tokens_of(text)
        if not tokens:
            return text
        token = random.choice(tokens)
        others = NAMES + KEYWORDS + OUTSIDE + SYMBOLS + ['"a"', 's!1', '1', '#', '"', '\xe9', '200']
        words = random.choice([[], [token.text, token.text], [random.choice(others)],
                               [token.text, random.choice(others)], [random.choice(tokens).text]])
        text = text[:token.start] + ' '.join(words) + text[token.end:]
    return text


def unit(random, stage):
    """A unit or nearly one, as a string of which each character stands for a byte."""
    if stage > 2 and random.random() < 0.6:
        return typed.unit(random, stage)
    kind = random.randrange(4)
    if random.random() < 0.1:
        text = long(random)
    elif kind < 2:
        text = joined(random, sentence(random, 'unit', random.choice([5, 20, 60, 120])))
    else:
        text = booleans(random)
    return mistaken(random, text) if kind % 2 else text
