"""Which tokens can follow others: the grammar as an automaton with a stack, run on all its choices.

A state is what is still to come, as a linked list of symbols, with the nesting of forms and the
name of the theory that is open. A form of the grammar that can be read in several ways leads to
several states, and tokens begin a unit if one is left. A symbol is a terminal, a rule, or a number
of entries that a list has so far.
"""

from collections import namedtuple
from functools import lru_cache

from .tokens import is_word

LIMIT = 200

# A terminal with what it does to the nesting: 'frame' and 'end' open and close a frame, 'mark' sets
# a mark that a comma clears, 'lasting' one that it does not, 'clear' clears, and 'call' is a
# parenthesis after a form that ends in one, in ENDIF or in a number.
T = namedtuple('T', 'sort does', defaults=('',))

# The entry of this number of a list comes.
Entry = namedtuple('Entry', 'number')

# A rule with arguments.
R = namedtuple('R', 'name arguments')

State = namedtuple('State', 'todo nesting name')

IDS = ('id', 'proof')
CONNECTIVES = ('AND', 'OR', 'IMPLIES', 'IFF')


def rule(name, *arguments):
    return R(name, arguments)


def listed(item, end):
    """Entries with commas between them, and what comes after the last one."""
    return [Entry(1), item, rule('rest', item, end, 1)]


def rest(item, end, number):
    return [list(end), [T(',', 'clear'), Entry(number + 1), item, rule('rest', item, end, number + 1)]]


ID = T('id')
TYPE = rule('type_')
EXPR = rule('expr')


def expr():
    return [[rule('operand')] + [rule('tail', c) for c in CONNECTIVES]]


def tail(connective):
    """What may come after operands: all operators that bind at least as tightly came before."""
    tighter = CONNECTIVES[:CONNECTIVES.index(connective) + 1]
    return [[], [T(connective, 'mark'), rule('operand')] + [rule('tail', c) for c in tighter]]


def operand():
    variables = listed(rule('binding'), (T(')', 'end'), T(':'), EXPR, 'bound'))
    bare = listed(ID, (T(':'), EXPR, 'bound'))
    parts = listed(rule('part'), (T('IN'), EXPR, 'bound'))
    binders = [[T(word, 'lasting')] + after
               for word in ('FORALL', 'EXISTS', 'LAMBDA')
               for after in ([T('(', 'frame')] + variables, bare)]
    return binders + [
        [T('NOT', 'mark'), rule('operand')],
        [T('LET', 'lasting')] + parts,
        [rule('term'), rule('compared')],
    ]


def compared():
    return [[]] + [[T(sign, 'mark'), rule('operand')] for sign in ('=', '/=')]


def term():
    return [
        [T('TRUE'), rule('applied', False)],
        [T('FALSE'), rule('applied', False)],
        [rule('name'), rule('applied', False)],
        [T('(', 'frame')] + listed(EXPR, (T(')', 'end'), rule('applied', True))),
        [T('IF', 'frame'), EXPR, T('THEN', 'clear'), EXPR, rule('otherwise'), rule('applied', True)],
    ]


def otherwise():
    return [
        [T('ELSE', 'clear'), EXPR, T('ENDIF', 'end')],
        [T('ELSIF', 'clear lasting'), EXPR, T('THEN', 'clear'), EXPR, rule('otherwise')],
    ]


def applied(closed):
    """Arguments and projections, after a form that ends in a parenthesis, ENDIF or a number or not."""
    return [
        [],
        [T('(', 'call frame' if closed else 'frame')] + listed(EXPR, (T(')', 'end'), rule('applied', True))),
        [T('`', 'mark'), T('number'), rule('applied', True)],
    ]


def actuals(end):
    return [T('[', 'frame')] + listed(rule('actual'), (T(']', 'end'),) + end)


def name():
    return [[ID], [ID, T('.'), ID], [ID] + actuals((T('.'), ID))]


def instance():
    return [[ID], [ID] + actuals(())]


def actual():
    return [[EXPR], [rule('bracket')], [rule('brace')]]


def type_():
    return [
        [rule('name')],
        [T('(', 'frame'), EXPR, T(')', 'end')],
        [rule('brace')],
        [rule('bracket')],
    ]


def brace():
    return [[T('{', 'frame'), ID, T(':'), TYPE, T('|'), EXPR, T('}', 'end')]]


def bracket():
    return [[T('[', 'frame'), Entry(1), rule('component'), rule('components', 1)]]


def components(number):
    """What comes after so many components: a tuple type has two at least."""
    more = [T(',', 'clear'), Entry(number + 1), rule('component'), rule('components', number + 1)]
    function = [T('->'), TYPE, T(']', 'end')]
    return [more, function] + ([[T(']', 'end')]] if number > 1 else [])


def component():
    return [[ID, T(':'), TYPE], [TYPE]]


def binding():
    return [[ID], [ID, T(':'), TYPE]]


def part():
    return [[ID, T('='), EXPR], [ID, T(':'), TYPE, T('='), EXPR]]


def type_word():
    return [[T('TYPE')], [T('TYPE'), T('+')], [T('NONEMPTY_TYPE')]]


def ids(end):
    return listed(ID, end)


def importing():
    return [[T('IMPORTING'), 'outermost', rule('instance'), rule('instances')]]


def instances():
    return [[], [T(','), 'outermost', rule('instance'), rule('instances')]]


def variables():
    return [ids((T(':'), T('VAR'), TYPE))]


def assumed():
    return [[rule('importing')], [rule('variables')], [ID, T(':'), T('ASSUMPTION'), EXPR]]


def declaration():
    parameters = listed(rule('binding'), (T(')', 'end'), T(':'), TYPE, rule('body')))
    return [
        [rule('importing')],
        [rule('variables')],
        ids((T(':'), rule('type_word'))),
        ids((T(':'), TYPE)),
        [ID, T(':'), T('TYPE'), T('='), TYPE],
        [ID, T('(', 'frame')] + parameters,
        [ID, T(':'), TYPE, rule('body')],
        [ID, T(':'), T('axiom'), EXPR],
        [ID, T(':'), T('lemma'), EXPR],
    ]


def body():
    return [[], [T('='), EXPR]]


def many(item):
    return [[], ['outermost', rule(item), rule('after', item)]]


def after(item):
    return [[T(';'), rule('many', item)], [rule('many', item)]]


def formal():
    return [ids((T(':'), rule('type_word'))), ids((T(':'), 'outermost', 'in a frame', TYPE))]


def formals():
    return [[], [T('[')] + listed(rule('formal'), (T(']'),))]


def theory():
    return [[T('id', 'opens'), 'outermost', rule('formals'), T(':'), T('THEORY'), T('BEGIN'),
             rule('assuming'), rule('many', 'declaration'), T('END'), T('id', 'closes')]]


def assuming():
    return [[], [T('ASSUMING'), rule('many', 'assumed'), T('ENDASSUMING')]]


def balanced():
    group = [T('(', 'frame'), rule('balanced'), T(')', 'end'), rule('balanced')]
    return [[], group, [T('any'), rule('balanced')]]


def proof():
    return [[T('('), T('proof'), ID, T('.'), ID, 'outermost', T('(', 'frame'), rule('balanced'),
             T(')', 'end'), T(')')]]


def unit():
    return [[], [rule('theory'), rule('unit')], [rule('proof'), rule('unit')]]


def script(step_rule):
    return [[T('('), rule(step_rule), rule('steps', step_rule)]]


def steps(step_rule):
    return [[rule(step_rule), rule('steps', step_rule)], [rule('scripts', step_rule)]]


def scripts(step_rule):
    return [[T(')')], [rule('script', step_rule), rule('scripts', step_rule)]]


def step():
    return [[T('('), T('word'), rule('step_arguments')]]


def step_arguments():
    more = [[T('number')], [T('outside', '-'), T('number')], [T('quoted')], [T('word')]]
    return [[T(')')]] + [first + [rule('step_arguments')] for first in more]


# The steps of the first stages: by axiom and if alone.
def boolean_step():
    return [
        [T('('), T('id', 'axiom'), T(')')],
        [T('('), T('IF', 'if'), T('number'), T(')')],
        [T('('), T('IF', 'if'), T('outside', '-'), T('number'), T(')')],
    ]


RULES = {f.__name__: f for f in (
    actual, after, applied, assumed, assuming, balanced, binding, body, boolean_step, brace, bracket,
    compared, component, components, declaration, expr, formal, formals, importing, instance,
    instances, many, name, operand, otherwise, part, proof, rest, script, scripts, step,
    step_arguments, steps, tail, term, theory, type_, type_word, unit, variables)}


@lru_cache(maxsize=None)
def ways_of(symbol):
    """The ways to read a rule."""
    return RULES[symbol.name](*symbol.arguments)


class Todo:
    """A symbol and what comes after it, made once for each pair, so that equal ones are one."""

    made = {}

    def __init__(self, symbol, todo):
        self.pair = symbol, todo

    @classmethod
    def of(cls, symbol, todo):
        key = symbol, todo
        if key not in cls.made:
            cls.made[key] = cls(symbol, todo)
        return cls.made[key]


def before(symbols, todo):
    for symbol in reversed(symbols):
        todo = Todo.of(symbol, todo)
    return todo


def level(nesting):
    kept, marks = nesting[-1]
    return kept + marks


def nested(nesting, does):
    """The nesting after a terminal, and whether the terminal opened or marked a form."""
    for change in does.split():
        kept, marks = nesting[-1]
        if change == 'frame':
            nesting = nesting + ((kept + marks + 1, 0),)
        elif change == 'end':
            nesting = nesting[:-1]
        elif change in ('mark', 'call'):
            nesting = nesting[:-1] + ((kept, marks + 1),)
        elif change == 'lasting':
            nesting = nesting[:-1] + ((kept + 1, marks),)
        elif change == 'clear':
            nesting = nesting[:-1] + ((kept, 0),)
    return nesting


def without_tails(todo):
    """After a binder or LET no operator follows: it has taken each."""
    while todo and isinstance(todo.pair[0], R) and todo.pair[0].name in ('tail', 'compared', 'applied'):
        todo = todo.pair[1]
    return todo


def takes(terminal, token, state):
    if terminal.does == 'closes':
        return token.sort in IDS and token.text == state.name
    if terminal.does in ('axiom', 'if', '-'):
        return token.text == terminal.does
    if terminal.sort == 'id':
        return token.sort in IDS
    if terminal.sort == 'any':
        return token.sort not in ('(', ')')
    if terminal.sort == 'word':
        return is_word(token)
    return token.sort == terminal.sort


def nexts(state, is_bounded):
    """The states in which a terminal comes, and the state at the end of all."""
    waiting, seen = [state], set()
    while waiting:
        state = waiting.pop()
        if state in seen:
            continue
        seen.add(state)
        if state.todo is None:
            yield state
            continue
        symbol, todo = state.todo.pair
        if isinstance(symbol, T):
            yield state
        elif isinstance(symbol, R):
            for way in ways_of(symbol):
                waiting.append(state._replace(todo=before(way, todo)))
        elif isinstance(symbol, Entry):
            if symbol.number <= LIMIT or not is_bounded:
                waiting.append(state._replace(todo=todo))
        elif symbol == 'bound':
            waiting.append(state._replace(todo=without_tails(todo)))
        elif symbol == 'outermost':
            waiting.append(state._replace(todo=todo, nesting=((0, 0),)))
        elif symbol == 'in a frame':
            waiting.append(state._replace(todo=todo, nesting=nested(state.nesting, 'frame')))


def after_token(states, token, is_bounded):
    """The states after a token."""
    found = set()
    for state in states:
        for ready in nexts(state, is_bounded):
            if ready.todo is None or not takes(ready.todo.pair[0], token, ready):
                continue
            terminal, todo = ready.todo.pair
            nesting = nested(ready.nesting, terminal.does)
            if is_bounded and level(nesting) > LIMIT:
                continue
            name = token.text if terminal.does == 'opens' else ready.name
            found.add(State(todo, nesting, name))
    return found


def is_whole(states):
    return any(ready.todo is None for state in states for ready in nexts(state, False))


def begin(start, *arguments):
    return {State(before([rule(start, *arguments)], None), ((0, 0),), None)}


def is_outside(tokens, at):
    """Whether a token that cannot stand here belongs to a part of PVS outside the profile."""
    sort = tokens[at].sort
    if sort == '=':
        earlier = [t.sort for t in tokens[max(0, at - 2):at]]
        return earlier[-1:] == ['NONEMPTY_TYPE'] or earlier == ['TYPE', '+']
    return sort in ('outside', 'quoted', '+', 'number')


def code_of(tokens, at, without_bounds):
    if without_bounds:
        return 'TooNested'
    if at > 0 and tokens[at].sort in IDS and tokens[at - 1].sort == 'END':
        return 'WrongEnd'
    return 'OutOfProfile' if is_outside(tokens, at) else 'Unexpected'


def first_fault(states, tokens, fault, end, inside=None):
    """The first fault of tokens after which a lexical fault or the end comes, or None.

    `inside` gives the first fault inside of a token, or None.
    """
    bounded = unbounded = states
    for at, token in enumerate(tokens):
        bounded = after_token(bounded, token, True)
        unbounded = after_token(unbounded, token, False)
        if not bounded:
            return token.at, code_of(tokens, at, unbounded)
        within = inside(token) if inside else None
        if within:
            return within
    if fault:
        return fault
    return None if is_whole(bounded) else (end, 'Unexpected')
