"""The trees of a unit whose tokens the grammar has accepted.

A tree is a tuple: its form, its parts, and at the end the place of its first token.
"""

from .grammar import Todo, begin, first_fault
from .tokens import MAX_TEXT, place, tokens_of


class Reader:
    """Reads accepted tokens from left to right."""

    def __init__(self, tokens):
        self.tokens, self.next = tokens, 0

    def sort(self, ahead=0):
        at = self.next + ahead
        return self.tokens[at].sort if at < len(self.tokens) else 'end'

    def take(self):
        token = self.tokens[self.next]
        self.next += 1
        return token

    def takes(self, sort):
        if self.sort() != sort:
            return False
        self.next += 1
        return True

    def listed(self, item):
        items = [item()]
        while self.takes(','):
            items.append(item())
        return items

    def within(self, end, item):
        """What stands after an opening sign, up to its closing sign."""
        self.take()
        found = item()
        self.takes(end)
        return found

    # Expressions, from weak operators to strong ones.

    def expression(self, strength=0):
        if strength == 4:
            return self.operand()
        operator = ('IFF', 'IMPLIES', 'OR', 'AND')[strength]
        left = self.expression(strength + 1)
        if self.takes(operator):
            return (operator, left, self.expression(strength), left[-1])
        return left

    def operand(self):
        if self.sort() in ('NOT', 'FORALL', 'EXISTS', 'LAMBDA', 'LET'):
            return self.prefixed()
        left = self.term()
        while self.sort() in ('=', '/='):
            sign = self.take().sort
            if self.sort() in ('NOT', 'FORALL', 'EXISTS', 'LAMBDA', 'LET'):
                return (sign, left, self.prefixed(), left[-1])
            left = (sign, left, self.term(), left[-1])
        return left

    def prefixed(self):
        first = self.take()
        if first.sort == 'NOT':
            return ('NOT', self.operand(), first.at)
        if first.sort == 'LET':
            parts = self.listed(self.part)
            self.takes('IN')
            return ('LET', parts, self.expression(), first.at)
        bindings = self.bindings() if self.sort() == '(' else self.listed(self.binding)
        self.takes(':')
        return (first.sort, bindings, self.expression(), first.at)

    def bindings(self):
        return self.within(')', lambda: self.listed(self.typed_binding))

    def typed_binding(self):
        word = self.take()
        return (word, self.type() if self.takes(':') else None, word.at)

    def binding(self):
        word = self.take()
        return (word, None, word.at)

    def part(self):
        word, type_, _ = self.typed_binding()
        self.takes('=')
        return (word, type_, self.expression(), word.at)

    def term(self):
        read = self.primary()
        while True:
            if self.sort() == '(':
                arguments = self.within(')', lambda: self.listed(self.expression))
                read = ('apply', read, arguments, read[-1])
            elif self.takes('`'):
                read = ('project', read, self.take(), read[-1])
            else:
                return read

    def primary(self):
        at = self.tokens[self.next].at
        if self.sort() in ('TRUE', 'FALSE'):
            return (self.take().sort, at)
        if self.sort() == '(':
            parts = self.within(')', lambda: self.listed(self.expression))
            return ('parentheses', parts[0], at) if len(parts) == 1 else ('tuple', parts, at)
        if self.sort() == 'IF':
            return self.conditional()
        return ('name',) + self.name()

    def conditional(self):
        """What IF or ELSIF begins."""
        at = self.take().at
        condition = self.expression()
        self.takes('THEN')
        first = self.expression()
        if self.sort() == 'ELSIF':
            return ('IF', condition, first, self.conditional(), at)
        self.takes('ELSE')
        second = self.expression()
        self.takes('ENDIF')
        return ('IF', condition, first, second, at)

    def name(self):
        """The instance that qualifies a name or None, its word, and its place."""
        first = self.tokens[self.next]
        if self.sort(1) in ('[', '.'):
            instance = self.instance()
            if self.takes('.'):
                return (instance, self.take(), first.at)
        return (None, self.take(), first.at)

    def instance(self):
        word = self.take()
        actuals = self.within(']', lambda: self.listed(self.actual)) if self.sort() == '[' else []
        return (word, actuals, word.at)

    def actual(self):
        return self.type() if self.sort() in ('[', '{') else self.expression()

    # Types.

    def type(self):
        at = self.tokens[self.next].at
        if self.sort() == '(':
            return ('predicate', self.within(')', self.expression), at)
        if self.sort() == '{':
            return self.within('}', self.subtype) + (at,)
        if self.sort() == '[':
            return self.within(']', self.components) + (at,)
        return ('name type',) + self.name()

    def subtype(self):
        word = self.take()
        self.takes(':')
        type_ = self.type()
        self.takes('|')
        return ('subtype', word, type_, self.expression())

    def components(self):
        parts = self.listed(self.component)
        if self.takes('->'):
            return ('function', parts, self.type())
        return ('tuple type', parts)

    def component(self):
        at = self.tokens[self.next].at
        word = self.take() if self.sort(1) == ':' else None
        if word:
            self.takes(':')
        return (word, self.type(), at)

    # Declarations: one for each declared name.

    def declarations(self, end):
        declared = []
        while not self.takes(end):
            declared += self.declaration()
            self.takes(';')
        return declared

    def declaration(self):
        if self.takes('IMPORTING'):
            return [('importing', instance) for instance in self.listed(self.instance)]
        words = self.listed(self.take)
        parameters = self.bindings() if self.sort() == '(' else []
        self.takes(':')
        if self.sort() in ('axiom', 'lemma', 'ASSUMPTION'):
            return [(self.take().sort, words[0], self.expression())]
        if self.takes('VAR'):
            type_ = self.type()
            return [('variable', word, type_) for word in words]
        if self.sort() in ('TYPE', 'NONEMPTY_TYPE'):
            return self.types(words)
        type_ = self.type()
        body = self.expression() if self.takes('=') else None
        return [('constant', word, parameters, type_, body) for word in words]

    def types(self, words):
        nonempty = self.take().sort == 'NONEMPTY_TYPE' or self.takes('+')
        if self.takes('='):
            return [('type definition', words[0], self.type())]
        return [('type', word, nonempty) for word in words]

    def formals(self):
        return [formal for group in self.listed(self.formal) for formal in group]

    def formal(self):
        words = self.listed(self.take)
        self.takes(':')
        if self.sort() in ('TYPE', 'NONEMPTY_TYPE'):
            return self.types(words)
        type_ = self.type()
        return [('constant formal', word, type_) for word in words]

    # Units.

    def unit(self):
        items = []
        while self.sort() != 'end':
            items.append(self.proof() if self.sort() == '(' else self.theory())
        return items

    def theory(self):
        word = self.take()
        formals = self.within(']', self.formals) if self.sort() == '[' else []
        for sort in (':', 'THEORY', 'BEGIN'):
            self.takes(sort)
        assuming = self.declarations('ENDASSUMING') if self.takes('ASSUMING') else []
        declared = self.declarations('END')
        self.take()
        return ('theory', word, formals, assuming, declared)

    def proof(self):
        self.take()
        self.take()
        theory = self.take()
        self.takes('.')
        formula = self.take()
        return ('proof', theory, formula, self.within(')', self.group))

    def group(self):
        """The tokens of a script with its parentheses."""
        first, open_ = self.next - 1, 1
        self.next = first + 1
        return self.tokens[first:self.end_of(open_)]

    def end_of(self, open_):
        while open_:
            open_ += {'(': 1, ')': -1}.get(self.take().sort, 0)
        return self.next


def unit_of(text):
    """The unit of a text, or its first fault: a pair of which one is None."""
    if len(text) > MAX_TEXT:
        return None, ((1, 1), 'TextTooLong')
    Todo.made.clear()
    tokens, lexical = tokens_of(text)
    fault = first_fault(begin('unit'), tokens, lexical, place(text, len(text)))
    return (None, fault) if fault else (Reader(tokens).unit(), None)


def quoted_tokens(text, token):
    """The tokens in quotes, where a variable of a sequent is an identifier."""
    tokens, lexical = tokens_of(text, token.start + 1, token.end - 1)
    return [t._replace(sort='id') if t.sort == 'variable' else t for t in tokens], lexical


def quoted_fault(text, token):
    """The first fault of the expression in quotes, or None; None of any other token too."""
    if token.sort != 'quoted':
        return None
    tokens, lexical = quoted_tokens(text, token)
    return first_fault(begin('expr'), tokens, lexical, place(text, token.end - 1))


def quoted_expression(text, token):
    return Reader(quoted_tokens(text, token)[0]).expression()
