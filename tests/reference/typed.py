"""Theories with types, made at random: mostly right ones, and ones with a few faults.

Terms are made for a shape, which is a type without its subtypes and without the names of its
components: 'bool', a type name, `('function', arguments, result)` or `('tuple', parts)`. The types that
are written have subtypes and names besides, so conditions arise. The kinds of names share one small
pool, so a name often has several kinds, and a local variable often hides another name.
"""

from .tokens import tokens_of

POOL = 'a b c f g p q r x y z T U nat'.split()
WORDS = ['LEMMA', 'THEOREM', 'LEMMA', 'AXIOM', 'FACT']
PROOFS = [
    '(proof %(t)s.%(l)s ((if 1)))',
    '(proof %(t)s.%(l)s ((skolem 1) (if 1)))',
    '(proof %(t)s.%(l)s ((skolem 1) (skolem 1) (cut "s!1 = %(n)s") ((postpone)) ((postpone))))',
    '(proof %(t)s.%(l)s ((cut "%(e)s") ((postpone)) ((postpone))))',
    '(proof %(t)s.%(l)s ((typepred "%(e)s") (postpone)))',
    '(proof %(t)s.%(l)s ((skolem 1) (cut "%(e)s") ((postpone)) ((axiom))))',
    '(proof %(t)s.%(l)s ((skolem 1) (typepred "s!1") (cut "s!1 = s!1 AND %(e)s") ((postpone)) ((postpone))))',
    '(proof %(t)s.%(l)s ((unfold 1 "%(n)s") (postpone)))',
    '(proof %(t)s.%(l)s ((lemma "%(n)s") (postpone)))',
    '(proof %(t)s.%(l)s ((lemma "%(l)s") (axiom)))',
    '(proof %(t)s.%(l)s ((cut "%(e)s") ((lemma "%(n)s") (axiom)) ((bool 1) (postpone))))',
]


class Theory:
    """The text of a theory, and what it declares.

    `others` has the theories before it. `outside` has the texts and shapes of imported constants.
    """

    def __init__(self, random, stage, name, others):
        self.random, self.stage, self.name, self.others = random, stage, name, others
        self.types, self.aliases, self.constants, self.variables = [], {}, {}, {}
        self.formals, self.outside, self.formulas, self.used = [], {}, [], set()
        self.is_weak = self.in_formula = False
        self.wrong = random.choice([0, 0, 0, 0, 0.02])
        self.head, self.text = '', ''
        self.made()

    def chance(self, rate):
        return self.random.random() < rate

    def new(self, kind):
        """A name that its kind does not have yet."""
        name = self.random.choice(POOL)
        while (kind, name) in self.used:
            name += self.random.choice('12')
        self.used.add((kind, name))
        return name

    # Declarations.

    def made(self):
        ways = [self.type_, self.type_, self.constant, self.constant, self.variable, self.variable,
                self.function, self.formula, self.formula, self.formula]
        if self.stage >= 8:
            self.formal_part()
            ways += [self.importing] if self.others else []
        lines = self.assuming_part() + [self.type_(), self.constant()]
        for _ in range(self.random.randrange(3, 12)):
            lines.append(self.random.choice(ways)() + self.random.choice(['', '', '', ';']))
        self.text = '%s%s: THEORY\nBEGIN\n%s\nEND %s\n' % (self.name, self.head, '\n'.join(lines), self.name)

    def formal_part(self):
        if self.chance(0.5):
            return
        texts = []
        for _ in range(self.random.randrange(1, 4)):
            if not self.types or self.chance(0.5):
                name = self.new('type')
                texts.append(name + ': ' + self.random.choice(['TYPE', 'TYPE+', 'NONEMPTY_TYPE']))
                self.types.append(name)
                self.formals.append((name, None))
            shape = self.types[-1] if self.chance(0.5) else self.shape(1)
            texts.append(self.declared(shape, self.type(shape, [], 1)))
            self.formals.append((list(self.constants)[-1], shape))
        self.head = ' [%s]' % ', '.join(texts)

    def assuming_part(self):
        if not self.formals or self.chance(0.5):
            return []
        ways = [self.assumption, self.assumption, self.variable] + ([self.importing] if self.others else [])
        lines = [self.random.choice(ways)() for _ in range(self.random.randrange(1, 3))]
        return ['ASSUMING'] + lines + ['ENDASSUMING']

    def assumption(self):
        return self.formula('ASSUMPTION')

    def declared(self, shape, type_):
        """A constant of a type whose text is made before the constant is known."""
        name = self.new('constant')
        self.constants[name] = shape
        return '%s: %s' % (name, type_)

    def type_(self):
        if self.types and self.chance(0.4):
            shape = self.shape(2)
            text = self.type(shape, [], 2)
            name = self.new('type')
            self.aliases.setdefault(shape, []).append(name)
            return '%s: TYPE = %s' % (name, text)
        name = self.new('type')
        self.types.append(name)
        words = ['TYPE', 'TYPE+', 'NONEMPTY_TYPE'] if self.stage > 3 else ['TYPE+']
        text = '%s: %s' % (name, self.random.choice(words))
        return text + ('\n' + self.declared(name, name) if self.chance(0.9) else '')

    def constant(self):
        shape = self.random.choice(self.types) if self.chance(0.3) else self.shape(2)
        type_ = self.type(shape, [], 2)
        body = ' = ' + self.term(shape, [], self.random.randrange(3)) if self.chance(0.4) else ''
        return self.declared(shape, type_) + body

    def function(self):
        shapes = tuple(self.shape(1) for _ in range(self.several()))
        text, inside = self.bindings(shapes, [], True)
        result = self.shape(1)
        range_ = self.type(result, inside, 1)
        body = ' = ' + self.term(result, inside, 2) if self.chance(0.8) else ''
        name = self.new('constant')
        self.constants[name] = ('function', shapes, result)
        return '%s%s: %s%s' % (name, text, range_, body)

    def variable(self):
        shape = self.shape(2)
        type_ = self.type(shape, [], 2)
        names = [self.new('constant') for _ in range(self.random.choice([1, 1, 2]))]
        self.variables.update((name, shape) for name in names)
        return '%s: VAR %s' % (', '.join(names), type_)

    def formula(self, word=None):
        self.in_formula = True
        text = self.term('bool', [], self.random.randrange(1, 5))
        self.in_formula = False
        if self.chance(0.2):
            text = '(%s) OR TRUE' % text
        name = self.new('formula')
        self.formulas.append(name)
        return '%s: %s %s' % (name, word or self.random.choice(WORDS), text)

    def importing(self):
        other = self.random.choice(self.others)
        shapes, actuals = {}, []
        for name, shape in other.formals:
            if shape is None:
                shapes[name] = self.shape(1)
                actuals.append(self.type(shapes[name], [], 1))
            else:
                actuals.append(self.term(replaced(shape, shapes), [], 1))
        instance = other.name + ('[%s]' % ', '.join(actuals) if actuals else '')
        prefix = instance if self.chance(0.5) else other.name
        named = {name for name, _ in other.formals}
        for name in other.types:
            if name not in named:
                shapes[name] = '%s.%s' % (prefix, name)
                self.types.append(shapes[name])
        for name, shape in other.constants.items():
            if name not in named:
                self.outside['%s.%s' % (prefix, name)] = replaced(shape, shapes)
        return 'IMPORTING ' + instance

    def proofs(self):
        found = []
        for name in self.formulas:
            if self.chance(0.4):
                parts = {'t': self.name, 'l': name, 'e': self.term('bool', [], 2),
                         'n': self.random.choice(list(self.constants) + list(self.outside) + self.formulas)}
                found.append(self.random.choice(PROOFS) % parts + '\n')
        return found

    # Shapes and types.

    def several(self):
        return self.random.choice([1, 1, 2, 2, 3]) if self.stage >= 5 else 1

    def shape(self, depth):
        if depth == 0 or self.chance(0.55):
            return self.random.choice(self.types + ['bool'])
        if self.stage >= 5 and self.chance(0.35):
            return ('tuple', tuple(self.shape(depth - 1) for _ in range(self.random.randrange(2, 4))))
        return ('function', tuple(self.shape(depth - 1) for _ in range(self.several())),
                'bool' if self.chance(0.5) else self.shape(depth - 1))

    def type(self, shape, locals_, depth):
        """The text of a type of a shape."""
        if shape in self.aliases and self.chance(0.4):
            return self.random.choice(self.aliases[shape])
        if self.stage >= 4 and depth > 0 and self.chance(0.3):
            return self.subtype(shape, locals_, depth - 1)
        if shape == 'bool':
            return self.random.choice(['bool', 'boolean'])
        if isinstance(shape, str):
            return shape
        parts, inside = [], locals_
        for part in shape[1]:
            text = self.type(part, inside, depth - 1)
            if self.stage >= 5 and self.chance(0.4):
                name = self.random.choice(POOL)
                text, inside = '%s: %s' % (name, text), inside + [(name, part)]
            parts.append(text)
        if shape[0] == 'tuple':
            return '[%s]' % ', '.join(parts)
        return '[%s -> %s]' % (', '.join(parts), self.type(shape[2], inside, depth - 1))

    def subtype(self, shape, locals_, depth):
        if self.chance(0.5):
            arguments = shape[1] if shape[0] == 'tuple' and self.chance(0.5) else (shape,)
            return '(%s)' % self.name_or_built(('function', arguments, 'bool'), locals_, depth)
        type_, name = self.type(shape, locals_, depth), self.random.choice(POOL)
        return '{%s: %s | %s}' % (name, type_, self.term('bool', locals_ + [(name, shape)], depth))

    # Terms.

    def named(self, locals_):
        """The shapes of the names that stand for terms."""
        found = {text: shape for text, shape in self.outside.items()}
        for text, shape in self.outside.items():
            found.setdefault(text.split('.')[-1], shape)
        for name in self.variables:
            found.pop(name, None)
        found.update(self.constants)
        found.update(self.variables if self.in_formula else {})
        found.update(locals_)
        return found

    def term(self, shape, locals_, depth):
        """The text of a term of a shape; afterwards `is_weak` says whether it needs parentheses."""
        if self.chance(self.wrong):
            shape = self.shape(2)
        ways = [self.name_or_built]
        if depth > 0:
            ways += [self.applied] * 3 + [self.built] * 3
            ways += self.random.sample([self.conditional, self.name_or_built], 1)
            if self.stage >= 5:
                ways += self.random.sample([self.projected, self.let, self.name_or_built], 1)
        text = self.random.choice(ways)(shape, locals_, depth)
        if self.chance(0.05):
            self.is_weak, text = False, '(%s)' % text
        return text

    def operand(self, shape, locals_, depth):
        """A term in parentheses where it needs them, and now and then without."""
        text = self.term(shape, locals_, depth)
        if self.is_weak and not self.chance(0.03):
            text = '(%s)' % text
        return text

    def strong(self, text):
        self.is_weak = False
        return text

    def weak(self, text):
        self.is_weak = True
        return text

    def name_or_built(self, shape, locals_, depth):
        names = [name for name, its in self.named(locals_).items() if its == shape]
        if not names:
            return self.built(shape, locals_, depth)
        name = self.random.choice(names)
        is_own = self.stage >= 8 and name in self.constants and name not in dict(self.formals)
        return self.strong('%s.%s' % (self.name, name) if is_own and self.chance(0.1) else name)

    def built(self, shape, locals_, depth):
        if shape == 'bool':
            return self.proposition(locals_, depth)
        if isinstance(shape, str):
            return self.applied(shape, locals_, depth) if depth > -4 else self.strong(self.random.choice(POOL))
        if shape[0] == 'tuple':
            return self.strong('(%s)' % ', '.join(self.term(part, locals_, depth - 1) for part in shape[1]))
        text, inside = self.bindings(shape[1], locals_, False)
        return self.weak('LAMBDA %s: %s' % (text, self.term(shape[2], inside, depth - 1)))

    def proposition(self, locals_, depth):
        if depth <= 0:
            return self.strong(self.random.choice(['TRUE', 'FALSE']))
        sort = self.random.randrange(17) // 2
        if sort == 8:
            return self.quantified_by_equality(locals_, depth)
        if sort == 0:
            return self.weak('NOT ' + self.operand('bool', locals_, depth - 1))
        if sort < 3:
            shapes = tuple(self.shape(1) for _ in range(self.several()))
            text, inside = self.bindings(shapes, locals_, False)
            word = self.random.choice(['FORALL', 'FORALL', 'EXISTS'])
            return self.weak('%s %s: %s' % (word, text, self.term('bool', inside, depth - 1)))
        shape, sign = 'bool', self.random.choice(['AND', 'OR', 'IMPLIES', 'IFF', '&', '=>', '<=>'])
        if sort < 6:
            shape, sign = self.shape(2), self.random.choice(['=', '=', '/='])
        left = self.operand(shape, locals_, depth - 1)
        return self.weak('%s %s %s' % (left, sign, self.operand(shape, locals_, depth - 1)))

    def quantified_by_equality(self, locals_, depth):
        """An equation whose tree is that of FORALL, where the types of both sides are one; it is wrong
        where its body is not boolean."""
        name, shape = self.random.choice(POOL), self.shape(1)
        type_ = self.type(shape, locals_, 1)
        result = 'bool' if self.chance(0.9) else self.shape(1)
        body = self.term(result, locals_ + [(name, shape)], depth - 1)
        other = type_ if self.chance(0.9) else self.type(shape, locals_, 1)
        return self.strong('((LAMBDA (%s: %s): %s) = (LAMBDA (%s: %s): TRUE))'
                           % (name, type_, body, self.random.choice(POOL), other))

    def applied(self, shape, locals_, depth):
        """An application that has a shape; another name where nothing gives one."""
        calls = []
        for name, its in self.named(locals_).items():
            lists = []
            while its[0] == 'function':
                lists.append(its[1])
                its = its[2]
                if its == shape:
                    calls.append((name, list(lists)))
        if not calls and depth > 0 and not self.chance(0.2):
            return self.name_or_built(shape, locals_, depth - 1)
        if not calls and depth <= 0:
            return self.strong(self.random.choice(list(self.named(locals_)) or POOL))
        if not calls or depth > 0 and self.chance(0.05):
            shapes = tuple(self.shape(1) for _ in range(self.several()))
            calls = [('(%s)' % self.term(('function', shapes, shape), locals_, depth - 1), [shapes])]
        if depth <= 0:
            calls = [min(calls, key=lambda call: len(str(call)))]
        text, lists = self.random.choice(calls)
        for shapes in lists:
            if len(shapes) == 1 or self.chance(0.85):
                text += '(%s)' % ', '.join(self.term(one, locals_, depth - 1) for one in shapes)
            else:
                text += '(%s)' % self.term(('tuple', shapes), locals_, depth - 1)
        return self.strong(text)

    def conditional(self, shape, locals_, depth):
        test = lambda: self.term('bool', locals_, depth - 1)
        branch = lambda: self.term(shape, locals_, depth - 1)
        middle = 'ELSIF %s THEN %s ' % (test(), branch()) if self.chance(0.3) else ''
        return self.strong('IF %s THEN %s %sELSE %s ENDIF' % (test(), branch(), middle, branch()))

    def projected(self, shape, locals_, depth):
        parts = [('%s`%d' % (name, number), one) for name, its in self.named(locals_).items() if its[0] == 'tuple'
                 for number, one in enumerate(its[1], 1)]
        found = [text for text, one in parts if one == shape]
        if found:
            return self.strong(self.random.choice(found))
        others = tuple(self.shape(1) for _ in range(self.random.randrange(1, 3)))
        number = self.random.randrange(len(others) + 1)
        whole = ('tuple', others[:number] + (shape,) + others[number:])
        return self.strong('%s`%d' % (self.operand(whole, locals_, depth - 1), number + 1))

    def let(self, shape, locals_, depth):
        parts, inside = [], locals_
        for _ in range(self.random.choice([1, 1, 2])):
            name, one = self.random.choice(POOL), self.shape(1)
            written = ': ' + self.type(one, inside, 1) if self.chance(0.4) else ''
            parts.append('%s%s = %s' % (name, written, self.term(one, inside, depth - 1)))
            inside = inside + [(name, one)]
        return self.weak('LET %s IN %s' % (', '.join(parts), self.term(shape, inside, depth - 1)))

    def bindings(self, shapes, locals_, in_parentheses):
        """The text of bindings of these shapes, and the locals with them."""
        names, typed = [], []
        for shape in reversed(shapes):
            right = shapes[len(shapes) - len(typed) + typed.index(True)] if True in typed else None
            mine = [name for name, its in self.variables.items() if its == shape]
            names.insert(0, self.random.choice(POOL))
            if right is None and mine and self.chance(0.6):
                names[0] = self.random.choice(mine)
                typed.insert(0, False)
            else:
                typed.insert(0, right != shape or self.chance(0.5))
        inside = locals_ + list(zip(names, shapes))
        texts, seen = [], locals_
        for number, name in enumerate(names):
            if typed[number]:
                name += ': ' + self.type(shapes[number], seen, 1)
                seen = inside[:len(locals_) + number + 1]
            texts.append(name)
        text = ', '.join(texts)
        return '(%s)' % text if in_parentheses or True in typed or self.chance(0.3) else text, inside


def replaced(shape, shapes):
    """A shape with the names of types replaced."""
    if isinstance(shape, str):
        return shapes.get(shape, shape)
    return (shape[0], tuple(replaced(part, shapes) for part in shape[1])) + tuple(
        replaced(part, shapes) for part in shape[2:])


SIGNS = ['=', '/=', 'AND', 'OR', 'IMPLIES', 'IFF']


def mistaken(random, text):
    """The text with some names, numbers and operators exchanged, with entries of lists put in or taken
    out, or without the actuals of a name."""
    for _ in range(random.choice([1, 1, 2, 3])):
        tokens, _ = tokens_of(text)
        names = [token.text for token in tokens if token.sort == 'id'] + ['nat', 'zz', 'bool', 'TRUE']
        places = [at for at, token in enumerate(tokens[:-1])
                  if token.sort in SIGNS + ['id', 'number', 'TRUE', 'FALSE', 'NOT']]
        at = random.choice(places)
        token, end = tokens[at], tokens[at].end
        others = SIGNS if token.sort in SIGNS else '0 1 2 3 4'.split() if token.sort == 'number' else names
        new = 'NOT ' if token.sort == 'NOT' else random.choice(others)
        if token.sort not in SIGNS + ['NOT'] and tokens[at + 1].sort in (',', ')', ']') and random.random() < 0.5:
            new = '%s, %s' % (token.text, new)
            if tokens[at + 1].sort == ',' and random.random() < 0.5:
                new, end = '', tokens[at + 1].end
        elif tokens[at + 1].sort == '[' and random.random() < 0.5:
            new = token.text
            end = next(other.end for other in tokens[at:] if other.sort == ']')
        elif token.sort not in SIGNS and random.random() < 0.1:
            new = random.choice(['%s`1', '(%s)(a)', '(%s)', 'NOT (%s)', '(%s, a)', 't.%s', 'th[T].%s'])
            new = new % token.text
        text = text[:token.start] + new + text[end:]
    return text


def unit(random, stage):
    """A unit of theories with types and proofs; about half of the units have mistakes."""
    theories, pieces = [], []
    for name in random.sample(['t', 'u', 'th', 'x'], random.choice([1, 1, 2] if stage < 8 else [1, 2, 3])):
        theories.append(Theory(random, stage, name, list(theories)))
        pieces += [theories[-1].text] + theories[-1].proofs()
    if random.random() < 0.1:
        random.shuffle(pieces)
    text = '\n'.join(pieces)
    return mistaken(random, text) if random.random() < 0.5 else text
