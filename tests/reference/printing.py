"""The text of terms and types."""

from .trees import FALSE, TRUE, actuals_of, as_for_all, mentions

PLAIN = ('name', 'variable', 'truth', 'application', 'projection', 'tuple', 'if')


class Printer:
    """Prints the trees of a theory, of a sequent with so many variables."""

    def __init__(self, development, theory, variables=0):
        self.development, self.theory, self.variables = development, theory, variables

    def reference(self, reference):
        name = self.development.entry(self.theory, reference).name
        if reference[0] != 'instance':
            return name
        actuals = [Printer(self.development, self.theory).tree(actual, 0) for actual in actuals_of(reference)]
        return '%s%s.%s' % (reference[1], '[%s]' % ', '.join(actuals) if actuals else '', name)

    def tree(self, tree, depth=0):
        """The text of a tree under so many binders."""
        return self.shown(tree, depth)[1]

    def operand(self, tree, depth):
        sort, text = self.shown(tree, depth)
        return text if sort in PLAIN else '(%s)' % text

    def variable(self, number, depth):
        if number < depth:
            return 'v!%d' % (depth - number)
        return 's!%d' % (self.variables - (number - depth))

    def shown(self, tree, depth):
        """What sort of text a tree has, and the text."""
        return getattr(self, 'shown_' + tree.form)(tree, depth, *tree.parts)

    def bound(self, type_, body, depth):
        return 'v!%d: %s' % (depth + 1, self.tree(type_, depth)), self.tree(body, depth + 1)

    def shown_TBool(self, tree, depth):
        return 'type', 'bool'

    def shown_TName(self, tree, depth, reference):
        return 'name', self.reference(reference)

    shown_Const = shown_TName

    def shown_Var(self, tree, depth, number):
        return 'variable', self.variable(number, depth)

    def shown_True(self, tree, depth):
        return 'truth', 'TRUE'

    def shown_False(self, tree, depth):
        return 'truth', 'FALSE'

    def shown_If(self, tree, depth, condition, first, second):
        if (first, second) == (FALSE, TRUE):
            quantified = as_for_all(condition)
            if quantified:
                body = quantified[1]
                if body.form == 'If' and body.parts[1:] == (FALSE, TRUE):
                    return 'binder', 'EXISTS (%s): %s' % self.bound(quantified[0], body.parts[0], depth)
            return 'not', 'NOT ' + self.operand(condition, depth)
        for sign, one, two in (('AND', first, FALSE), ('OR', TRUE, second), ('IMPLIES', first, TRUE)):
            if (one, two) == (first, second):
                right = second if sign == 'OR' else first
                return 'infix', '%s %s %s' % (self.operand(condition, depth), sign, self.operand(right, depth))
        return 'if', 'IF %s THEN %s ELSE %s ENDIF' % tuple(self.tree(part, depth) for part in tree.parts)

    def shown_Eq(self, tree, depth, left, right):
        quantified = as_for_all(tree)
        if quantified:
            return 'binder', 'FORALL (%s): %s' % self.bound(*quantified, depth)
        return 'infix', '%s = %s' % (self.operand(left, depth), self.operand(right, depth))

    def shown_Lam(self, tree, depth, type_, body):
        return 'binder', 'LAMBDA (%s): %s' % self.bound(type_, body, depth)

    def shown_App(self, tree, depth, function, argument):
        parts = whole_tuple(argument, 'Tup') or [argument]
        texts = ', '.join(self.tree(part, depth) for part in parts)
        return 'application', '%s(%s)' % (self.operand(function, depth), texts)

    def shown_Tup(self, tree, depth, tag, first, second):
        parts = whole_tuple(tree, 'Tup')
        if parts:
            return 'tuple', '(%s)' % ', '.join(self.tree(part, depth) for part in parts)
        return 'tuple', '(%d; %s, %s)' % (tag, self.tree(first, depth), self.tree(second, depth))

    def shown_Fst(self, tree, depth, tag, term):
        return self.projection(tree, depth)

    def shown_Snd(self, tree, depth, tag, term):
        return self.projection(tree, depth)

    def projection(self, tree, depth):
        """The longest chain from this tag on: Fst(k), or Snd(2), after Snd of each greater tag."""
        tag, term = tree.parts
        if tree.form == 'Snd' and tag != 2:
            return 'projection', self.operand(term, depth) + '`rest'
        number, last = 1, tag
        while term.form == 'Snd' and term.parts[0] == last + 1:
            last, term = term.parts
            number += 1
        if tree.form == 'Snd':
            number += 1
        return 'projection', '%s`%d' % (self.operand(term, depth), number)

    def shown_TSub(self, tree, depth, type_, formula):
        return 'type', '{%s | %s}' % self.bound(type_, formula, depth)

    def shown_TFun(self, tree, depth, domain, range_):
        name = 'v!%d: ' % (depth + 1) if mentions(range_) else ''
        return 'type', '[%s%s -> %s]' % (name, self.tree(domain, depth), self.tree(range_, depth + 1))

    def shown_TPair(self, tree, depth, tag, first, second):
        parts = whole_pair(tree)
        if parts:
            shown = []
            for number, part in enumerate(parts):
                rest = tree.parts[2] if number + 1 < len(parts) else None
                name = 'v!%d: ' % (depth + number + 1) if rest is not None and mentions(rest) else ''
                shown.append(name + self.tree(part, depth + number))
                tree = rest
            return 'type', '[%s]' % ', '.join(shown)
        name = 'v!%d: ' % (depth + 1) if mentions(second) else ''
        return 'type', '[%d; %s%s, %s]' % (tag, name, self.tree(first, depth), self.tree(second, depth + 1))


def whole_tuple(tree, form):
    """The parts of a tuple that has all its tags, or None."""
    parts = []
    if tree.form != form:
        return None
    tag = tree.parts[0]
    while True:
        if tree.form != form or tree.parts[0] != tag:
            return None
        parts.append(tree.parts[1])
        tree = tree.parts[2]
        if tag == 2:
            return parts + [tree]
        tag -= 1


def whole_pair(tree):
    return whole_tuple(tree, 'TPair')
