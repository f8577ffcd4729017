"""The rules: what a step gives of a sequent.

A rule takes the sequent and its arguments, and gives its main premises and its conditions. It
raises a Code where it does not apply.
"""

from .trees import (BINDERS, BOOL, FALSE, TRUE, Tree, as_for_all, lift, make, mapped, put_in, var)
from .typing import Code


class Rules:
    """The rules, over the typing of a theory."""

    def __init__(self, typing):
        self.typing, self.development = typing, typing.development

    def need(self, value):
        if not value:
            raise Code('NotApplicable')
        return value

    def parts(self, formula, form):
        self.need(formula.form == form)
        return formula.parts

    def check(self, sequent, term, type_):
        return self.typing.check(sequent.context, term, type_)

    # Rules of logic.

    def axiom(self, sequent):
        self.need(sequent.is_closed)
        return [], []

    def weaken(self, sequent, n):
        return [sequent.without(n)], []

    def copy(self, sequent, n):
        return [sequent.added(n < 0, sequent.formula(n))], []

    def first(self, sequent, n):
        rest = sequent.without(n)
        return [rest.with_side(n < 0, (sequent.formula(n),) + rest.side(n))], []

    def cut(self, sequent, term):
        owed = self.check(sequent, term, BOOL)
        return [sequent.assumes(term), sequent.concludes(term)], owed

    def if_(self, sequent, n):
        condition, first, second = self.parts(sequent.formula(n), 'If')
        rest = sequent.without(n)
        if n < 0:
            return [rest.assumes(condition, first), rest.assumes(second).concludes(condition)], []
        return [rest.concludes(first).assumes(condition), rest.concludes(condition, second)], []

    def iff(self, sequent, n):
        left, right = self.parts(sequent.formula(n), 'Eq')
        rest = sequent.without(n)
        if n < 0:
            return [rest.assumes(left, right), rest.concludes(left, right)], []
        owed = self.check(sequent, left, BOOL) + self.check(sequent, right, BOOL)
        return [rest.assumes(left).concludes(right), rest.assumes(right).concludes(left)], owed

    def bool(self, sequent, n):
        formula = sequent.formula(n)
        owed = [] if n < 0 else self.check(sequent, formula, BOOL)
        return [sequent.assumes(make('Eq', formula, TRUE if n < 0 else FALSE))], owed

    def skolem(self, sequent, n):
        self.need(n > 0)
        type_, body = self.need(as_for_all(sequent.formula(n)))
        return [sequent.without(n).with_variable(type_).concludes(body)], []

    def inst(self, sequent, n, term):
        self.need(n < 0)
        type_, body = self.need(as_for_all(sequent.formula(n)))
        owed = self.check(sequent, term, type_)
        return [sequent.without(n).assumes(put_in(body, term))], owed

    # Equality and reduction.

    def refl(self, sequent, n):
        self.need(n > 0)
        left, right = self.parts(sequent.formula(n), 'Eq')
        self.need(left is right)
        return [], []

    def replace(self, sequent, n, m, is_right_to_left=False):
        self.need(n < 0 and n != m)
        left, right = self.parts(sequent.formula(n), 'Eq')
        if is_right_to_left:
            left, right = right, left
        formula = sequent.formula(m)
        self.need(occurs(formula, left))
        return [sequent.changed(m, replaced(formula, left, right))], []

    def cong(self, sequent, n):
        self.need(n > 0)
        left, right = self.parts(sequent.formula(n), 'Eq')
        self.need(left.form == right.form and left.form in ('App', 'Tup', 'Fst', 'Snd'))
        self.need(left.form == 'App' or left.parts[0] == right.parts[0])
        rest = sequent.without(n)
        return [rest.concludes(make('Eq', one, two)) for one, two in zip(left.trees, right.trees)], []

    def reduced(self, sequent, n, step):
        """The first place in formula n where a step applies, changed there."""
        found = self.need(first_place(sequent.formula(n), step))
        path, new = found
        return sequent.changed(n, changed_at(sequent.formula(n), path, new))

    def beta(self, sequent, n):
        owed = []

        def step(tree):
            if tree.form != 'App' or tree.parts[0].form != 'Lam':
                return None
            function, argument = tree.parts
            owed.extend(self.check(sequent, argument, function.parts[0]))
            return put_in(function.parts[1], argument)

        return [self.reduced(sequent, n, step)], owed

    def proj(self, sequent, n):
        def step(tree):
            if tree.form not in ('Fst', 'Snd') or tree.parts[1].form != 'Tup':
                return None
            tag, first, second = tree.parts[1].parts
            return None if tag != tree.parts[0] else first if tree.form == 'Fst' else second

        return [self.reduced(sequent, n, step)], []

    def ifred(self, sequent, n):
        others = sequent.without(n)

        def step(tree):
            if tree.form != 'If':
                return None
            condition, first, second = tree.parts
            if condition is TRUE or condition in others.antecedents:
                return first
            if condition is FALSE or condition in others.consequents:
                return second
            return first if first is second else None

        return [self.reduced(sequent, n, step)], []

    def sides(self, sequent, n, form):
        """The sides of an equation, the head of the left one's type, and the conditions of both."""
        self.need(n > 0)
        left, right = self.parts(sequent.formula(n), 'Eq')
        head = self.typing.head(self.typing.infer(sequent.context, left)[0])
        self.need(head.form == form)
        type_ = self.typing.most(head)
        return left, right, head, self.check(sequent, left, type_) + self.check(sequent, right, type_)

    def ext(self, sequent, n):
        left, right, head, owed = self.sides(sequent, n, 'TFun')
        inside = sequent.without(n).with_variable(head.parts[0])
        applied = [make('App', lift(side, 1), var(0)) for side in (left, right)]
        return [inside.concludes(make('Eq', *applied))], owed

    def tupext(self, sequent, n):
        left, right, head, owed = self.sides(sequent, n, 'TPair')
        tag, rest = head.parts[0], sequent.without(n)
        return [rest.concludes(make('Eq', make(form, tag, left), make(form, tag, right)))
                for form in ('Fst', 'Snd')], owed

    def unfold(self, sequent, n, reference):
        self.need(reference)
        body = self.need(self.development.body_of(self.typing.theory, reference))
        formula, constant = sequent.formula(n), make('Const', reference)
        self.need(occurs(formula, constant))
        return [sequent.changed(n, replaced(formula, constant, body))], []

    def lemma(self, sequent, reference):
        return [sequent.assumes(self.development.formula_of(self.typing.theory, reference))], []

    def typepred(self, sequent, term):
        type_, owed = self.typing.infer(sequent.context, term)
        formulas = [put_in(upper.parts[1], term) for upper in self.typing.up(type_) if upper.form == 'TSub']
        self.need(formulas)
        return [sequent.assumes(*formulas)], owed


def occurs(tree, wanted):
    """Whether a term occurs in a tree, in types too and lifted under binders, but in no actual."""
    if tree is wanted:
        return True
    parts = tree.trees
    if tree.form in BINDERS:
        return occurs(parts[0], wanted) or occurs(parts[1], lift(wanted, 1))
    return any(occurs(part, wanted) for part in parts)


def replaced(tree, old, new):
    """The tree with every outermost occurrence of a term replaced by another."""
    if tree is old:
        return new
    if not occurs(tree, old):
        return tree
    return mapped(tree, lambda part: replaced(part, old, new),
                  lambda part: replaced(part, lift(old, 1), lift(new, 1)))


def open_parts(tree):
    """The numbers of the parts that stand under no binder and are no type."""
    if tree.form in BINDERS:
        return []
    return [number for number, part in enumerate(tree.parts) if isinstance(part, Tree)]


def first_place(tree, step):
    """The path to the first node in pre-order where a step applies, and what it gives there."""
    new = step(tree)
    if new is not None:
        return (), new
    for number in open_parts(tree):
        found = first_place(tree.parts[number], step)
        if found:
            return (number,) + found[0], found[1]
    return None


def changed_at(tree, path, new):
    if not path:
        return new
    parts = list(tree.parts)
    parts[path[0]] = changed_at(parts[path[0]], path[1:], new)
    return make(tree.form, *parts)
