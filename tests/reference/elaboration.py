"""Elaboration: the core trees of expressions and types, or their first fault with its place.

The faults are met here in their order. The conditions of a tree are no matter of elaboration: they
are those that Typing gives on it.
"""

from collections import namedtuple
from contextlib import contextmanager

from .errors import Refused
from .trees import BOOL, FALSE, TRUE, TooLarge, as_for_all, for_all, lift, make, negation, put_in, tuple_of, var
from .typing import Code, Typing, assume, bind

# The expressions whose tree is an If, besides IF itself.
CONDITIONALS = ('IF', 'NOT', 'AND', 'OR', 'IMPLIES', 'EXISTS', '/=')


@contextmanager
def placed(at, too_large_at=None):
    """Gives a place to a code, and to TooLarge the same one or another."""
    try:
        yield
    except Code as code:
        raise Refused(at, code.args[0]) from None
    except TooLarge:
        raise Refused(too_large_at or at, 'TooLarge') from None


class FreeVariable(Exception):
    """A VAR that is free in a formula was met for the first time."""


class Here(namedtuple('Here', 'locals context')):
    """The pairs of a local name and its term, the innermost last, and the context."""

    def local(self, word):
        return next((term for name, term in reversed(self.locals) if name == word), None)

    def under(self, type_, *names):
        """Under a variable of a type, with names for terms over it."""
        lifted = [(name, lift(term, 1)) for name, term in self.locals]
        return Here(lifted + list(names), bind(self.context, type_))

    def given(self, formula):
        return Here(self.locals, assume(self.context, formula))


NOWHERE = Here([], ())


def projection(term, number, count):
    """A part of a term with this many parts, counted from 1."""
    for tag in range(count, count - number + 1, -1):
        term = make('Snd', tag, term)
    return make('Fst', count - number + 1, term) if number < count else term


def number_of(digits):
    """The value of digits; 0, which is no part either, where it is too great for one."""
    digits = digits.lstrip('0')
    return int(digits) if 0 < len(digits) < 10 else 0


def with_types(bindings):
    """The bindings, those without a type with the next type to the right."""
    found, right = [], None
    for word, type_, at in reversed(bindings):
        right = type_ or right
        found.append((word, right, at))
    return found[::-1]


class Elab:
    """Elaboration in a scope. Afterwards `variables` has the names of the VARs that gave a type.

    `free` has the VARs that were met free in a formula, in order, and is None where none may be free.
    """

    def __init__(self, scope):
        self.scope, self.development = scope, scope.development
        self.typing = Typing(scope.development, scope.theory)
        self.variables, self.free = set(), None

    def formula(self, expr):
        """The tree of a formula under binds of its free VARs, in the order of first occurrence.

        A formula is read again for each VAR that is met free, now with a variable for it.
        """
        self.free, here = [], NOWHERE
        while True:
            try:
                return self.check(expr, BOOL, here), here
            except FreeVariable as met:
                member, = met.args
                self.free.append(member)
                self.variables.add(member.name)
                here = here.under(self.development.type_of(self.scope.theory, member.reference))

    # Names.

    def reference(self, kind, qualifier, word, at, here):
        """The member of a name."""
        with placed(at):
            if qualifier is None:
                return self.scope.resolve(kind, None, word.text)
            theory, actuals, _ = qualifier
            if not actuals:
                return self.scope.resolve(kind, (theory.text, None), word.text)
            if not self.scope.is_visible(theory.text):
                raise Code('NotImported')
            trees = self.actuals(theory, actuals, here)
            return self.scope.resolve(kind, (theory.text, trees), word.text)

    def actuals(self, theory, actuals, here):
        formals = self.development.signatures[theory.text].formals
        if len(actuals) != len(formals):
            raise Refused(theory.at, 'ActualCount')
        return tuple(self.actual(formal, actual, here) for formal, actual in zip(formals, actuals))

    def actual(self, formal, actual, here):
        """The tree of an actual in a name."""
        form = self.actual_form(formal, actual)
        tree = self.infer(form, here)[0] if formal.type_ else self.type(form, here)
        if tree.free:
            raise Refused(actual[-1], 'OpenActual')
        return tree

    def actual_form(self, formal, actual):
        """An actual as the type or the expression that its formal asks for."""
        is_type = actual[0] in ('subtype', 'tuple type', 'function')
        if formal.type_ is None and actual[0] == 'name':
            return ('name type',) + actual[1:]
        if formal.type_ is None and actual[0] == 'parentheses':
            return ('predicate',) + actual[1:]
        if is_type != (formal.type_ is None):
            raise Refused(actual[-1], 'ActualKind')
        return actual

    # Check and Infer.

    def check(self, expr, type_, here, at=None):
        """The tree of an expression that is checked against a type. `at` is the place of the
        parentheses round it, if there are any."""
        form, own = expr[0], expr[-1]
        at = at or own
        if form == 'parentheses':
            return self.check(expr[1], type_, here, at)
        if form in CONDITIONALS:
            condition, first, second = self.conditional(expr, at)
            condition = self.check(condition, BOOL, here)
            first = self.check(first, type_, here.given(condition))
            with placed(own):
                other = negation(condition)
            second = self.check(second, type_, here.given(other))
            with placed(own):
                return make('If', condition, first, second)
        tree, found = self.infer(expr, here)
        with placed(at):
            self.typing.coerce(here.context, tree, found, type_)
        return tree

    def infer(self, expr, here):
        """The tree of an expression and its type."""
        form = expr[0]
        if form == 'parentheses':
            return self.infer(expr[1], here)
        if form in ('TRUE', 'FALSE'):
            return {'TRUE': TRUE, 'FALSE': FALSE}[form], BOOL
        if form in CONDITIONALS:
            return self.infer_if(expr, here)
        if form in ('=', 'IFF'):
            return self.infer_equation(expr, here)
        return getattr(self, 'infer_' + form.lower())(*expr[1:], here)

    def conditional(self, expr, at):
        """The parts of the If that an expression stands for. The place of TRUE or FALSE is that of
        the right operand, or `at`."""
        form, *parts, own = expr
        if form == 'IF':
            return parts
        if form == 'NOT':
            return parts[0], ('FALSE', at), ('TRUE', at)
        if form == '/=':
            return ('=', *parts, own), ('FALSE', at), ('TRUE', at)
        if form == 'EXISTS':
            (first, *rest), body = with_types(parts[0]), parts[1]
            inner = ('EXISTS', rest, body, own) if rest else body
            return ('FORALL', [first], ('NOT', inner, own), own), ('FALSE', at), ('TRUE', at)
        left, right = parts
        if form == 'AND':
            return left, right, ('FALSE', right[-1])
        if form == 'OR':
            return left, ('TRUE', right[-1]), right
        return left, right, ('TRUE', right[-1])

    def infer_if(self, expr, here):
        own = expr[-1]
        condition, first, second = self.conditional(expr, own)
        first_at, second_at = first[-1], second[-1]
        condition = self.check(condition, BOOL, here)
        inside = here.given(condition)
        first, first_type = self.infer(first, inside)
        with placed(own):
            outside = here.given(negation(condition))
        second, second_type = self.infer(second, outside)
        if expr[0] == 'IF':
            # The tree of IF comes before the join of its branches, that of AND, OR and IMPLIES after it.
            with placed(own):
                make('If', condition, first, second)
        with placed(first_at):
            firsts = self.typing.up(first_type)
        with placed(second_at):
            seconds = self.typing.up(second_type)
        type_ = next((one for one in firsts if one in seconds), None)
        if type_ is None:
            with placed(first_at):
                type_ = self.typing.most(first_type)
            with placed(second_at, first_at):
                self.typing.coerce(inside.context, first, first_type, type_)
            with placed(second_at):
                self.typing.coerce(outside.context, second, second_type, type_)
        with placed(own):
            return make('If', condition, first, second), type_

    def infer_equation(self, expr, here):
        form, left, right, own = expr
        left_at, right_at = left[-1], right[-1]
        first, first_type = self.infer(left, here)
        with placed(left_at):
            if form == 'IFF' and self.typing.head(first_type) is not BOOL:
                raise Code('Mismatch')
        second, second_type = self.infer(right, here)
        with placed(own):
            tree = make('Eq', first, second)
        if as_for_all(tree):
            self.check_body(left, here)
            return tree, BOOL
        with placed(left_at):
            type_ = self.typing.most(first_type)
        with placed(right_at):
            self.typing.coerce(here.context, second, second_type, type_)
        with placed(right_at, left_at):
            self.typing.coerce(here.context, first, first_type, type_)
        return tree, BOOL

    def check_body(self, expr, here):
        """Checks the body of a LAMBDA, in parentheses or not, against bool."""
        while expr[0] == 'parentheses':
            expr = expr[1]
        _, bindings, body, at = expr
        _, inside = self.parameters(bindings, here, at)
        self.check(body, BOOL, inside)

    def infer_name(self, qualifier, word, at, here):
        term = self.term_of_name(qualifier, word, at, here)
        with placed(at):
            return term, self.typing.infer(here.context, term)[0]

    def term_of_name(self, qualifier, word, at, here):
        """The term of a local variable, a constant, or a VAR that is free in a formula."""
        if qualifier is None and here.local(word.text):
            return here.local(word.text)
        member = self.reference('constant', qualifier, word, at, here)
        with placed(at):
            if member.kind != 'variable':
                return make('Const', member.reference)
            if self.free is None:
                self.scope.unknown(qualifier, word.text)
        if member not in self.free:
            raise FreeVariable(member)
        binds = sum(sort == 'bind' for sort, _ in here.context)
        return var(binds - 1 - self.free.index(member))

    def infer_apply(self, function, arguments, own, here):
        function_at, first_at = function[-1], arguments[0][-1]
        function, type_ = self.infer(function, here)
        with placed(function_at):
            domain, range_ = self.typing.function_parts(type_)
        if len(arguments) == 1:
            argument = self.check(arguments[0], domain, here)
        else:
            argument, found = self.infer_tuple(arguments, first_at, here)
            with placed(first_at):
                self.typing.coerce(here.context, argument, found, domain)
        with placed(own):
            return make('App', function, argument), put_in(range_, argument)

    def infer_tuple(self, parts, own, here):
        trees, types = zip(*(self.infer(part, here) for part in parts))
        with placed(own):
            return (tuple_of(trees, lambda tag, first, rest: make('Tup', tag, first, rest)),
                    tuple_of(types, lambda tag, first, rest: make('TPair', tag, first, lift(rest, 1))))

    def infer_project(self, operand, number, own, here):
        operand_at = operand[-1]
        operand, type_ = self.infer(operand, here)
        with placed(operand_at):
            head = self.typing.head(type_)
            if head.form != 'TPair':
                raise Code('NotTuple')
        count = head.parts[0]
        if not 1 <= number_of(number.text) <= count:
            raise Refused(number.at, 'NoSuchPart')
        with placed(own):
            term = projection(operand, number_of(number.text), count)
            return term, self.typing.infer(here.context, term)[0]

    def infer_forall(self, bindings, body, own, here):
        (binding, *rest) = with_types(bindings)
        type_ = self.type_of_binding(binding, here)
        inside = here.under(type_, (binding[0].text, var(0)))
        tree = self.check(('FORALL', rest, body, own) if rest else body, BOOL, inside)
        with placed(own):
            return for_all(type_, tree), BOOL

    def infer_lambda(self, bindings, body, own, here):
        type_, inside = self.parameters(bindings, here, own)
        tree, range_ = self.infer(body, inside)
        with placed(own):
            return make('Lam', type_, tree), make('TFun', type_, range_)

    def infer_let(self, parts, body, own, here):
        (word, written, value, _), *rest = parts
        value_at = value[-1]
        if written:
            type_ = self.type(written, here)
            value = self.check(value, type_, here)
        else:
            value, type_ = self.infer(value, here)
            with placed(value_at):
                self.typing.well_formed(here.context, type_)
                self.typing.check(here.context, value, type_)
        inner = ('LET', rest, body, own) if rest else body
        tree, range_ = self.infer(inner, here.under(type_, (word.text, var(0))))
        with placed(own):
            make('TFun', type_, range_)
            return make('App', make('Lam', type_, tree), value), put_in(range_, value)

    # Types.

    def type(self, type_, here):
        """The tree of a well-formed type."""
        form, *parts, own = type_
        return getattr(self, 'type_' + form.split()[0])(*parts, own, here)

    def type_name(self, qualifier, word, own, here):
        if qualifier is None and word.text in ('bool', 'boolean'):
            return BOOL
        member = self.reference('type', qualifier, word, own, here)
        with placed(own):
            return make('TName', member.reference)

    def type_predicate(self, expr, own, here):
        predicate, type_ = self.infer(expr, here)
        with placed(expr[-1]):
            head = self.typing.head(type_)
            if head.form != 'TFun' or self.typing.head(head.parts[1]) is not BOOL:
                raise Code('NotPredicate')
        with placed(own):
            tree = make('TSub', head.parts[0], make('App', lift(predicate, 1), var(0)))
            self.typing.well_formed(here.context, tree)
            return tree

    def type_subtype(self, word, type_, expr, own, here):
        type_ = self.type(type_, here)
        formula = self.check(expr, BOOL, here.under(type_, (word.text, var(0))))
        with placed(own):
            return make('TSub', type_, formula)

    def type_tuple(self, components, own, here):
        """The type of a tuple; each component stands under those before it."""
        (first, *rest) = components
        type_ = self.type_of_binding(first, here)
        if not rest:
            return type_
        names = [(first[0].text, var(0))] if first[0] else []
        second = self.type_tuple(rest, own, here.under(type_, *names))
        with placed(own):
            return make('TPair', len(components), type_, second)

    def type_function(self, components, range_, own, here):
        type_, inside = self.parameters(components, here, own)
        range_ = self.type(range_, inside)
        with placed(own):
            return make('TFun', type_, range_)

    def parameters(self, bindings, here, own):
        """The tuple type of bindings or components, and under a variable of it their names for its
        parts."""
        bindings = with_types(bindings)
        type_ = self.type_tuple(bindings, own, here)
        names = [(word.text, projection(var(0), number, len(bindings)))
                 for number, (word, _, _) in enumerate(bindings, 1) if word]
        return type_, here.under(type_, *names)

    def type_of_binding(self, binding, here):
        """The written type of a binding, or that of the VAR of its name."""
        word, written, at = binding
        if written:
            return self.type(written, here)
        member = self.scope.variable(word.text)
        if member is None:
            raise Refused(at, 'Unknown')
        self.variables.add(word.text)
        return self.development.type_of(self.scope.theory, member.reference)
