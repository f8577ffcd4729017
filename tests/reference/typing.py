"""Types of core trees, and the conditions for them.

A context is a tuple, the innermost entry first, of `('bind', type)` and `('hyp', formula)`. A
condition is a context with a goal. A code is raised as a `Code`, or as TooLarge.
"""

from .trees import BOOL, FALSE, TRUE, Tree, as_for_all, lift, make, mentions, negation, put_in, var


class Code(Exception):
    """A code that refuses a tree."""


def bind(context, type_):
    return (('bind', type_),) + context


def assume(context, formula):
    return (('hyp', formula),) + context


class Typing:
    """Typing of the trees of a theory."""

    def __init__(self, development, theory):
        self.development, self.theory = development, theory

    def body(self, type_):
        """The body of a defined type name, or None."""
        if type_.form != 'TName':
            return None
        return self.development.body_of(self.theory, type_.parts[0])

    def head(self, type_):
        while True:
            body = self.body(type_)
            if body is not None:
                type_ = body
            elif type_.form == 'TSub':
                type_ = type_.parts[0]
            else:
                return type_

    def up(self, type_):
        found = [type_]
        while True:
            body = self.body(type_)
            if body is None and type_.form != 'TSub':
                return found
            type_ = type_.parts[0] if body is None else body
            found.append(type_)

    def most(self, type_):
        body = self.body(type_)
        if body is not None:
            return self.most(body)
        if type_.form == 'TSub':
            return self.most(type_.parts[0])
        if type_.form == 'TFun':
            domain, range_ = type_.parts
            return make('TFun', domain, self.most(range_))
        if type_.form == 'TPair':
            tag, first, second = type_.parts
            second = self.most(second)
            return make('TPair', tag, first if mentions(second) else self.most(first), second)
        return type_

    def is_known_nonempty(self, type_):
        if type_.form == 'TBool':
            return True
        if type_.form == 'TName':
            body = self.body(type_)
            if body is not None:
                return self.is_known_nonempty(body)
            return self.development.is_nonempty(self.theory, type_.parts[0])
        if type_.form == 'TFun':
            return self.is_known_nonempty(type_.parts[1])
        if type_.form == 'TPair':
            return self.is_known_nonempty(type_.parts[1]) and self.is_known_nonempty(type_.parts[2])
        return False

    def coerce(self, context, term, from_, to):
        """The conditions under which a term of one type is of another."""
        if to in self.up(from_):
            return []
        body = self.body(to)
        if body is not None:
            return self.coerce(context, term, from_, body)
        if to.form == 'TSub':
            type_, formula = to.parts
            conditions = self.coerce(context, term, from_, type_)
            return conditions + [(context, put_in(formula, term))]
        from_ = self.head(from_)
        if to.form in ('TBool', 'TName') and from_ is to:
            return []
        if to.form == 'TPair' and from_.form == 'TPair' and to.parts[0] == from_.parts[0]:
            return self.coerce_pair(context, term, from_, to)
        if to.form == 'TFun' and from_.form == 'TFun':
            return self.coerce_function(context, term, from_, to)
        raise Code('Mismatch')

    def coerce_pair(self, context, term, from_, to):
        tag, first_from, second_from = from_.parts
        _, first_to, second_to = to.parts
        is_tuple = term.form == 'Tup'
        first = term.parts[1] if is_tuple else make('Fst', tag, term)
        conditions = self.coerce(context, first, first_from, first_to)
        second = term.parts[2] if is_tuple else make('Snd', tag, term)
        return conditions + self.coerce(context, second, put_in(second_from, first), put_in(second_to, first))

    def coerce_function(self, context, term, from_, to):
        domain_from, range_from = from_.parts
        domain_to, range_to = to.parts
        conditions, inside = [], bind(context, domain_from)
        if domain_from is not domain_to:
            left, right = lift(domain_from, 1), lift(domain_to, 1)
            conditions += self.coerce(inside, var(0), left, right)
            conditions += self.coerce(bind(context, domain_to), var(0), right, left)
        if term.form == 'Lam' and term.parts[0] is domain_from:
            applied = term.parts[1]
        else:
            applied = make('App', lift(term, 1), var(0))
        return conditions + self.coerce(inside, applied, range_from, range_to)

    def infer(self, context, term):
        """The type of a term, and its conditions."""
        return getattr(self, 'infer_' + term.form)(context, *term.parts)

    def infer_Var(self, context, number):
        types = [entry for sort, entry in context if sort == 'bind']
        return lift(types[number], number + 1), []

    def infer_Const(self, context, reference):
        return self.development.type_of(self.theory, reference), []

    def infer_True(self, context):
        return BOOL, []

    infer_False = infer_True

    def infer_Lam(self, context, type_, body):
        conditions = self.well_formed(context, type_)
        range_, more = self.infer(bind(context, type_), body)
        return make('TFun', type_, range_), conditions + more

    def infer_App(self, context, function, argument):
        type_, conditions = self.infer(context, function)
        domain, range_ = self.function_parts(type_)
        conditions = conditions + self.check(context, argument, domain)
        return put_in(range_, argument), conditions

    def function_parts(self, type_):
        head = self.head(type_)
        if head.form != 'TFun':
            raise Code('NotFunction')
        return head.parts

    def infer_Tup(self, context, tag, first, second):
        first_type, conditions = self.infer(context, first)
        second_type, more = self.infer(context, second)
        return make('TPair', tag, first_type, lift(second_type, 1)), conditions + more

    def pair_parts(self, type_, tag):
        head = self.head(type_)
        if head.form != 'TPair':
            raise Code('NotTuple')
        if head.parts[0] != tag:
            raise Code('NoSuchPart')
        return head.parts[1:]

    def infer_Fst(self, context, tag, term):
        type_, conditions = self.infer(context, term)
        return self.pair_parts(type_, tag)[0], conditions

    def infer_Snd(self, context, tag, term):
        type_, conditions = self.infer(context, term)
        return put_in(self.pair_parts(type_, tag)[1], make('Fst', tag, term)), conditions

    def infer_If(self, context, condition, first, second):
        conditions = self.check(context, condition, BOOL)
        inside = assume(context, condition)
        first_type, more = self.infer(inside, first)
        outside = assume(context, negation(condition))
        second_type, last = self.infer(outside, second)
        conditions = conditions + more + last
        firsts, seconds = self.up(first_type), self.up(second_type)
        for type_ in firsts:
            if type_ in seconds:
                return type_, conditions
        type_ = self.most(first_type)
        conditions = conditions + self.coerce(inside, first, first_type, type_)
        return type_, conditions + self.coerce(outside, second, second_type, type_)

    def infer_Eq(self, context, left, right):
        quantified = as_for_all(make('Eq', left, right))
        if quantified:
            type_, body = quantified
            return BOOL, self.well_formed(context, type_) + self.check(bind(context, type_), body, BOOL)
        left_type, conditions = self.infer(context, left)
        right_type, more = self.infer(context, right)
        type_ = self.most(left_type)
        conditions = conditions + more + self.coerce(context, right, right_type, type_)
        return BOOL, conditions + self.coerce(context, left, left_type, type_)

    def check(self, context, term, type_):
        """The conditions under which a term is of a type."""
        if term.form == 'If':
            condition, first, second = term.parts
            conditions = self.check(context, condition, BOOL)
            conditions = conditions + self.check(assume(context, condition), first, type_)
            return conditions + self.check(assume(context, negation(condition)), second, type_)
        found, conditions = self.infer(context, term)
        return conditions + self.coerce(context, term, found, type_)

    def well_formed(self, context, type_):
        if type_.form in ('TBool', 'TName'):
            return []
        first, second = type_.trees
        conditions = self.well_formed(context, first)
        if type_.form == 'TSub':
            return conditions + self.check(bind(context, first), second, BOOL)
        return conditions + self.well_formed(bind(context, first), second)
