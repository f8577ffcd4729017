"""Declarations, formals and importings: their entries and conditions."""

from collections import namedtuple

from .conditions import settled
from .elaboration import NOWHERE, Elab, placed
from .errors import Refused
from .signatures import Entry, Formal, Import, TooManyInstances
from .trees import BOOL, TRUE, exists, for_all, instance_of, make

# What a declaration gives: an entry, a formal or an importing, whose place is set later, the closed
# conditions in order, and the names of the VARs that gave a type or are free in a formula.
Declared = namedtuple('Declared', 'given goals variables')


class Declarer:
    """Elaborates one declaration."""

    def __init__(self, scope):
        self.scope, self.development, self.elab = scope, scope.development, Elab(scope)
        self.typing, self.conditions = self.elab.typing, []

    def declared(self, declaration):
        form, *parts = declaration
        given = getattr(self, 'declared_' + form.replace(' ', '_'))(*parts)
        return Declared(given, self.settled(), self.elab.variables)

    def owe(self, at, conditions):
        """Adds conditions that come from what begins at a place."""
        self.conditions.append((at, conditions))

    def settled(self):
        goals = []
        for at, conditions in self.conditions:
            with placed(at):
                goals = settled([((), goal) for goal in goals] + conditions)
        return goals

    def well_formed(self, type_, here=NOWHERE):
        tree = self.elab.type(type_, here)
        self.owe(type_[-1], self.typing.well_formed(here.context, tree))
        return tree

    def check(self, expr, type_, here=NOWHERE):
        tree = self.elab.check(expr, type_, here)
        self.owe(expr[-1], self.typing.check(here.context, tree, type_))
        return tree

    def existence(self, type_, at):
        """Owes that a type has an element, unless it is known to be nonempty."""
        with placed(at):
            if not self.typing.is_known_nonempty(type_):
                self.owe(at, [((), exists(type_, TRUE))])

    # Types, VARs and formals.

    def declared_type(self, word, nonempty):
        return Entry(word.text, 'type', nonempty, None)

    def declared_type_definition(self, word, type_):
        return Entry(word.text, 'type', False, self.well_formed(type_))

    def declared_variable(self, word, type_):
        return Entry(word.text, 'variable', self.well_formed(type_), None)

    def declared_type_formal(self, word, nonempty):
        return Formal(word.text, nonempty, None)

    def declared_constant_formal(self, word, type_):
        return Formal(word.text, False, self.well_formed(type_))

    # Constants.

    def declared_constant(self, word, parameters, type_, body):
        if parameters:
            return Entry(word.text, 'constant', *self.function(parameters, type_, body))
        at, type_ = type_[-1], self.well_formed(type_)
        if body:
            return Entry(word.text, 'constant', type_, self.check(body, type_))
        self.existence(type_, at)
        return Entry(word.text, 'constant', type_, None)

    def function(self, parameters, range_, body):
        """The type and the body of a constant with parameters."""
        at = parameters[0][-1]
        domain, inside = self.elab.parameters(parameters, NOWHERE, at)
        self.owe(at, self.typing.well_formed((), domain))
        range_ = self.well_formed(range_, inside)
        with placed(at):
            type_ = make('TFun', domain, range_)
        if not body:
            self.existence(type_, at)
            return type_, None
        tree = self.check(body, range_, inside)
        with placed(body[-1]):
            return type_, make('Lam', domain, tree)

    # Formulas.

    def declared_axiom(self, word, expr):
        return self.formula(word, 'axiom', expr)

    def declared_lemma(self, word, expr):
        return self.formula(word, 'lemma', expr)

    def declared_ASSUMPTION(self, word, expr):
        return self.formula(word, 'assumption', expr)

    def formula(self, word, class_, expr):
        tree, here = self.elab.formula(expr)
        self.owe(expr[-1], self.typing.check(here.context, tree, BOOL))
        with placed(expr[-1]):
            for _, type_ in here.context:
                tree = for_all(type_, tree)
        return Entry(word.text, 'formula', class_, tree)

    # Importings.

    def declared_importing(self, instance):
        theory, actuals, at = instance
        signature = self.development.signatures[theory.text]
        if signature.formals and not actuals:
            raise Refused(at, 'GenericImporting')
        if len(actuals) != len(signature.formals):
            raise Refused(at, 'ActualCount')
        trees = ()
        for formal, actual in zip(signature.formals, actuals):
            trees += (self.actual(theory.text, formal, actual, trees),)
        brought = Import(theory.text, trees, None)
        with placed(at):
            self.owe(at, [((), instance_of(entry.second, theory.text, trees)) for entry in signature.entries
                          if entry.kind == 'formula' and entry.first == 'assumption'])
            try:
                self.development.check_import(self.scope.theory, brought)
            except TooManyInstances:
                raise Refused(at, 'TooManyInstances') from None
        return brought

    def actual(self, theory, formal, actual, before):
        """The tree of an actual, given those before it."""
        form, at = self.elab.actual_form(formal, actual), actual[-1]
        if formal.type_ is None:
            tree = self.well_formed(form)
            if formal.nonempty:
                self.existence(tree, at)
            return tree
        with placed(at):
            type_ = instance_of(formal.type_, theory, before)
        return self.check(form, type_)
