"""Sequents: variables by their types, the first one first, and formulas, the first one first."""

from collections import namedtuple

from .trees import FALSE, TRUE, lift


class Sequent(namedtuple('Sequent', 'variables antecedents consequents')):
    """The antecedents together imply one of the consequents, for all values of the variables."""

    @property
    def context(self):
        return tuple(('bind', type_) for type_ in reversed(self.variables))

    def side(self, number):
        return self.antecedents if number < 0 else self.consequents

    def formula(self, number):
        """The formula of a number, or None."""
        side, at = self.side(number), abs(number) - 1
        return side[at] if number and at < len(side) else None

    def with_side(self, is_antecedent, formulas):
        return self._replace(**{'antecedents' if is_antecedent else 'consequents': tuple(formulas)})

    def without(self, number):
        side, at = self.side(number), abs(number) - 1
        return self.with_side(number < 0, side[:at] + side[at + 1:])

    def changed(self, number, formula):
        side, at = self.side(number), abs(number) - 1
        return self.with_side(number < 0, side[:at] + (formula,) + side[at + 1:])

    def added(self, is_antecedent, *formulas):
        """With new formulas first; TRUE is no new antecedent and FALSE no new consequent."""
        kept = tuple(f for f in formulas if f is not (TRUE if is_antecedent else FALSE))
        return self.with_side(is_antecedent, kept + (self.antecedents if is_antecedent else self.consequents))

    def assumes(self, *formulas):
        return self.added(True, *formulas)

    def concludes(self, *formulas):
        return self.added(False, *formulas)

    def with_variable(self, type_):
        return Sequent(self.variables + (type_,), tuple(lift(f, 1) for f in self.antecedents),
                       tuple(lift(f, 1) for f in self.consequents))

    @property
    def is_closed(self):
        return (FALSE in self.antecedents or TRUE in self.consequents
                or any(f in self.consequents for f in self.antecedents))
