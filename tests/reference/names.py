"""The reference of a name at a place of a theory."""

from .typing import Code

NUMBER_TYPES = set('nat naturalnumber posnat int integer rat rational real number'.split())


class Scope:
    """What the entry of this number of a theory sees: references with names, and instances.

    A condition of a formal sees only the formals before it, which are as many as `formals` says.
    """

    def __init__(self, development, theory, place, formals=None):
        self.development, self.theory = development, theory
        self.members = development.members(theory, place, formals)
        self.instances = development.instances(theory, place)

    def is_visible(self, theory, actuals=None):
        """Whether an instance of a theory is visible, or the one with these actuals."""
        return any(one == theory and actuals in (None, its) for one, its in self.instances)

    def resolve(self, kind, qualifier, word):
        """The member of a name, raised as a Code where there is none.

        A qualifier is a theory with its actuals, or with None for any. VARs are found as constants.
        """
        kinds = ('constant', 'variable') if kind == 'constant' else (kind,)
        named = [member for member in self.members if member.name == word and member.kind in kinds]
        own = [member for member in named if member.reference[0] != 'instance']
        brought = [member for member in named if member.reference[0] == 'instance']
        if qualifier is None:
            found = own or brought
        elif qualifier == (self.theory, None):
            found = [member for member in own if member.reference[0] == 'own']
        elif self.is_visible(*qualifier):
            theory, actuals = qualifier
            found = [member for member in brought
                     if member.reference[1] == theory and actuals in (None, member.reference[3])]
        else:
            raise Code('NotImported')
        if len(found) > 1:
            raise Code('Ambiguous')
        return found[0] if found else self.unknown(qualifier, word)

    def unknown(self, qualifier, word):
        """Refuses a name that nothing has; by stage 2 no type has a name yet."""
        is_number_type = qualifier is None and word in NUMBER_TYPES and self.development.stage > 2
        raise Code('OutOfProfile' if is_number_type else 'Unknown')

    def variable(self, word):
        """The VAR of a name, or None."""
        return next((member for member in self.members
                     if member.kind == 'variable' and member.name == word), None)
