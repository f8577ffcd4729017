"""Signatures of theories, and what is visible at a place of one."""

from collections import namedtuple

from .trees import Tree, TooLarge, instance_of, instance_of_reference, make

MAX_INSTANCES = 4096

# `type_` is None for a type formal.
Formal = namedtuple('Formal', 'name nonempty type_')

# kinds: 'type' (nonempty, body), 'constant' (type, body), 'variable' (type, None) and 'formula'
# (class, tree). The class of a condition is 'condition', 'import condition' or ('formal', number).
Entry = namedtuple('Entry', 'name kind first second owner', defaults=(0,))

Import = namedtuple('Import', 'theory actuals place')

# A reference with the name and kind of what it stands for.
Member = namedtuple('Member', 'reference name kind')


class Signature:
    """A theory as far as it is accepted."""

    def __init__(self, name):
        self.name, self.formals, self.entries, self.imports = name, [], [], []


class TooManyInstances(Exception):
    """A theory would see too many instances."""


class Development:
    """The signatures of accepted theories, and the one that is being checked, at a stage."""

    def __init__(self, stage):
        self.stage = stage
        self.signatures, self.whole = {}, {}

    def entry(self, theory, reference):
        """The formal or entry of a reference that is written in a theory."""
        if reference[0] == 'formal':
            return self.signatures[theory].formals[reference[1]]
        if reference[0] == 'own':
            return self.signatures[theory].entries[reference[1]]
        return self.signatures[reference[1]].entries[reference[2]]

    def replaced(self, tree, reference):
        if reference[0] == 'instance' and tree is not None:
            return instance_of(tree, reference[1], reference[3])
        return tree

    def type_of(self, theory, reference):
        entry = self.entry(theory, reference)
        if isinstance(entry, Formal):
            return entry.type_
        return self.replaced(entry.first, reference)

    def body_of(self, theory, reference):
        entry = self.entry(theory, reference)
        if isinstance(entry, Formal):
            return None
        return self.replaced(entry.second, reference)

    def formula_of(self, theory, reference):
        return self.replaced(self.entry(theory, reference).second, reference)

    def is_nonempty(self, theory, reference):
        entry = self.entry(theory, reference)
        return entry.nonempty if isinstance(entry, Formal) else entry.first

    # Scopes.

    def members(self, theory, place, formals=None):
        """The flat list of what an entry of this number sees; a condition of a formal sees only
        the formals before it."""
        signature = self.signatures[theory]
        found = [Member(('formal', number), formal.name, 'constant' if formal.type_ else 'type')
                 for number, formal in enumerate(signature.formals[:formals])]
        for number in range(place + 1):
            for brought in signature.imports:
                if brought.place == number:
                    found += self.brought(brought)
            if number < place:
                entry = signature.entries[number]
                found.append(Member(('own', number), entry.name, entry.kind))
        return once(found)

    def brought(self, brought):
        """What an importing brings of its theory's whole scope."""
        found = []
        for member in self.whole_members(brought.theory):
            if member.reference[0] != 'formal' and member.kind != 'variable':
                reference = instance_of_reference(member.reference, brought.theory, brought.actuals)
                found.append(member._replace(reference=reference))
        return found

    def whole_members(self, theory):
        key = 'members', theory
        if key not in self.whole:
            self.whole[key] = self.members(theory, len(self.signatures[theory].entries))
        return self.whole[key]

    def instances(self, theory, place):
        """The instances that are visible at a place, each a theory with actuals."""
        found = []
        for brought in self.signatures[theory].imports:
            if brought.place <= place:
                found += self.instances_of(brought)
        return once(found)

    def instances_of(self, brought):
        inner = [(theory, tuple(instance_of(actual, brought.theory, brought.actuals) for actual in actuals))
                 for theory, actuals in self.whole_instances(brought.theory)]
        return [(brought.theory, brought.actuals)] + inner

    def whole_instances(self, theory):
        key = 'instances', theory
        if key not in self.whole:
            self.whole[key] = self.instances(theory, len(self.signatures[theory].entries))
        return self.whole[key]

    def check_import(self, theory, brought):
        """Raises TooLarge or TooManyInstances where an importing is one too many for a theory."""
        for instance_theory, actuals in self.instances_of(brought):
            make('Const', ('instance', instance_theory, 0, actuals))
        place = len(self.signatures[theory].entries)
        if len(once(self.instances(theory, place) + self.instances_of(brought))) > MAX_INSTANCES:
            raise TooManyInstances


def once(items):
    """Each item where it comes first."""
    return list(dict.fromkeys(items))
