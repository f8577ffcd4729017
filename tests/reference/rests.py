"""What formulas rest on, and their statuses.

A key is a theory with the reference of an own entry or of a formal of it.
"""

from .trees import symbols_of


class Rests:
    """What each key of accepted theories rests on, given the replays of the proofs that prove."""

    def __init__(self, checker, replays):
        self.checker, self.development, self.replays = checker, checker.development, replays

    def key(self, theory, reference):
        if reference[0] == 'instance':
            return reference[1], ('own', reference[2])
        return theory, reference

    def keys(self, theory, references):
        return {self.key(theory, reference) for reference in references}

    def variables(self, theory, names):
        """The keys of the VARs of these names."""
        entries = self.development.signatures[theory].entries
        return {(theory, ('own', number)) for number, entry in enumerate(entries)
                if entry.kind == 'variable' and entry.name in names}

    def of_symbols(self, theory, trees):
        return self.keys(theory, symbols_of(*(tree for tree in trees if tree is not None)))

    def direct(self, key):
        theory, reference = key
        signature, number = self.development.signatures[theory], reference[1]
        variables = self.checker.variables[theory].get(reference, set())
        if reference[0] == 'formal':
            owed = {('formal', number)}
            trees, place = [signature.formals[number].type_], -1
        else:
            entry = signature.entries[number]
            owed, place = {'condition'}, number
            trees = [part for part in (entry.first, entry.second) if hasattr(part, 'form')]
        found = self.of_symbols(theory, trees) | self.variables(theory, variables)
        found |= {(theory, ('own', other)) for other, entry in enumerate(signature.entries)
                  if entry.kind == 'formula' and entry.first in owed
                  and (reference[0] == 'formal' or entry.owner == number)}
        replay = self.replays.get(key)
        if replay:
            found |= self.keys(theory, replay.cited | replay.used) | self.variables(theory, replay.variables)
        return found | self.of_importings(theory, place)

    def of_importings(self, theory, place):
        """What an entry of this number rests on by the importings before it."""
        signature = self.development.signatures[theory]
        found, imports = set(), [one for one in signature.imports if one.place <= place]
        for number, entry in enumerate(signature.entries[:max(place, 0)]):
            if entry.first == 'import condition':
                found.add((theory, ('own', number)))
        if place >= 0 and signature.entries[place].first == 'import condition':
            own = next(one for one in signature.imports if one.place == signature.entries[place].owner)
            found |= self.of_symbols(theory, own.actuals)
        for one in imports:
            found |= self.of_symbols(theory, one.actuals)
        reached, waiting = set(), [one.theory for one in imports]
        while waiting:
            name = waiting.pop()
            if name in reached:
                continue
            reached.add(name)
            inner = self.development.signatures[name]
            waiting += [one.theory for one in inner.imports]
            for number, entry in enumerate(inner.entries):
                if entry.first == 'import condition':
                    found.add((name, ('own', number)))
            for one in inner.imports:
                found |= self.of_symbols(name, one.actuals)
        return found

    def all_of(self, key):
        """What a key rests on, in one or more steps."""
        found, waiting = set(), [key]
        while waiting:
            for other in self.direct(waiting.pop()):
                if other not in found:
                    found.add(other)
                    waiting.append(other)
        return found


def is_claim(entry):
    """Whether a formula is to be proved: a lemma or a condition."""
    return entry.kind == 'formula' and entry.first not in ('axiom', 'assumption')


def statuses(checker, theories, replays):
    """'complete', 'open' or ('incomplete', key) for each lemma and condition, in report order."""
    order = [(theory, ('own', number)) for theory in theories
             for number, entry in enumerate(checker.development.signatures[theory].entries)
             if is_claim(entry)]
    rests = Rests(checker, replays)
    found = {}
    for key in order:
        if key not in replays:
            found[key] = 'open'
            continue
        below = rests.all_of(key)
        first = next((other for other in order if other in below and other not in replays), None)
        found[key] = 'complete' if first is None else ('incomplete', first)
    return found
