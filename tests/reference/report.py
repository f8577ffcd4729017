"""The report of a unit, at a stage of the language.

A stage says what is built: by 2 theories of boolean constants are checked, by 3
simple types, by 4 predicate subtypes with their conditions, by 5 tuples and dependent types, by 6
the rules of logic, by 7 those of equality, and by 8 theories with parameters and importings.
"""

from .errors import Refused
from .printing import Printer
from .proofs import Replay, script_of
from .reading import unit_of
from .rests import is_claim, statuses
from .theories import Checker, stage_of_theory


def report_of(text, stage):
    """The report of the unit of a text, and the exit status."""
    items, fault = unit_of(text)
    if fault:
        return totalled([('refused', 'unit u refused ' + shown(fault))])
    return totalled(Report(text, items, stage).lines())


def shown(fault):
    (line, column), code = fault
    return '%d:%d %s' % (line, column, code)


class Report:
    """The lines of the items of a unit."""

    def __init__(self, text, items, stage):
        self.text, self.items, self.stage = text, items, stage
        first = {}
        for item in items:
            if item[0] == 'theory':
                first.setdefault(item[1].text, item)
        self.checker = Checker(first, stage)
        self.first = first
        self.named = set()
        self.replays, self.refusals = {}, {}

    def fault(self, theory):
        """The fault of a theory, or None where it is accepted."""
        if self.first[theory[1].text] is not theory:
            if stage_of_theory(theory) > self.stage:
                return theory[1].at, 'OutOfProfile'
            return theory[1].at, 'Duplicate'
        result = self.checker.result(theory[1].text)
        return result.fault if isinstance(result, Refused) else None

    def accepted(self, name):
        return name in self.first and not self.fault(self.first[name])

    def formula(self, proof):
        """The key of the formula of a proof."""
        _, theory, formula, _ = proof
        if self.accepted(theory.text):
            entries = self.checker.development.signatures[theory.text].entries
            for number, entry in enumerate(entries):
                if entry.kind == 'formula' and entry.name == formula.text:
                    return (theory.text, ('own', number)), entry
        raise Refused(theory.at, 'NoSuchFormula')

    def replay(self, proof):
        at = proof[1].at
        key, entry = self.formula(proof)
        if not is_claim(entry):
            raise Refused(at, 'ProofOfAxiom' if self.stage >= 6 else 'NoSuchFormula')
        if key in self.named:
            raise Refused(at, 'SecondProof' if self.stage >= 6 else 'NoSuchFormula')
        self.named.add(key)
        script = script_of(self.text, proof[3], self.stage)
        replay = Replay(self.checker.development, key[0], key[1][1], self.text, self.stage)
        if replay.run(script):
            self.replays[key] = replay

    def lines(self):
        """The lines up to the last one, each with what it counts as."""
        for item in self.items:
            if item[0] == 'proof':
                try:
                    self.replay(item)
                except Refused as refused:
                    self.refusals[id(item)] = refused.fault
        accepted = [item[1].text for item in self.items if item[0] == 'theory' and not self.fault(item)]
        self.statuses = statuses(self.checker, accepted, self.replays)
        return [line for item in self.items for line in self.item_lines(item)]

    def item_lines(self, item):
        if item[0] == 'proof':
            fault = self.refusals.get(id(item))
            name = '%s.%s' % (item[1].text, item[2].text)
            return [('refused', 'proof %s refused %s' % (name, shown(fault)))] if fault else []
        fault = self.fault(item)
        if fault:
            return [('refused', 'theory %s refused %s' % (item[1].text, shown(fault)))]
        lines = [('theory', 'theory ' + item[1].text)]
        entries = self.checker.development.signatures[item[1].text].entries
        for number, entry in enumerate(entries):
            if entry.kind == 'formula':
                lines += self.formula_lines(item[1].text, number, entry)
        return lines

    def formula_lines(self, theory, number, entry):
        if not is_claim(entry):
            return [('axiom', '%s.%s %s' % (theory, entry.name, entry.first))]
        status = self.statuses[theory, ('own', number)]
        word = status
        if isinstance(status, tuple):
            status, (other, (_, formula)) = status
            word = 'incomplete %s.%s' % (other, self.checker.development.signatures[other].entries[formula].name)
        lines = [(status, '%s.%s %s' % (theory, entry.name, word))]
        if entry.first != 'lemma':
            lines.append(('term', '  ' + Printer(self.checker.development, theory).tree(entry.second)))
        return lines


def totalled(lines):
    """The text of the lines with the last one, and the exit status."""
    counts = [sum(sort == word for sort, _ in lines) for word in ('complete', 'incomplete', 'open', 'refused')]
    text = ''.join(line + '\n' for _, line in lines)
    text += 'total complete %d incomplete %d open %d refused %d\n' % tuple(counts)
    return text, 0 if not any(counts[1:]) else 1
