"""Which theories are accepted, and their signatures."""

import re

from .declarations import Declarer
from .errors import Refused
from .names import Scope
from .signatures import Development, Entry, Signature

MAX_ENTRIES = 1000000

CONDITION_NAME = re.compile(r'.+_TCC[0-9]+$', re.S)


# The stage by which each form is built.

def stage_of(form):
    """The stage by which an expression or a type is built."""
    kind, *parts, _ = form
    if kind == 'name':
        return 8 if parts[0] else 2
    if kind == 'name type':
        return 8 if parts[0] else 3
    if kind in ('TRUE', 'FALSE'):
        return 2
    stage = {'predicate': 4, 'subtype': 4, 'tuple': 5, 'tuple type': 5, 'project': 5, 'LET': 5}.get(kind)
    if kind in ('parentheses', 'NOT', 'AND', 'OR', 'IMPLIES', 'IF'):
        stage = 2
    if kind == 'apply':
        stage = 5 if len(parts[1]) > 1 else 3
    if kind == 'LAMBDA':
        stage = 5 if len(parts[0]) > 1 else 3
    if kind == 'function':
        stage = 5 if len(parts[0]) > 1 or parts[0][0][0] else 3
    return max([stage or 3] + [stage_of(part) for part in inner_forms(form)])


def inner_forms(form):
    """The expressions and types inside one."""
    kind, *parts, _ = form
    if kind in ('name', 'name type', 'TRUE', 'FALSE'):
        return []
    if kind == 'project':
        return [parts[0]]
    if kind == 'apply':
        return [parts[0]] + parts[1]
    if kind == 'tuple':
        return parts[0]
    if kind in ('FORALL', 'EXISTS', 'LAMBDA'):
        return [type_ for _, type_, _ in parts[0] if type_] + [parts[1]]
    if kind == 'LET':
        return [inner for _, type_, value, _ in parts[0] for inner in (type_, value) if inner] + [parts[1]]
    if kind in ('function', 'tuple type'):
        return [type_ for _, type_, _ in parts[0]] + parts[1:]
    if kind == 'subtype':
        return parts[1:]
    return parts


def stage_of_declaration(declared):
    kind = declared[0]
    if kind == 'importing':
        return 8
    if kind == 'type':
        return 3
    if kind in ('type definition', 'variable'):
        return max(3, stage_of(declared[2]))
    if kind in ('axiom', 'lemma'):
        return stage_of(declared[2])
    _, _, parameters, type_, body = declared
    if not parameters and body is None and is_boolean(type_):
        return 2
    forms = [type_] + [type_ for _, type_, _ in parameters if type_] + ([body] if body else [])
    return max([5 if len(parameters) > 1 else 3] + [stage_of(form) for form in forms])


def is_boolean(type_):
    return type_[0] == 'name type' and type_[1] is None and type_[2].text in ('bool', 'boolean')


def stage_of_theory(theory):
    _, _, formals, assuming, declared = theory
    if formals or assuming:
        return 8
    return max([2] + [stage_of_declaration(one) for one in declared])


# Faults before the declarations are elaborated.

def kind_of(declared):
    if declared[0] in ('type', 'type definition'):
        return 'type'
    if declared[0] in ('constant', 'variable', 'constant formal'):
        return 'constant'
    return 'formula'


def repeated(declared, stage):
    """The first declared name that an earlier one of its kind has, or that may not be declared."""
    seen = set()
    for one in declared:
        if one[0] == 'importing':
            continue
        kind, word = kind_of(one), one[1]
        wrong = (kind == 'type' and word.text in ('bool', 'boolean')
                 or kind == 'formula' and stage >= 4 and CONDITION_NAME.match(word.text))
        if (kind, word.text) in seen or wrong:
            return word
        seen.add((kind, word.text))
    return None


class Checker:
    """Checks theories one after the other, each after those that it imports.

    `theories` has the theory of each name that comes first. The result of each theory is a
    signature with the VARs that gave types to each entry, or a fault.
    """

    def __init__(self, theories, stage):
        self.theories, self.stage = theories, stage
        self.development = Development(stage)
        self.results, self.variables = {}, {}

    def imports_of(self, name):
        _, _, _, assuming, declared = self.theories[name]
        return [one[1][0] for one in assuming + declared if one[0] == 'importing']

    def reaches(self, start, wanted):
        """Whether a theory is this one or reaches it by importings."""
        waiting, seen = [start], set()
        while waiting:
            name = waiting.pop()
            if name == wanted:
                return True
            if name not in seen and name in self.theories:
                seen.add(name)
                waiting += [word.text for word in self.imports_of(name)]
        return False

    def result(self, name):
        """The signature of a theory, or a refusal."""
        if name not in self.results:
            try:
                self.results[name] = self.check(self.theories[name])
            except Refused as refused:
                self.development.signatures.pop(name, None)
                self.results[name] = refused
        return self.results[name]

    def check(self, theory):
        _, word, formals, assuming, declared = theory
        if stage_of_theory(theory) > self.stage:
            raise Refused(word.at, 'OutOfProfile')
        again = repeated(formals + assuming + declared, self.stage)
        if again:
            raise Refused(again.at, 'Duplicate')
        for imported in self.imports_of(word.text):
            if imported.text not in self.theories:
                raise Refused(imported.at, 'Unknown')
            if self.reaches(imported.text, word.text):
                raise Refused(imported.at, 'Cyclic')
            if isinstance(self.result(imported.text), Refused):
                raise Refused(imported.at, 'ImportsRefused')
        return Elaboration(self, word.text).of(formals, assuming + declared)


class Elaboration:
    """Adds formals and declarations to the signature of a theory."""

    def __init__(self, checker, name):
        self.checker, self.name, self.numbers = checker, name, {}
        self.development = checker.development
        self.signature = self.development.signatures[name] = Signature(name)
        self.variables = checker.variables[name] = {}

    def of(self, formals, declared):
        for number, formal in enumerate(formals):
            self.formal(number, formal)
        for one in declared:
            self.declaration(one)
        return self.signature

    def room(self, more, at):
        if len(self.signature.formals) + len(self.signature.entries) + more > MAX_ENTRIES:
            raise Refused(at, 'TooLarge')

    def conditions(self, goals, name, class_, at):
        """Adds conditions, which are numbered for each name."""
        if goals and self.checker.stage < 4:
            raise Refused(at, 'OutOfProfile')
        for goal in goals:
            self.numbers[name] = self.numbers.get(name, 0) + 1
            text = '%s_TCC%d' % (name, self.numbers[name])
            self.signature.entries.append(Entry(text, 'formula', class_, goal))
        for number in range(len(self.signature.entries) - len(goals), len(self.signature.entries)):
            entry = self.signature.entries[number]
            self.signature.entries[number] = entry._replace(owner=len(self.signature.entries))

    def formal(self, number, formal):
        place = len(self.signature.entries)
        scope = Scope(self.development, self.name, place, number)
        form = ('type formal',) + formal[1:] if formal[0] == 'type' else formal
        given, goals, variables = Declarer(scope).declared(form)
        self.room(1 + len(goals), formal[1].at)
        self.variables['formal', number] = variables
        self.conditions(goals, formal[1].text, ('formal', number), formal[1].at)
        self.signature.formals.append(given)

    def declaration(self, declared):
        importing = declared[0] == 'importing'
        word = declared[1][0] if importing else declared[1]
        scope = Scope(self.development, self.name, len(self.signature.entries))
        given, goals, variables = Declarer(scope).declared(declared)
        self.room(len(goals) + (0 if importing else 1), word.at)
        if importing:
            self.conditions(goals, 'IMP_' + word.text, 'import condition', word.at)
            place = len(self.signature.entries)
            self.variables['import', len(self.signature.imports)] = variables
            self.signature.imports.append(given._replace(place=place))
            return
        self.conditions(goals, word.text, 'condition', word.at)
        self.variables['own', len(self.signature.entries)] = variables
        self.signature.entries.append(given)
