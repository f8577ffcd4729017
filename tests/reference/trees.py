"""Core trees with binder indices, and what is done to them.

A tree is made once, so equal trees are one object. A reference is `('own', number)`,
`('formal', number)` or `('instance', theory, number, actuals)`.
"""

MAX_DEPTH = 1000
MAX_SIZE = 1000000
MAX_INDEX = 1000000

# The forms whose second part stands under a variable.
BINDERS = ('TSub', 'TFun', 'TPair', 'Lam')


class TooLarge(Exception):
    """A tree would pass a limit."""


class Tree:
    """A form, its parts, and measures: depth, size, the greatest index, and 1 + the greatest free one."""

    __slots__ = ('form', 'parts', 'depth', 'size', 'top', 'free')
    made = {}

    @property
    def trees(self):
        """The parts that are trees."""
        return [part for part in self.parts if isinstance(part, Tree)]


def actuals_of(reference):
    return reference[3] if reference[0] == 'instance' else ()


def make(form, *parts):
    """The tree of a form, raised TooLarge where it passes a limit."""
    key = (form,) + parts
    if key in Tree.made:
        return Tree.made[key]
    tree = Tree()
    tree.form, tree.parts = form, parts
    below = actuals_of(parts[0]) if form in ('TName', 'Const') else tree.trees
    tree.depth = 1 + max((part.depth for part in below), default=0)
    tree.size = 1 + sum(part.size for part in below)
    tree.top = max((part.top for part in below), default=0)
    tree.free = free_below(form, parts, below)
    if form == 'Var':
        tree.top = parts[0]
    if tree.depth > MAX_DEPTH or tree.size > MAX_SIZE or tree.top > MAX_INDEX:
        raise TooLarge
    Tree.made[key] = tree
    return tree


def free_below(form, parts, below):
    if form == 'Var':
        return parts[0] + 1
    if form in ('TName', 'Const'):
        return 0
    if form in BINDERS:
        first, second = below
        return max(first.free, second.free - 1)
    return max((part.free for part in below), default=0)


BOOL = make('TBool')
TRUE = make('True')
FALSE = make('False')


def var(number):
    return make('Var', number)


def negation(tree):
    return make('If', tree, FALSE, TRUE)


def for_all(type_, tree):
    return make('Eq', make('Lam', type_, tree), make('Lam', type_, TRUE))


def exists(type_, tree):
    return negation(for_all(type_, negation(tree)))


def as_for_all(tree):
    """The type and the body of a universal formula, or None."""
    if tree.form != 'Eq':
        return None
    left, right = tree.parts
    if left.form == 'Lam' and right.form == 'Lam' and right.parts == (left.parts[0], TRUE):
        return left.parts
    return None


def mapped(tree, change, under):
    """The tree with its parts changed; a part under its variable is changed by the second function."""
    trees = [part for part in tree.parts if isinstance(part, Tree)]
    if tree.form in BINDERS:
        changed = [change(trees[0]), under(trees[1])]
    else:
        changed = [change(part) for part in trees]
    left = iter(changed)
    return make(tree.form, *(next(left) if isinstance(part, Tree) else part for part in tree.parts))


def lift(tree, by, start=0):
    """The tree with each free index that is at least `start` raised."""
    known = {}

    def go(tree, start):
        if tree.free <= start or by == 0:
            return tree
        if tree.form == 'Var':
            return var(tree.parts[0] + by)
        if (tree, start) not in known:
            known[tree, start] = mapped(tree, lambda t: go(t, start), lambda t: go(t, start + 1))
        return known[tree, start]

    return go(tree, start)


def put_in(body, term):
    """The body with the term for index 0, and the other free indices one less."""
    known = {}

    def go(tree, depth):
        if tree.free <= depth:
            return tree
        if tree.form == 'Var':
            number = tree.parts[0]
            return lift(term, depth) if number == depth else var(number - 1)
        if (tree, depth) not in known:
            known[tree, depth] = mapped(tree, lambda t: go(t, depth), lambda t: go(t, depth + 1))
        return known[tree, depth]

    return go(body, 0)


def mentions(tree, index=0):
    """Whether an index is free in a tree."""
    if tree.free <= index:
        return False
    if tree.form == 'Var':
        return tree.parts[0] == index
    parts = tree.trees
    if tree.form in BINDERS:
        return mentions(parts[0], index) or mentions(parts[1], index + 1)
    return any(mentions(part, index) for part in parts)


def instance_of_reference(reference, theory, actuals):
    """What a reference of a theory becomes in an instance of it; a formal becomes its actual."""
    if reference[0] == 'formal':
        return actuals[reference[1]]
    if reference[0] == 'own':
        return ('instance', theory, reference[1], actuals)
    inner = tuple(instance_of(actual, theory, actuals) for actual in reference[3])
    return reference[:3] + (inner,)


def instance_of(tree, theory, actuals):
    """A tree of a theory in an instance of it."""
    known = {}

    def go(tree):
        if tree not in known:
            if tree.form in ('TName', 'Const'):
                found = instance_of_reference(tree.parts[0], theory, actuals)
                known[tree] = found if isinstance(found, Tree) else make(tree.form, found)
            else:
                known[tree] = mapped(tree, go, go)
        return known[tree]

    return go(tree)


def symbols_of(*trees):
    """The references in trees, in types and actuals too."""
    found, seen, waiting = set(), set(), list(trees)
    while waiting:
        tree = waiting.pop()
        if tree in seen:
            continue
        seen.add(tree)
        if tree.form in ('TName', 'Const'):
            found.add((tree.form == 'TName', tree.parts[0]))
            waiting += actuals_of(tree.parts[0])
        waiting += tree.trees
    return {reference for _, reference in found}


def tuple_of(parts, make_pair):
    """Parts joined from the right: the last two with tag 2, then 3, and so on."""
    whole = parts[-1]
    for count, part in enumerate(reversed(parts[:-1]), 2):
        whole = make_pair(count, part, whole)
    return whole
