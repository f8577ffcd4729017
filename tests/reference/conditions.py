"""Conditions: which are dropped, and how the others are closed."""

from .trees import TRUE, for_all, lift, make


def is_hypothesis(context, goal):
    """Whether the goal equals a hypothesis of its context."""
    binds = 0
    for sort, entry in context:
        if sort == 'bind':
            binds += 1
        elif lift(entry, binds) is goal:
            return True
    return False


def close(context, goal):
    """The goal with each bind as FORALL and each hypothesis as IMPLIES, from the inside out."""
    for sort, entry in context:
        goal = for_all(entry, goal) if sort == 'bind' else make('If', entry, goal, TRUE)
    return goal


def inner(context, variables):
    """The context without its outermost binds, which are the variables of a sequent."""
    left = sum(sort == 'bind' for sort, _ in context) - variables
    kept = []
    for sort, entry in context:
        if sort == 'bind':
            if left == 0:
                break
            left -= 1
        kept.append((sort, entry))
    return tuple(kept)


def settled(conditions, variables=0):
    """The closed conditions, without those that a hypothesis is and those that come again."""
    found = []
    for context, goal in conditions:
        context = inner(context, variables)
        if is_hypothesis(context, goal):
            continue
        closed = close(context, goal)
        if closed not in found:
            found.append(closed)
    return found
