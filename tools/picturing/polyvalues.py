"""Polyvalues, as the smallest decision trees over ascending transactions: a leaf is a value, and an inner node asks for one outcome."""
from typing import Any, NamedTuple

# More than any value depends on that a report may show.
MOST_NAMES = 12


class Transaction(NamedTuple):
    """The name of a transaction."""

    site: int
    epoch: int
    number: int

    def __str__(self):
        return f"{self.site}.{self.epoch}.{self.number}"


class Choice(NamedTuple):
    """The value where the transaction doesn't commit, and the one where it does; they differ."""

    transaction: Transaction
    without: Any
    with_it: Any


def transaction_of(text):
    """The transaction of this name."""
    return Transaction(*map(int, text.split(".")))


def chosen(transaction, without, with_it):
    """The tree that asks for the outcome, where it matters."""
    return without if without == with_it else Choice(transaction, without, with_it)


def least_name(trees):
    """The least transaction for which a tree asks first, or None."""
    return min((tree.transaction for tree in trees if isinstance(tree, Choice)), default=None)


def side(tree, transaction, commits):
    """A tree that asks for no lesser transaction, at the outcome of this one."""
    if isinstance(tree, Choice) and tree.transaction == transaction:
        return tree.with_it if commits else tree.without
    return tree


def choose(transaction, new, old):
    """The new value where the transaction commits, else the old one."""
    least = least_name((new, old))
    if least is None or transaction <= least:
        return chosen(transaction, side(old, transaction, False), side(new, transaction, True))
    both = (choose(transaction, side(new, least, commits), side(old, least, commits)) for commits in (False, True))
    return chosen(least, *both)


def settle(tree, outcomes):
    """The tree with the outcomes that are known."""
    if not isinstance(tree, Choice):
        return tree
    if tree.transaction in outcomes:
        return settle(side(tree, tree.transaction, outcomes[tree.transaction]), outcomes)
    return chosen(tree.transaction, settle(tree.without, outcomes), settle(tree.with_it, outcomes))


def combine(trees, function):
    """The trees of what the function, which answers a tuple, makes of the values of these trees at each assignment."""
    least = least_name(trees)
    if least is None:
        return function(trees)
    without, with_it = (combine([side(tree, least, commits) for tree in trees], function) for commits in (False, True))
    return tuple(chosen(least, *pair) for pair in zip(without, with_it))


def names(tree):
    """The transactions on which the value depends."""
    if not isinstance(tree, Choice):
        return set()
    return {tree.transaction} | names(tree.without) | names(tree.with_it)


def cases(tree, literals=()):
    """The leaves from left to right, each with its literals."""
    if not isinstance(tree, Choice):
        return [(tree, literals)]
    without = cases(tree.without, literals + (f"-{tree.transaction}",))
    return without + cases(tree.with_it, literals + (f"+{tree.transaction}",))


def text_of_cases(tree):
    """The cases as a report prints them."""
    parts = []
    for value, literals in cases(tree):
        parts.append(" ".join([str(value), "if", *literals]) if literals else str(value))
    return " ; ".join(parts)


def tree_of_cases(text):
    """The tree of printed cases, or None where they aren't canonical."""
    parsed = []
    for case in text.split(" ; "):
        value, _, condition = case.partition(" if ")
        literals = [(transaction_of(word[1:]), word[0] == "+") for word in condition.split()]
        if len(literals) > MOST_NAMES:
            return None
        parsed.append((int(value), literals))
    tree = tree_of_paths(parsed)
    return tree if tree is not None and text_of_cases(tree) == text else None


def tree_of_paths(paths):
    """The tree whose leaves have these paths from left to right, or None."""
    if len(paths) == 1:
        return paths[0][0] if not paths[0][1] else None
    if not paths or not all(path[1] for path in paths):
        return None
    first = paths[0][1][0][0]
    halves = []
    for commits in (False, True):
        half = tree_of_paths([(value, literals[1:]) for value, literals in paths if literals[0] == (first, commits)])
        if half is None:
            return None
        halves.append(half)
    least = least_name(halves)
    return None if least is not None and least <= first else chosen(first, *halves)


def possible(tree):
    """The values of the cases, each once, at its first place."""
    return list(dict.fromkeys(value for value, _ in cases(tree)))
