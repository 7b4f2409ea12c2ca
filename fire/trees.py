"""Makes certificates' trees, for entries that `plan` shows by other means."""

from reports import MOST_MARKS
from second_look import Corner, Weights, least_weight


def walk_of(weighting, reduced, bound):
    """The walk of a weighting over the states of a planned instance; None where its cases can weigh nothing."""
    weights = Weights(weighting, reduced)
    least = least_weight(weights, reduced)
    return Corner(reduced, weights, least, bound) if least else None


def shortest_tree(weighting, reduced, bound, most):
    """The marks of the tree that branches only where a state is no leaf. None where that are more than `most`, or where the
    walk ends in a state that is no leaf: then there is a layer of more cases."""
    walk = walk_of(weighting, reduced, bound)
    if walk is None:
        return None
    marks, pending = [], [walk.start()]
    while pending:
        state = pending.pop()
        if walk.is_leaf(state):
            marks.append(".")
            continue
        moves = walk.moves(state[0])
        if not moves or len(marks) + len(pending) > most:
            return None
        marks.append("B")
        pending += [walk.after(state, move) for move in reversed(moves)]
    return "".join(marks)


def longest_tree(weighting, reduced, bound):
    """The marks of a tree that branches wherever a state has a move, while 500,000 marks are enough for it."""
    walk = walk_of(weighting, reduced, bound)
    marks, pending = [], [walk.start()]
    while pending:
        state = pending.pop()
        moves = walk.moves(state[0])
        if moves and len(marks) + 1 + len(pending) + len(moves) <= MOST_MARKS:
            marks.append("B")
            pending += [walk.after(state, move) for move in reversed(moves)]
        else:
            marks.append(".")
    return "".join(marks)
