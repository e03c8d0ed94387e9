"""Counts by docs/RULES.md of rows whose windows are too long for each instant to be tried: piece by piece.

Words and forms are those of counts.py. A *piece* has the instants after one test point up to the next one. On it each
amount goes straight, by each of the bounds known here: exact steps, batches and staircases have a corner wherever they
rise, and rise nowhere else, and a linear tail is one line past its last corner. So the demand goes straight on it too,
and two amounts, at the first and at the last instant of the piece, tell where it is served first.

No piece is passed over, and nothing is taken from one piece for the next. What is counted so is held to counts.py
wherever a window is short enough for that (`check_pieces`).
"""

from functools import lru_cache

from counts import (
    EXACT_STEPS,
    FAR,
    LINEAR_TAILS,
    check_case,
    check_laws,
    demand,
    demands,
    finding as finding_by_instants,
    least_accuracy as least_accuracy_by_instants,
    no_later,
    slow_rest as slow_rest_by_instants,
    test_points,
    window,
)

# So far the test points are looked for at first, and then so many times as far, until counting stops.
NEAR, FARTHER = 2048, 4

# A window is short where so many amounts count all its instants.
SHORT = 60_000


def points_in_turn(bound, row, above):
    """The test points in order, in lists: those that are smaller than some instant, and so on up to the window."""
    begin, end = 1, min(NEAR, window(row))
    while True:
        points = set().union(*(bound.corners_before(other, end) for other in above))
        points = sorted(point for point in points if point >= begin)
        if end == window(row):
            yield points + [end]
            return
        yield points
        begin, end = end, min(FARTHER * end, window(row))


def pieces(frame, bound, row, above):
    """The pieces of the window in order: the first and the last instant of each, and the demand at both."""
    begin = 1
    for lasts in points_in_turn(bound, row, above):
        if lasts:
            firsts = [begin] + [last + 1 for last in lasts[:-1]]
            begin = lasts[-1] + 1
            at_firsts, at_lasts = (demands(frame, bound, row, above, instants) for instants in (firsts, lasts))
            yield from zip(firsts, at_firsts, lasts, at_lasts)


def first_served(speed, first, at_first, last, at_last):
    """The least instant from first to last at which a demand that goes straight is served, by a speed; or None."""
    behind, behind_at_last = at_first - speed * first, at_last - speed * last
    if behind <= 0:
        return first
    if behind_at_last > 0:
        return None
    gained, odd = divmod(behind - behind_at_last, last - first)
    assert odd == 0
    return first + -(-behind // gained)


@lru_cache(maxsize=256)
def finding(frame, bound, row, above):
    """(first rest, points tested), with None for the first rest of a row that misses."""
    rest, tested = None, 0
    for first, at_first, last, at_last in pieces(frame, bound, row, above):
        tested += 1
        if rest is None:
            rest = first_served(frame, first, at_first, last, at_last)
        if at_last <= frame * last:
            break
    return rest, tested


def slow_rest(row, above, accuracy):
    """The first rest in exact steps on a processor of speed k / (k + 1), or None."""
    for first, at_first, last, at_last in pieces(1, EXACT_STEPS, row, above):
        larger = accuracy + 1
        rest = first_served(accuracy, first, larger * at_first, last, larger * at_last)
        if rest is not None:
            return rest
    return None


def response_time(row, above):
    """First rest plus jitter in exact steps, or None."""
    rest, _ = finding(1, EXACT_STEPS, row, above)
    return None if rest is None else rest + row[3]


def least_accuracy(frame, row, above):
    """The least accuracy of a linear tail by which the row meets, or None: tried from 1 to 64."""
    for accuracy, tail in LINEAR_TAILS.items():
        if finding(frame, tail, row, above)[0] is not None:
            return accuracy
    return None


def survey(frame, bound, rows):
    """The finding of each row of a table, below the rows before it."""
    rows = tuple(rows)
    return [finding(frame, bound, row, rows[:at]) for at, row in enumerate(rows)]


def check_pieces(frame, bound, row, above):
    """Holds what is counted by a bound to docs/RULES.md: by all instants where the window is short."""
    rest, tested = finding(frame, bound, row, above)
    exact, _ = finding(frame, EXACT_STEPS, row, above)
    assert no_later(exact, rest) and no_later(rest, slow_rest(row, above, bound.accuracy))
    if rest is not None:
        assert demand(frame, bound, row, above, rest) <= frame * rest
        assert rest == 1 or demand(frame, bound, row, above, rest - 1) > frame * (rest - 1)
    for other in above[:1]:
        check_laws(frame, bound, other, min(window(row) + 1, FAR))
    if window(row) * len(above) <= SHORT:
        assert test_points(bound, row, above) == [point for some in points_in_turn(bound, row, above) for point in some]
        assert (rest, tested) == finding_by_instants(frame, bound, row, above)


def check_rows(frame, row, above, accuracy):
    """The same of all that is counted about a row in exact steps and by the linear tail of an accuracy."""
    tails = [finding(frame, tail, row, above)[0] for tail in LINEAR_TAILS.values()]
    assert all(no_later(finer, rest) for rest, finer in zip(tails, tails[1:]))
    check_pieces(frame, LINEAR_TAILS[accuracy], row, above)
    check_pieces(frame, EXACT_STEPS, row, above)
    if window(row) * len(above) <= SHORT:
        check_case(frame, row, above, accuracy, in_full=False)
        assert slow_rest(row, above, accuracy) == slow_rest_by_instants(row, above, accuracy)
        assert least_accuracy(frame, row, above) == least_accuracy_by_instants(frame, row, above)
