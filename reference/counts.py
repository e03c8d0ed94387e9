"""Counts by docs/RULES.md alone and by brute force: each amount from its definition, each instant tried in turn.

A row is a tuple (C, D, T, J) of valid numbers, `above` a tuple of the rows above it in rank order, a frame and
an instant are plain numbers, and a bound is EXACT_STEPS, one of LINEAR_TAILS or of STAIRCASES, or `Batches` of an
accuracy and a size, the bound that docs/OWN_BOUND.md brings. All numbers are whole.

Nothing here knows that test points are enough, that demand never falls, or what one bound tells about another:
a first rest is the least instant that was tried and found one. `check_case` holds the counts of a case to what
docs/RULES.md says of them.
"""

from functools import lru_cache
from itertools import repeat

from leaves import HORIZON, MOST_ACCURACY, MOST_ROWS

# The checks that go from instant to instant end after so many.
FAR = 600

# The powers of two that may be the grain of a staircase: no row has more jobs up to the horizon.
POWERS_OF_TWO = [2 ** exponent for exponent in range(26)]


# --- Rows --------------------------------------------------------------------------------------------------


def window(row):
    """The time left to a row once it is ready, V = D - J."""
    _, deadline, _, jitter = row
    return deadline - jitter


def steps(row, instant):
    """The request bound with release jitter, s(t) = C x ceiling((t + J) / T)."""
    work, _, period, jitter = row
    return work * -(-(instant + jitter) // period)


def exact_demand(row, above, instant):
    """W(t): the row's own work and the steps of each row above it."""
    return row[0] + sum(steps(other, instant) for other in above)


# --- Bounds ------------------------------------------------------------------------------------------------


class ExactSteps:
    """The bound whose amounts are the steps themselves."""

    accuracy = 64
    most = HORIZON

    def amount(self, frame, row, instant):
        """f(t) in parts."""
        return frame * steps(row, instant)

    def amounts(self, frame, row, instants):
        """f(t) at each of some instants, as `amount` has it, written out for speed."""
        work, _, period, jitter = row
        each = frame * work
        return [each * -(-(instant + jitter) // period) for instant in instants]

    def corners_before(self, row, end):
        """The corners that are smaller than an instant: b x T - J for b = 1, 2, 3, ..."""
        _, _, period, jitter = row
        corners = []
        number = 1
        while number * period - jitter < end:
            corners.append(number * period - jitter)
            number += 1
        return corners


class LinearTail:
    """The bound that follows the steps for a while and goes on straight, made with an accuracy."""

    def __init__(self, accuracy):
        """The tail of an accuracy."""
        assert 1 <= accuracy <= MOST_ACCURACY
        self.accuracy = accuracy
        self.most = accuracy - 1

    def amount(self, frame, row, instant):
        """f(t) in parts."""
        work, _, period, jitter = row
        if instant + jitter <= (self.accuracy - 1) * period:
            return frame * steps(row, instant)
        return frame * work + (instant + jitter) * work * (frame // period)

    def amounts(self, frame, row, instants):
        """f(t) at each of some instants, as `amount` has it, written out for speed."""
        work, _, period, jitter = row
        each = frame * work
        slope = work * (frame // period)
        last = (self.accuracy - 1) * period
        return [
            each * -(-(instant + jitter) // period)
            if instant + jitter <= last
            else each + (instant + jitter) * slope
            for instant in instants
        ]

    def corners_before(self, row, end):
        """The corners that are smaller than an instant: b x T - J for b from 1 to k - 1."""
        _, _, period, jitter = row
        corners = [number * period - jitter for number in range(1, self.accuracy)]
        return [corner for corner in corners if corner < end]


class Staircase:
    """The bound that counts jobs one by one for a while, and then in grains that grow, made with an accuracy."""

    def __init__(self, accuracy):
        """The staircase of an accuracy."""
        assert 1 <= accuracy <= MOST_ACCURACY
        self.accuracy = accuracy
        self.most = 26 * accuracy
        self.known = {}  # numbers of jobs that were rounded already

    def grain(self, jobs):
        """The greatest power of two of which as many as the accuracy are no more than the jobs: all are tried."""
        return max(power for power in POWERS_OF_TWO if self.accuracy * power <= jobs)

    def rounded(self, jobs):
        """The jobs that are counted for a number of jobs: itself up to the accuracy, else up to a whole grain."""
        if jobs not in self.known:
            grain = 1 if jobs <= self.accuracy else self.grain(jobs)
            self.known[jobs] = -(-jobs // grain) * grain
        return self.known[jobs]

    def amount(self, frame, row, instant):
        """f(t) in parts."""
        work, _, period, jitter = row
        return frame * work * self.rounded(-(-(instant + jitter) // period))

    def amounts(self, frame, row, instants):
        """f(t) at each of some instants, as `amount` has it, written out for speed."""
        work, _, period, jitter = row
        each, rounded = frame * work, self.rounded
        return [each * rounded(-(-(instant + jitter) // period)) for instant in instants]

    def corners_before(self, row, end):
        """The corners that are smaller than an instant: r x T - J for each r that is counted as itself; all tried."""
        _, _, period, jitter = row
        corners = []
        number = 1
        while number * period - jitter < end:
            if self.rounded(number) == number:
                corners.append(number * period - jitter)
            number += 1
        return corners


class Batches:
    """The bound of docs/OWN_BOUND.md: jobs are counted in batches of a size once they fill as many as its accuracy."""

    most = HORIZON

    def __init__(self, accuracy, size):
        """The bound by batches of an accuracy and a size."""
        assert 1 <= accuracy <= MOST_ACCURACY and 1 <= size <= HORIZON
        self.accuracy = accuracy
        self.size = size

    def amount(self, frame, row, instant):
        """f(t) in parts."""
        work, _, period, jitter = row
        jobs = -(-(instant + jitter) // period)
        if jobs >= self.accuracy * self.size:
            jobs = -(-jobs // self.size) * self.size
        return frame * work * jobs

    def amounts(self, frame, row, instants):
        """f(t) at each of some instants."""
        return [self.amount(frame, row, instant) for instant in instants]

    def corners_before(self, row, end):
        """The corners that are smaller than an instant: wherever exact steps rise."""
        return EXACT_STEPS.corners_before(row, end)


EXACT_STEPS = ExactSteps()
LINEAR_TAILS = {accuracy: LinearTail(accuracy) for accuracy in range(1, MOST_ACCURACY + 1)}
STAIRCASES = {accuracy: Staircase(accuracy) for accuracy in range(1, MOST_ACCURACY + 1)}

# The staircase of accuracy 2, worked by hand at a row of period 4 without jitter.
assert [STAIRCASES[2].rounded(jobs) for jobs in range(1, 10)] == [1, 2, 3, 4, 6, 6, 8, 8, 12]
assert STAIRCASES[2].corners_before((1, 4, 4, 0), 41) == [4, 8, 12, 16, 24, 32]


# --- Rests -------------------------------------------------------------------------------------------------


def demand(frame, bound, row, above, instant):
    """G(t): the row's own work and the amount of each row above it, in parts."""
    return frame * row[0] + sum(bound.amount(frame, other, instant) for other in above)


def rests(frame, bound, row, above, instant):
    """Whether all that is demanded up to an instant is served by it."""
    return demand(frame, bound, row, above, instant) <= frame * instant


def stretches(last):
    """The instants from 1 to `last` in order, in stretches, so that work on them can stop early."""
    start, length = 1, 32
    while start <= last:
        end = min(start + length, last + 1)
        yield range(start, end)
        start, length = end, min(2 * length, 8192)


def demands(frame, bound, row, above, instants):
    """G(t) at each of some instants."""
    own = frame * row[0]
    if not above:
        return len(instants) * [own]
    return list(map(sum, zip(repeat(own), *(bound.amounts(frame, other, instants) for other in above))))


@lru_cache(maxsize=512)
def first_rest(frame, bound, row, above):
    """The least instant from 1 to the window at which the row rests, or None where it misses: all are tried."""
    for instants in stretches(window(row)):
        for instant, total in zip(instants, demands(frame, bound, row, above, instants)):
            if total <= frame * instant:
                return instant
    return None


def slow_rest(row, above, accuracy):
    """The first rest in exact steps on a processor of speed k / (k + 1), or None: all instants are tried."""
    for instants in stretches(window(row)):
        for instant, total in zip(instants, demands(1, EXACT_STEPS, row, above, instants)):
            if (accuracy + 1) * total <= accuracy * instant:
                return instant
    return None


# --- Findings ----------------------------------------------------------------------------------------------


def test_points(bound, row, above):
    """The corners of the rows above that are smaller than the window, and the window; each one time, in order."""
    points = {window(row)}
    for other in above:
        points.update(bound.corners_before(other, window(row)))
    return sorted(points)


def points_tested(frame, bound, row, above):
    """How many test points there are up to the first at which the row rests, or in all when there is none."""
    tested = 0
    for point in test_points(bound, row, above):
        tested += 1
        if rests(frame, bound, row, above, point):
            break
    return tested


def finding(frame, bound, row, above):
    """(first rest, points tested), with None for the first rest of a row that misses."""
    return first_rest(frame, bound, row, above), points_tested(frame, bound, row, above)


def survey(frame, bound, rows):
    """The finding of each row of a table, below the rows before it."""
    rows = tuple(rows)
    return [finding(frame, bound, row, rows[:at]) for at, row in enumerate(rows)]


def response_time(row, above):
    """First rest plus jitter in exact steps, or None. No frame is asked for: at frame 1 a part is a unit of work."""
    rest = first_rest(1, EXACT_STEPS, row, above)
    return None if rest is None else rest + row[3]


def least_accuracy(frame, row, above):
    """The least accuracy of a linear tail by which the row meets, or None: tried from 1 to 64."""
    for accuracy, tail in LINEAR_TAILS.items():
        if first_rest(frame, tail, row, above) is not None:
            return accuracy
    return None


# --- What docs/RULES.md says of them -----------------------------------------------------------------------


def no_later(rest, other):
    """Whether `rest` is there and no later, wherever `other` is there."""
    return other is None or (rest is not None and rest <= other)


def check_laws(frame, bound, row, last):
    """Holds a bound to its laws at a row on the frame, for the instants from 0 to `last`."""
    instants = range(last + 1)
    amounts = [bound.amount(frame, row, instant) for instant in instants]
    assert amounts == bound.amounts(frame, row, instants)
    corners = bound.corners_before(row, last + 1)
    assert 0 not in corners and len(corners) <= bound.most
    k = bound.accuracy
    assert 1 <= k <= 64
    bends = set(corners)
    for instant in instants:
        exact = frame * steps(row, instant)
        assert exact <= amounts[instant]
        assert k * amounts[instant] <= (k + 1) * exact
        if 1 <= instant < last and instant not in bends:
            assert amounts[instant - 1] + amounts[instant + 1] <= 2 * amounts[instant]


def check_finding(frame, bound, row, above):
    """Holds a finding to what is said of test points, and to the order of the rows above."""
    rest, tested = finding(frame, bound, row, above)
    points = test_points(bound, row, above)
    totals = demands(frame, bound, row, above, points)
    resting = [point for point, total in zip(points, totals) if total <= frame * point]
    assert points[-1] == window(row) and 1 <= tested <= len(points)
    if rest is None:
        assert resting == [] and tested == len(points)
    else:
        # The row rests from its first rest to the first test point that is a rest.
        before = points[tested - 2] if tested > 1 else 0
        assert before < rest <= points[tested - 1] == resting[0]
        instants = range(rest, min(points[tested - 1], rest + FAR) + 1)
        totals = demands(frame, bound, row, above, instants)
        assert all(total <= frame * instant for instant, total in zip(instants, totals))
        assert rests(frame, bound, row, above, rest)
        assert not rests(frame, bound, row, above, rest - 1)
    assert finding(frame, bound, row, above[::-1]) == (rest, tested)


def check_steps(frame, row, above):
    """Holds the first rest in exact steps to the demand in whole work: it is its least fixed point."""
    rest = first_rest(frame, EXACT_STEPS, row, above)
    last = window(row) if rest is None else rest
    for instants in stretches(last):
        for instant, total in zip(instants, demands(1, EXACT_STEPS, row, above, instants)):
            assert (total <= instant) == (total == instant) == (instant == rest)
    assert rest is None or exact_demand(row, above, rest) == rest


def check_taken_away(frame, bound, row, above, ranks):
    """With the row above of any of these ranks taken away, a row that meets rests no later."""
    rest = first_rest(frame, bound, row, above)
    if rest is not None:
        for rank in ranks:
            assert no_later(first_rest(frame, bound, row, above[:rank - 1] + above[rank:]), rest)


def check_bracket(frame, bound, row, above):
    """By a bound the row rests no earlier than in exact steps, and no later than at the slower speed of its accuracy."""
    exact, rest = first_rest(frame, EXACT_STEPS, row, above), first_rest(frame, bound, row, above)
    slow = slow_rest(row, above, bound.accuracy)
    assert no_later(exact, rest) and no_later(rest, slow) and no_later(exact, slow)


def check_accuracies(frame, row, above, accuracies):
    """By more accurate linear tails the row rests no later; these accuracies are told in order."""
    found = [first_rest(frame, LINEAR_TAILS[accuracy], row, above) for accuracy in accuracies]
    for rest, finer in zip(found, found[1:]):
        assert no_later(finer, rest)


def check_least_accuracy(frame, row, above):
    """The row meets by exactly the accuracies from the least on."""
    least = least_accuracy(frame, row, above)
    for accuracy, tail in LINEAR_TAILS.items():
        meets = first_rest(frame, tail, row, above) is not None
        assert meets == (least is not None and least <= accuracy)


def check_case(frame, row, above, accuracy, in_full=True):
    """Holds the counts of a row below others to docs/RULES.md.

    In full, that is by each linear tail and each staircase, with each row above taken away in turn, and by the laws of
    the bounds at each row above; else by the tails of this accuracy and the next and the staircase of this one, and at
    one row above. A staircase that is more accurate than another is not promised to be nowhere later.
    """
    assert len(above) < MOST_ROWS
    bounds = (EXACT_STEPS, LINEAR_TAILS[accuracy], STAIRCASES[accuracy])
    check_steps(frame, row, above)
    for bound in (*bounds[1:], *(STAIRCASES.values() if in_full else ())):
        check_bracket(frame, bound, row, above)
    rest, response = first_rest(frame, EXACT_STEPS, row, above), response_time(row, above)
    assert (rest is None) == (response is None)
    assert response is None or response == rest + row[3] <= row[1]
    if in_full:
        ranks = range(1, len(above) + 1)
        check_accuracies(frame, row, above, sorted(LINEAR_TAILS))
        check_least_accuracy(frame, row, above)
    else:
        ranks = [(len(above) + 1) // 2] if above else []
        check_accuracies(frame, row, above, sorted({accuracy, min(accuracy + 1, MOST_ACCURACY)}))
    for bound in bounds:
        check_finding(frame, bound, row, above)
        check_taken_away(frame, bound, row, above, ranks)
        for rank in ranks:
            check_laws(frame, bound, above[rank - 1], min(window(row) + 1, FAR))
