"""A model of the library's search for a first rest. It answers nothing.

What it counts decides which questions about long windows are stored (long_vectors.py), so that the gate goes through
each part of the search; their answers come from pieces.py and counts.py, which know nothing of it.

From an instant at which the exact demand is not served, the search leaps to that demand, and after so many leaps, or
where the exact demand is served, it asks whether the row rests there by the bound. If not, it asks the next test point:
where that is a rest, it halves the gap, and else it leaps on from there.
"""

from dataclasses import dataclass

from counts import Staircase, exact_demand, rests, window

# So many leaps are made in one go.
LEAPS = 16


@dataclass
class Walk:
    """What a search went through."""

    past: int = 0  # how many times all leaps of one go came, and the next test point was asked
    gap: int = 0  # how wide the gap was that was halved, where one was
    to: int = 0  # the test point at which that gap ends
    rest: int = None  # the first rest that it found


def line_served(row, above):
    """The first instant at which the line C + (t + J) x C / T, summed over the rows above and below the exact demand,
    is served; or None.
    """
    own, free, scale = row[0], 1, 1
    for work, _, period, jitter in above:  # over the common denominator `scale`
        own, free, scale = own * period + work * jitter * scale, free * period - work * scale, scale * period
    return None if free <= 0 else -(-own // free)


def next_point(bound, row, above, after):
    """The first test point after an instant."""
    end = window(row)
    for other in above:
        _, _, period, jitter = other
        number = (after + jitter) // period + 1
        if isinstance(bound, Staircase):  # its next corner is at the next number of jobs that is counted as itself
            end = min(end, bound.rounded(number) * period - jitter)
        elif number <= bound.most:
            end = min(end, number * period - jitter)
    return end


def halve(frame, bound, row, above, low, high):
    """The first rest after `low`, where `high` is a rest."""
    while high - low > 1:
        middle = (low + high) // 2
        if rests(frame, bound, row, above, middle):
            high = middle
        else:
            low = middle
    return high


def walk(frame, bound, row, above, begin=1):
    """What the search goes through that begins at an instant."""
    walked = Walk()
    at, last = begin, window(row)
    while at <= last:
        for _ in range(LEAPS):
            demand = exact_demand(row, above, at)
            if demand <= at or at > last:
                break
            at = demand
        served = exact_demand(row, above, at) <= at
        if at > last:
            break
        if rests(frame, bound, row, above, at):
            walked.rest = at
            break
        if at == last:
            break
        walked.past += not served
        point = next_point(bound, row, above, at)
        if rests(frame, bound, row, above, point):
            walked.gap, walked.to = point - at, point
            walked.rest = halve(frame, bound, row, above, at, point)
            break
        at = point + 1
    return walked
