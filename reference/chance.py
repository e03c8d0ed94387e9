"""Tables made by chance, for the vectors of sheets and of single rows, and work shared among processors.

A source of chance has a fixed seed, and of Python's generator only random() is used, whose sequence stays from
release to release. So the same tables come each time.
"""

import random
from multiprocessing import Pool

from counts import first_rest, window
from leaves import HORIZON

# Frames with many divisors.
RICH_FRAMES = [360, 720, 2520, 5040, 27_720, 55_440, 332_640, 720_720, 1_441_440, 14_414_400]

# Frames of other kinds: few divisors, powers of two, one prime below the horizon, and small ones.
PLAIN_FRAMES = [2, 3, 4, 6, 12, 24, 30, 60, 64, 97, 100, 144, 210, 1000, 1024, 1155, 65_536, 1_000_000, 16_777_213]

# How the deadlines and the jitter of a table are: as loose as they can be, nearly so, or any.
LOOSE, NEARLY_LOOSE, ANY = 'loose', 'nearly loose', 'any'


def divisors(frame, least, most):
    """The numbers from `least` to `most` that divide a frame."""
    return [number for number in range(least, min(most, frame) + 1) if frame % number == 0]


class Source:
    """A source of chance."""

    def __init__(self, seed):
        """The source of a seed."""
        self.turn_to(seed)

    def turn_to(self, seed):
        """Goes on as the source of another seed, whatever was made before."""
        self.random = random.Random(seed).random

    def below(self, count):
        """A number from 0 to count - 1."""
        return int(self.random() * count)

    def between(self, least, most):
        """A number from `least` to `most`."""
        return least + self.below(most - least + 1)

    def pick(self, choices):
        """One of some choices."""
        return choices[self.below(len(choices))]

    def row(self, work, period, manner=None):
        """A row of this work and period, its deadline and jitter in the manner told or in any."""
        if manner == LOOSE:
            return (work, period, period, 0)
        if manner == NEARLY_LOOSE:
            deadline = max(work, period - self.below(period // 8 + 1))
            return (work, deadline, period, self.below(min(deadline - work, period // 8) + 1))
        deadline = self.pick([period, self.between((work + period) // 2, period), self.between(work, period)])
        slack = deadline - work
        jitter = self.pick([0, self.below(min(slack, period // 8) + 1), self.below(slack + 1), slack])
        return (work, deadline, period, jitter)

    def table(self, count, periods, utilisation, manner=None):
        """A table of so many rows, whose works are shares of a utilisation told in hundredths."""
        chosen = [self.pick(periods) for _ in range(count)]
        weights = [self.between(1, 10) for _ in range(count)]
        whole = 100 * sum(weights)
        manner = manner or self.pick([LOOSE, LOOSE, NEARLY_LOOSE, NEARLY_LOOSE, NEARLY_LOOSE, ANY])
        rows = []
        for period, weight in zip(chosen, weights):
            work = (2 * utilisation * period * weight + whole) // (2 * whole)
            rows.append(self.row(min(max(work, 1), period), period, manner))
        # In order of their windows mostly, in which more rows meet than in any other.
        if self.below(6):
            rows.sort(key=window)
        return rows

    def utilisation(self, accuracy=0):
        """A utilisation around 1 in hundredths; for another bound also one that is around 1 by its amounts."""
        hundredths = self.between(70, 120)
        if accuracy and self.below(2):
            return hundredths * accuracy // (accuracy + 1)
        return hundredths

    def frame_and_periods(self, count, most):
        """A frame and its divisors that serve as periods: enough that so many rows fit below utilisation 1."""
        while True:
            frame = self.pick(RICH_FRAMES) if self.below(4) else self.pick(PLAIN_FRAMES)
            least = self.pick([1, 2, count + 1] if count < 4 else [count + 1, 2 * count + 1, 3 * count + 1])
            periods = divisors(frame, least, most)
            if periods and len(periods) * 4 >= min(count, 12):
                return frame, periods


def at_the_edge(source, frame, bound, row, above):
    """The row with its deadline set so that its window ends about where it first rests, if it does at all."""
    work, _, period, jitter = row
    rest = first_rest(frame, bound, (work, period, period, jitter), above)
    if rest is None:
        return row
    deadline = rest + jitter + source.pick([-1, -1, 0, 0, 1])
    return (work, min(max(deadline, work + jitter), period), period, jitter)


def work_out(function, cases, weight):
    """The function's answer to each case, in the order of the cases; the heaviest are begun first."""
    order = sorted(range(len(cases)), key=lambda at: -weight(cases[at]))
    with Pool() as pool:
        worked = pool.map(function, [cases[at] for at in order], chunksize=1)
    answers = [None] * len(cases)
    for at, answer in zip(order, worked):
        answers[at] = answer
    return answers


assert all(1 <= frame <= HORIZON for frame in RICH_FRAMES + PLAIN_FRAMES)
