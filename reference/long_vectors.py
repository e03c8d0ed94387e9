"""Makes the stored questions about single rows with long windows, by linear tails, by batches and by staircases.

    python3 reference/long_vectors.py > questions
    python3 reference/long_vectors.py --answers > answers
    python3 reference/long_vectors.py --sorts

The questions below a line `=== rows`, and their answers, have the form of row_vectors.py. Those below a line
`=== rows batches` are `FRAME ACCURACY SIZE C D T J C D T J ..`, a row below others and the bound of docs/OWN_BOUND.md;
their answers are the finding by that bound, and both findings with the gap between them:

    FINDING, FINDING FINDING GAP

Those below a line `=== rows staircase` at the end, and their answers, have the form of row_vectors.py too.

Most rows stand below others that leave little time, so that the exact demand is served late, and by a bound later
still. Of others the points are very many, or very few in a very long window, or the first rest or a test point stands
where a round number of instants ends. Which of the first sort are stored is chosen by leaps.py, a model of the search
of the library, so that each part of it is gone through often, for each accuracy; what is answered is counted by
pieces.py and counts.py alone. With --sorts the script prints how many questions of each sort there are.

The same lines come each time.
"""

import sys

sys.dont_write_bytecode = True  # leave no cache beside the sources

from chance import Source, divisors, work_out  # noqa: E402
from counts import EXACT_STEPS, LINEAR_TAILS, STAIRCASES, Batches, exact_demand, steps, window  # noqa: E402
from leaps import line_served, walk  # noqa: E402
from leaves import HORIZON, MOST_ROWS, check_row  # noqa: E402
from pieces import check_pieces, check_rows, finding, least_accuracy, response_time, slow_rest  # noqa: E402
from refusals import BAD_FRAME, FULL_TABLE, OFF_FRAME, refused_at  # noqa: E402
from row_vectors import line_of, or_dash, refusal_of, told_together  # noqa: E402

# Frames of which a row may have the whole for its period.
FRAMES = [27_720, 55_440, 65_536, 332_640, 720_720, 1_000_000, 1_441_440, 14_414_400, HORIZON]

# What a question goes through, by leaps.py: all leaps of one go are made in vain; that more than one time; a gap is
# halved; that up to a corner.
PAST, AGAIN, HALVED, INSIDE = 'past', 'again', 'halved', 'inside'

# A gap is wide from so many instants on; by batches, which have a corner at each rise, from so many.
WIDE, WIDE_OF_BATCHES = 64, 8

# So many questions of each sort for each accuracy. The first has no corners, and the next ones have few.
OF_EACH = {PAST: 5, HALVED: 3, INSIDE: 2, AGAIN: 2}
OF_FIRST = {PAST: 5, HALVED: 3}

# The bound by batches has so many of each sort.
OF_BATCHES = {PAST: 40, HALVED: 30, AGAIN: 10}

# That by the staircase of each accuracy has so many.
OF_STAIRS = {PAST: 1, HALVED: 1, INSIDE: 1}

# A row that does not rest by so late an instant misses.
FAR = 150_000

source = Source(20_260_311)

row_cases = {}  # (frame, accuracy, rows), in the order added; the last row is the one asked about
batch_cases = {}  # (frame, (accuracy, size), rows)
stair_cases = {}  # as row_cases, of a staircase


def add(cases, frame, bound, rows):
    """Adds a question, unless it is there already."""
    for row in rows:
        assert check_row(row[2], *row) is None
    cases[frame, bound, tuple(rows)] = None


# --- Rows that rest late -----------------------------------------------------------------------------------


def nearly_full(frame, periods):
    """Rows of these periods that leave at least 1 instant in some number free, and little more."""
    rows = []
    for period in periods:
        work = max(1, period * source.between(60, 90) // (100 * len(periods)))
        rows.append([work, period, source.pick([0, 0, source.below(period - work + 1)])])
    free = frame - frame // source.pick([60, 200, 600, 2000, 6000])
    free -= sum(work * (frame // period) for work, period, _ in rows)
    for row in sorted(rows, key=lambda row: -row[1]) + sorted(rows, key=lambda row: row[1]):
        work, period, jitter = row
        more = min(max(free, 0) // (frame // period), period - jitter - work)
        more = more if period <= frame // 64 else min(more, work)
        row[0] += more
        free -= more * (frame // period)
    if free < 0:
        return None
    return tuple((work, period, period, jitter) for work, period, jitter in rows)


def periods_by_chance(frame):
    """Periods for few rows: short ones, some longer, or none."""
    shortest = source.pick([4, 10, 30, 100, 300])
    short = divisors(frame, shortest, min(16 * shortest, frame // 8))
    longer = divisors(frame, 16 * shortest, min(1000 * shortest, frame // 8))
    if not short or not longer:
        return []
    return [source.pick(short) for _ in range(source.between(1, 4))] + [
        source.pick(longer) for _ in range(source.between(0, 2))
    ]


def late_row(bound):
    """A frame, a row that may rest late by a bound, and the rows above, where chance makes them; or None."""
    frame = source.pick(FRAMES)
    periods = periods_by_chance(frame)
    above = nearly_full(frame, periods) if periods else None
    if above is None:
        return None
    work = source.pick([source.between(1, 20), source.between(1, min(periods)), source.between(1, 8 * min(periods))])
    row = (work, frame, frame, source.pick([0, source.below(frame // 4)]))
    begin = line_served(row, above)
    if begin is None or begin > 100_000:
        return None
    # Rows that hardly work, but have corners where the others rest.
    far = divisors(frame, begin // 2 + 1, 8 * begin)
    for _ in range(source.below(3) if far else 0):
        period = source.pick(far)
        above += ((1, period, period, source.below(period)),)
    return with_window(frame, bound, row, above, begin)


def with_window(frame, bound, row, above, begin):
    """The frame, the row with a window that ends about where it rests by the bound, or anywhere, and the rows above."""
    work, _, period, jitter = row
    rest, _ = finding(frame, bound, (work, min(period, jitter + FAR), period, jitter), above)
    if rest is None:
        length = source.between(begin, 3 * begin + 200)
    else:
        length = source.pick([rest - 1, rest, rest + source.below(100), 2 * rest, max(rest, 2 * FAR)])
    length = min(length, window(row))
    return None if length < work else (frame, (work, length + jitter, period, jitter), above)


def walks_of(frame, bound, row, above):
    """What a search goes through that begins at the first instant, and one that begins where a line below the demand is
    served.
    """
    return [walk(frame, bound, row, above, begin) for begin in (1, line_served(row, above) or 1)]


def sorts_of(walks, row, wide):
    """Of what sorts a question is: those of which it is wherever the search begins."""
    least = min(walked.past for walked in walks)
    halved = all(walked.gap >= wide for walked in walks)
    inside = halved and all(walked.to < window(row) for walked in walks)
    holds = {PAST: least > 0, AGAIN: least > 1, HALVED: halved, INSIDE: inside}
    return [sort for sort in holds if holds[sort]]


def late_rows(cases, bound_by_chance, wanted, wide):
    """Adds questions until there are as many of each sort as wanted; counts them."""
    found = dict.fromkeys(wanted, 0)
    while any(found[sort] < wanted[sort] for sort in wanted):
        bound, told = bound_by_chance()
        made = late_row(bound)
        if made is None:
            continue
        frame, row, above = made
        walks = walks_of(frame, bound, row, above)
        sorts = [sort for sort in sorts_of(walks, row, wide) if sort in wanted]
        if any(found[sort] < wanted[sort] for sort in sorts):
            assert {walked.rest for walked in walks} == {finding(frame, bound, row, above)[0]}
            add(cases, frame, told, above + (row,))
            for sort in sorts:
                found[sort] += 1
    return found


def random_batches():
    """A bound by batches, with its two numbers."""
    accuracy = source.pick([source.between(1, 3), source.between(1, 12), source.between(1, 64)])
    size = source.pick([source.between(1, 4), source.between(2, 40), source.between(2, 1000)])
    return Batches(accuracy, size), (accuracy, size)


def every_accuracy():
    """Rows that rest late by the linear tail of each accuracy, and by batches; answers how many of each sort."""
    found = {
        accuracy: late_rows(row_cases, lambda: (tail, accuracy), OF_EACH if accuracy > 1 else OF_FIRST, WIDE)
        for accuracy, tail in LINEAR_TAILS.items()
    }
    found['batches'] = late_rows(batch_cases, random_batches, OF_BATCHES, WIDE_OF_BATCHES)
    return found


# --- Very many points, and few in a long window ------------------------------------------------------------

# Where a round number of instants ends: 512 and 16384, and what both come to, and shorter ones.
ENDS = [256, 512, 768, 4096, 4608, 16_384, 16_896] + [
    base + 16_384 * number for base in (0, 512) for number in range(2, 6)
]


def cornered(frame, at, longest):
    """A row with little work that has a corner at an instant."""
    period = source.pick(divisors(frame, 64, longest))
    jitter = -at % period
    return (1, period, period, jitter)


def many_corners(frame, at):
    """Rows with corners at an instant and the next, and with many others around."""
    rows = [cornered(frame, at, 20_000), cornered(frame, at + 1, 20_000)]
    for _ in range(source.pick([1, 2, 4, 8])):
        period = source.pick(divisors(frame, 40, 400))
        work = source.between(1, period // 24 + 1)
        rows.append((work, period, period, source.below(period - work + 1)))
    return tuple(rows)


def resting_at(frame, above, at):
    """A row below others that rests first at an instant, where there is one."""
    work = at - sum(steps(other, at) for other in above)
    if work < 1:
        return None
    row = (work, at, frame, 0)
    return row if finding(frame, EXACT_STEPS, row, above)[0] == at else None


def round_numbers():
    """First rests, windows and test points where a round number of instants ends, or an instant before or after."""
    for end in ENDS:
        for at in range(end - 1, end + 3):
            made = 0
            while made < 2:
                frame = source.pick([332_640, 720_720, 1_441_440, HORIZON])
                above = many_corners(frame, source.pick([end, end - 1, end + 1]))
                row = resting_at(frame, above, at)
                if row is None:
                    continue
                work, _, period, _ = row
                # It rests at the end of its window, before it, or would an instant after.
                deadline = max(work + 1, source.pick([at, at, at + source.below(at), at - 1]))
                jitter = source.pick([0, source.below(frame // 2)])
                row = (work, deadline + jitter, period, jitter)
                if made == 0:
                    add(row_cases, frame, source.between(1, 64), above + (row,))
                elif source.below(2):
                    add(batch_cases, frame, random_batches()[1], above + (row,))
                made += 1


def crowded_tails():
    """Rows of nearly one period whose corners, up to the end of each tail, lie close in several tens of thousands."""
    for accuracy in (64, 63, 50, 40, 64):
        frame = source.pick([720_720, 1_441_440, HORIZON])
        periods = divisors(frame, 900, 2200)
        above = []
        for _ in range(31):
            period = source.pick(periods)
            above.append((period // 34, period, period, source.below(period // 2)))
        for length in (512 + 2 * 16_384, 70_000, 200_000):
            work = length - sum(steps(other, length) for other in above)
            row = (max(1, work + source.pick([-1500, 1])), length, frame, 0)
            add(row_cases, frame, accuracy, tuple(above) + (row,))


def far_apart():
    """Windows up to the horizon with few corners in them: some rows rest late and some not at all."""
    for number in range(24):
        above = []
        for _ in range(source.pick([2, 5, 12, 31])):
            period = 2 ** source.between(16, 23)
            work = source.between(1, period // 40)
            above.append((work, period, period, source.pick([0, source.below(period - work + 1)])))
        length = HORIZON - source.pick([0, 0, 1, source.below(HORIZON // 2)])
        work = length - sum(steps(other, length) for other in above)
        work = max(1, work - source.pick([-1, 0, source.below(length // 4)]))
        if number % 4 == 3:  # many corners at first, and few after the tail of the short period has begun
            above[0] = (1, 64, 64, source.below(64))
            del above[3:]
            work -= length // 64
        row = (max(1, work), HORIZON, HORIZON, HORIZON - length)
        if row[0] + row[3] > HORIZON:
            continue
        if number % 3:
            add(row_cases, HORIZON, source.pick([64, source.between(1, 64)]), tuple(above) + (row,))
        if number % 3 != 1 and above[0][2] > 64:
            add(batch_cases, HORIZON, random_batches()[1], tuple(above) + (row,))


# --- Batches -----------------------------------------------------------------------------------------------

FIRST, SECOND, THIRD = (1, 4, 4, 0), (2, 6, 6, 1), (3, 12, 12, 0)


def batches_at_the_ends():
    """The worked table by every accuracy and by sizes at the ends, small rows, and what is refused of a table."""
    for accuracy in range(1, 65):
        for size in (1, 2, source.between(3, 40), HORIZON):
            add(batch_cases, 12, (accuracy, size), [FIRST, SECOND, THIRD])
        frame, periods = source.frame_and_periods(5, 200)
        rows = source.table(source.between(2, 5), periods, source.utilisation(accuracy))
        add(batch_cases, frame, (accuracy, source.between(1, 6)), rows)
    for frame, rows in (
        (0, [FIRST]),
        (HORIZON + 1, [FIRST]),
        (12, 33 * [FIRST]),
        (12, 34 * [FIRST]),
        (13, [FIRST]),
        (12, [FIRST, (1, 5, 5, 0)]),
        (12, [(1, 5, 5, 0), SECOND, THIRD]),
        (12, 32 * [FIRST]),
    ):
        add(batch_cases, frame, (1, 2), rows)


# --- Staircases --------------------------------------------------------------------------------------------


def every_staircase():
    """Rows that rest late by the staircase of each accuracy; answers how many of each sort."""
    return {
        f'staircase {accuracy}': late_rows(stair_cases, lambda: (bound, accuracy), OF_STAIRS, WIDE)
        for accuracy, bound in STAIRCASES.items()
    }


def stairs_at_round_numbers():
    """As round_numbers has them, by staircases."""
    for end in ENDS[::2]:
        at = end + source.between(-1, 2)
        row = None
        while row is None:
            frame = source.pick([332_640, 720_720, 1_441_440, HORIZON])
            above = many_corners(frame, source.pick([end, end - 1, end + 1]))
            row = resting_at(frame, above, at)
        work, deadline, period, _ = row
        row = (work, source.pick([deadline, deadline + source.below(at)]), period, 0)
        add(stair_cases, frame, source.pick([1, 2, source.between(1, 64)]), above + (row,))


def stairs_far_apart():
    """Windows up to the horizon: few rows of long periods below a short one, whose jobs are counted in large grains."""
    for number in range(16):
        period = 2 ** source.between(6, 12)
        above = [(source.between(1, period // 3), period, period, source.below(period // 3))]
        for _ in range(source.pick([1, 3, 8])):
            period = 2 ** source.between(16, 23)
            work = source.between(1, period // 40)
            above.append((work, period, period, source.pick([0, source.below(period - work + 1)])))
        length = HORIZON - source.pick([0, 0, 1, source.below(HORIZON // 2)])
        work = length - sum(steps(other, length) for other in above)
        work = max(1, work - source.pick([-1, 0, source.below(length // 2), source.below(length // 2)]))
        row = (work, HORIZON, HORIZON, HORIZON - length)
        if work + HORIZON - length <= HORIZON:
            add(stair_cases, HORIZON, source.pick([1, 2, source.between(1, 64), 64]), tuple(above) + (row,))


# --- All of them -------------------------------------------------------------------------------------------


def make_vectors():
    """Adds every question; answers how many there are of each sort, by the accuracy of a tail, by batches or stairs."""
    found = every_accuracy()
    round_numbers()
    crowded_tails()
    far_apart()
    batches_at_the_ends()
    source.turn_to(20_261_129)
    found |= every_staircase()
    stairs_at_round_numbers()
    stairs_far_apart()
    tails = [found[accuracy] for accuracy in LINEAR_TAILS]
    assert all(sorts[PAST] >= 5 and sorts[HALVED] >= 3 for sorts in tails)
    assert sum(sorts[PAST] for sorts in tails) >= 300 and sum(sorts[HALVED] for sorts in tails) >= 150
    return found


def gap(exact, other):
    """How much later the first rest of a finding is than that of another, or None."""
    return None if exact[0] is None or other[0] is None else other[0] - exact[0]


def row_answer(case):
    """The answer to a question by a linear tail; its counts are checked on the way."""
    frame, accuracy, rows = case
    row, above = rows[-1], rows[:-1]
    check_rows(frame, row, above, accuracy)
    exact = finding(frame, EXACT_STEPS, row, above)
    tail = finding(frame, LINEAR_TAILS[accuracy], row, above)
    return ', '.join([
        or_dash(*exact),
        or_dash(*tail),
        or_dash(*exact, *tail, gap(exact, tail)),
        or_dash(response_time(row, above)),
        or_dash(least_accuracy(frame, row, above)),
        or_dash(slow_rest(row, above, accuracy)),
    ])


def batch_answer(case):
    """The answer to a question by batches; its counts are checked on the way."""
    frame, numbers, rows = case
    refused = refusal_of(frame, rows)
    if refused is not None:
        return ', '.join(2 * [refused_at(*refused)])
    row, above, bound = rows[-1], rows[:-1], Batches(*numbers)
    check_pieces(frame, bound, row, above)
    return told_together(frame, bound, row, above, finding)


def stair_answer(case):
    """The answer to a question by a staircase; its counts are checked on the way."""
    frame, accuracy, rows = case
    row, above, bound = rows[-1], rows[:-1], STAIRCASES[accuracy]
    check_pieces(frame, bound, row, above)
    return told_together(frame, bound, row, above, finding)


def batch_line(case):
    """The line of a question by batches."""
    frame, (accuracy, size), rows = case
    return ' '.join(str(number) for number in (frame, accuracy, size, *(number for row in rows for number in row)))


def weight(case):
    """About how long a question takes."""
    return sum(window(case[2][-1]) // other[2] for other in case[2][:-1])


def main():
    """Prints the questions, the answers, or the sorts."""
    if sys.argv[1:] not in ([], ['--answers'], ['--sorts']):
        sys.exit('use: long_vectors.py [--answers | --sorts]')
    found = make_vectors()
    if sys.argv[1:] == ['--sorts']:
        print(f'{len(row_cases)} rows, {len(batch_cases)} by batches, {len(stair_cases)} by staircases')
        for bound, sorts in found.items():
            print(bound, sorts)
        return
    for heading, cases, line, answer in (
        ('=== rows', row_cases, line_of, row_answer),
        ('=== rows batches', batch_cases, batch_line, batch_answer),
        ('=== rows staircase', stair_cases, line_of, stair_answer),
    ):
        print(heading)
        lines = map(line, cases) if sys.argv[1:] == [] else work_out(answer, list(cases), weight)
        print('\n'.join(lines))


if __name__ == '__main__':
    main()
