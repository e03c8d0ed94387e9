"""Makes the stored questions about single rows: a row below others, on a frame, and what is counted about it.

    python3 reference/row_vectors.py > questions
    python3 reference/row_vectors.py --answers > answers

The questions are lines below a line `=== rows`: `FRAME ACCURACY C D T J C D T J ..`, in decimal, with one space between
two words. The last four numbers are the row asked about, those before them the rows above it in rank order. All are
valid rows; their periods need not divide the frame, which need not be one.

With --answers the script prints instead, below the same line, the answers to each question, with commas between:

    FINDING, FINDING, FINDING FINDING GAP, RESPONSE, LEAST, SLOW

the finding in exact steps, that by the linear tail of the accuracy, both together with the gap between them, the response
time in exact steps, the least accuracy of a linear tail by which the row meets, and for the accuracy k the first rest in
exact steps at speed k / (k + 1). A finding is the first rest and the points tested. `-` stands where there is none. In
the place of each stands `refused NUMBER at POSITION` where it is refused by docs/REFUSALS.md.

Behind these come questions below a line `=== rows staircase`. They have the same form, and their accuracy is that of a
staircase; they are answered by the finding by it, and by both findings with the gap between them:

    FINDING, FINDING FINDING GAP

The same lines come each time. Where this file names the answer to a question, it was taken from docs/RULES.md or
docs/REFUSALS.md by hand, and the answers are held to it. All counts of a row are held to what docs/RULES.md says of them.
"""

import sys

sys.dont_write_bytecode = True  # leave no cache beside the sources

from chance import ANY, LOOSE, NEARLY_LOOSE, Source, divisors, work_out  # noqa: E402
from counts import (  # noqa: E402
    EXACT_STEPS,
    LINEAR_TAILS,
    STAIRCASES,
    check_case,
    finding,
    first_rest,
    least_accuracy,
    response_time,
    slow_rest,
    window,
)
from leaves import HORIZON, MOST_ROWS, check_row  # noqa: E402
from refusals import BAD_FRAME, FULL_TABLE, OFF_FRAME, refused_at  # noqa: E402

TOP = 4_294_967_295  # the largest number of 32 bits

source = Source(20_240_302)

vectors = {}  # (frame, accuracy, rows) to the answer that is known beforehand, or None; in the order added
stairs = {}  # the same of a staircase


def add(frame, accuracy, rows, expected=None, to=vectors):
    """Adds a vector, unless it is there already; the last row is the one asked about."""
    rows = tuple(rows)
    assert rows and 1 <= accuracy <= 64
    for row in rows:
        assert check_row(row[2], *row) is None
    case = (frame, accuracy, rows)
    if to.get(case) is None:
        to[case] = expected


def refuse(frame, accuracy, rows, number, position):
    """Adds a vector that is refused."""
    add(frame, accuracy, rows, refused_at(number, position))


def random_accuracy():
    """An accuracy of a linear tail: small ones are the likelier, for they part most from exact steps."""
    return source.pick([source.between(1, 4), source.between(1, 12), source.between(1, 64)])


# --- The worked table --------------------------------------------------------------------------------------

FIRST, SECOND, THIRD = (1, 4, 4, 0), (2, 6, 6, 1), (3, 12, 12, 0)


def worked_table():
    """The rows of docs/RULES.md. Its tables tell all of the answers by accuracy 3, and most of the others."""
    add(12, 3, [FIRST, SECOND, THIRD], '10 4, 11 4, 10 4 11 4 1, 10, 3, -')
    add(12, 1, [FIRST, SECOND, THIRD], '10 4, - 1, 10 4 - 1 -, 10, 3, -')
    add(12, 2, [FIRST, SECOND, THIRD], '10 4, - 3, 10 4 - 3 -, 10, 3, -')
    add(12, 3, [FIRST, SECOND], '3 1, 3 1, 3 1 3 1 0, 4, 1, 4')
    add(12, 1, [FIRST, SECOND], '3 1, 4 1, 3 1 4 1 1, 4, 1, -')
    add(12, 3, [FIRST], '1 1, 1 1, 1 1 1 1 0, 1, 1, 2')
    for accuracy in range(1, 65):
        add(12, accuracy, [FIRST, SECOND, THIRD])
    for accuracy in (2, 4, 5, 64):
        add(12, accuracy, [FIRST, SECOND])
        add(12, accuracy, [FIRST])


# --- Rows by chance ----------------------------------------------------------------------------------------


def rows_and_room(above, most, utilisation):
    """A frame, a table of so many rows, and a row to stand below them: its period is one of the longest, and its
    work fills up the utilisation, told in hundredths, or part of it.
    """
    frame, periods = source.frame_and_periods(above + 1, most)
    rows = source.table(above, periods, source.between(utilisation // 2, utilisation - 5))
    period = source.pick(divisors(frame, (periods[-1] + 1) // 2, 2 * most) or periods)
    used = sum(100 * work * period // other for work, _, other, _ in rows)  # in hundredths of an instant
    left = (utilisation * period - used) // 100
    work = min(source.between(1, max(left, 1)), period)
    return frame, tuple(rows), source.row(work, period, source.pick([LOOSE, NEARLY_LOOSE, NEARLY_LOOSE, ANY]))


def random_row(above, accuracy, most):
    """A row by chance below so many others."""
    frame, rows, row = rows_and_room(above, most, source.utilisation(accuracy))
    add(frame, accuracy, rows + (row,))


def every_number_above():
    """Rows below each number of others."""
    for above in range(32):
        for most in (60, 120, 240):
            random_row(above, random_accuracy(), most)
            random_row(above, source.between(1, 3), most)
        random_row(above, source.between(1, 64), 200)


def every_accuracy():
    """Rows by the linear tail of each accuracy."""
    for accuracy in range(1, 65):
        for most in (60, 300):
            random_row(source.between(1, 10), accuracy, most)


def random_rows():
    """Rows by chance below few others."""
    for _ in range(100):
        random_row(source.between(1, 7), random_accuracy(), source.pick([12, 30, 100, 300, 500]))


def windows_at_the_edge():
    """Rows whose window ends at the first rest by one of three counts, or an instant before or after."""
    for _ in range(125):
        accuracy = source.pick([source.between(1, 4), random_accuracy()])
        frame, above, row = rows_and_room(
            source.between(1, 10), source.pick([24, 80, 200, 200]), source.utilisation(accuracy)
        )
        work, _, period, jitter = row
        widest = (work, period, period, jitter)
        exact = first_rest(frame, EXACT_STEPS, widest, above)
        tail = first_rest(frame, LINEAR_TAILS[accuracy], widest, above)
        slow = slow_rest(widest, above, accuracy)
        if exact is None:
            add(frame, accuracy, above + (widest,))
        else:
            add_with_window(frame, accuracy, above, widest, exact + source.pick([-1, 0, 0, 1]))
        if tail is not None:
            add_with_window(frame, accuracy, above, widest, tail - 1)
            add_with_window(frame, accuracy, above, widest, tail + source.below(2))
        if slow is not None:
            add_with_window(frame, accuracy, above, widest, slow + source.pick([-1, 0]))


def add_with_window(frame, accuracy, above, row, length, to=vectors):
    """Adds a row with another deadline, by which its window has a length, where that is a row."""
    work, _, period, jitter = row
    if work <= length and length + jitter <= period:
        add(frame, accuracy, above + ((work, length + jitter, period, jitter),), to=to)


def rows_past_the_tails():
    """Rows that rest in exact steps so long after so many periods that few tails, or none, are near enough."""
    for _ in range(60):
        frame = source.pick([720, 5040, 27_720, 720_720])
        periods = divisors(frame, 2, source.pick([3, 6, 9, 20]))
        manner = source.pick([LOOSE, ANY])
        above = tuple(source.table(source.between(1, 3), periods, source.between(30, 85), manner))
        row = (source.between(10, 90), frame, frame, source.pick([0, source.below(frame // 2)]))
        rest = first_rest(frame, EXACT_STEPS, row[:1] + (min(frame, 2000 + row[3]),) + row[2:], above)
        if rest is None:
            continue
        accuracy = source.pick([source.between(1, 64), 64])
        add_with_window(frame, accuracy, above, row, rest + source.below(5))


def narrow_rows():
    """Windows of 1, jitter just below the period, periods 1 and 2."""
    for turn in range(90):
        frame = source.pick([1, 2, 4, 12, 60, 720, 65_536, HORIZON])
        rows = []
        for _ in range(source.between(1, 6)):
            period = source.pick(divisors(frame, 1, 300))
            kind = (turn, source.below(4))[turn % 2] % 4
            if kind == 0:  # a window of 1, wherever the deadline is
                deadline = source.between(1, period)
                rows.append((1, deadline, period, deadline - 1))
            elif kind == 1:  # jitter just below the period
                jitter = period - 1 - source.below(min(3, period))
                rows.append((source.between(1, period - jitter), period, period, jitter))
            elif kind == 2:  # periods 1 and 2
                period = source.pick([number for number in (1, 2) if frame % number == 0])
                rows.append(source.row(source.between(1, period), period))
            else:
                rows.append(source.row(1 + period // 8, period))
        add(frame, random_accuracy(), rows)


def frames_at_the_ends():
    """Frames of 1 and of the horizon, the latter with amounts as large as amounts can be."""
    for above in (0, 1, 2, 3, 30, 31):
        for accuracy in (1, 2, 64):
            add(1, accuracy, (above + 1) * [(1, 1, 1, 0)])
            # Whatever stands above, a window of 1 is decided at once.
            add(HORIZON, accuracy, above * [(HORIZON, HORIZON, HORIZON, 0)] + [(1, HORIZON, HORIZON, HORIZON - 1)])
            add(HORIZON, accuracy, above * [(1, HORIZON, HORIZON, HORIZON - 1)] + [(1, 40, HORIZON, 0)])
            add(HORIZON, accuracy, above * [(1, 1, 1, 0)] + [(5, 30, HORIZON, 0)])
            late = above * [(1, HORIZON, HORIZON, HORIZON - 7)]
            add(HORIZON, accuracy, late + [(2, HORIZON, HORIZON, HORIZON - 60)])
            heavy = above * [(HORIZON // 2, HORIZON, HORIZON, HORIZON // 2)]
            add(HORIZON, accuracy, heavy + [(900, HORIZON, HORIZON, HORIZON - 1000)])
    for _ in range(60):
        periods = divisors(HORIZON, 4, source.pick([16, 64, 256, 1024]))
        accuracy = random_accuracy()
        add(HORIZON, accuracy, source.table(source.between(1, 8), periods, source.utilisation(accuracy)))


def wide_rows():
    """Windows up to 20,000 below few rows, and up to the horizon where the row rests soon."""
    for _ in range(9):
        frame = source.pick([HORIZON, 14_414_400, 720_720, 1_000_000])
        most = source.pick([3000, 9000, 20_000])
        accuracy = random_accuracy()
        periods = divisors(frame, most // 8, most)
        rows = source.table(source.between(2, 4), periods, source.utilisation(accuracy), NEARLY_LOOSE)
        add(frame, accuracy, rows)
    whole = (1, HORIZON, HORIZON, 0)
    add(HORIZON, 1, 32 * [whole], '32 1, 33 1, 32 1 33 1 1, 32, 1, 64')
    add(HORIZON, 64, 32 * [whole], '32 1, 32 1, 32 1 32 1 0, 32, 1, 33')
    for accuracy in (1, 2, 3, 64):
        rows = [(source.between(1, 20), HORIZON, HORIZON, source.below(HORIZON - 20)) for _ in range(31)]
        add(HORIZON, accuracy, rows + [(5, HORIZON, HORIZON, 1000)])
        add(HORIZON, accuracy, rows[:5] + [(3, HORIZON - 1, HORIZON, 0)])


# --- Refusals ----------------------------------------------------------------------------------------------


def refusals():
    """1, 9 and 8, each alone, and each two of them."""
    on, off = (1, 4, 4, 0), (1, 5, 5, 0)
    for frame in (0, HORIZON + 1, 2 * HORIZON, TOP - 3, TOP):
        for above in (0, 1, 31):
            refuse(frame, source.between(1, 64), above * [on] + [on], 1, 0)
        refuse(frame, 3, 32 * [on] + [on], 1, 0)  # 1 and 9
        refuse(frame, 3, [off, on], 1, 0)  # 1 and 8, wherever nothing divides
        refuse(frame, 3, [on, (1, 7, 7, 0)], 1, 0)
        refuse(frame, 3, 33 * [off] + [on], 1, 0)  # 1, 9 and 8
    for above in (32, 33, 40):
        for accuracy in (1, 3, 64):
            table = (8, 1) if above == 32 else (9, 0)  # 32 rows are a table where they stand on the frame, and no more are
            refuse(12, accuracy, above * [on] + [on], 9, 0)
            refuse(12, accuracy, [off] + (above - 1) * [on] + [on], *table)  # 9 and 8
            refuse(12, accuracy, above * [on] + [off], 9, 0)
            refuse(12, accuracy, above * [off] + [off], *table)
    # 8, at each rank, of which the row asked about has the last.
    for above in range(32):
        rows = (above + 1) * [on]
        accuracy = source.between(1, 64)
        refuse(12, accuracy, [off] + rows[1:], 8, 1)
        refuse(12, accuracy, rows[:-1] + [off], 8, above + 1)
        first = source.between(1, above + 1)
        refuse(12, accuracy, rows[:first - 1] + [off] + rows[first:], 8, first)
        refuse(12, accuracy, rows[:first - 1] + [off] + rows[first:-1] + [off], 8, first)
        refuse(12, accuracy, rows[:first - 1] + (above + 2 - first) * [(1, 24, 24, 0)], 8, first)
    for frame, period in ((1, 2), (1, HORIZON), (HORIZON, 3), (HORIZON, HORIZON - 1), (HORIZON - 1, HORIZON)):
        refuse(frame, 2, [(1, period, period, 0)], 8, 1)
        refuse(frame, 2, [(1, 1, 1, 0), (period, period, period, 0)], 8, 2)
        refuse(frame, 2, [(1, 1, 1, 0), (1, period, period, period - 1), off], 8, 2)


# --- By staircases -----------------------------------------------------------------------------------------


def worked_stairs():
    """The worked table of docs/RULES.md, whose rows ask for 3 jobs at most, and rows below one of period 4."""
    add(12, 1, [FIRST, SECOND, THIRD], '11 4, 10 4 11 4 1', stairs)
    for accuracy in range(2, 65):
        add(12, accuracy, [FIRST, SECOND, THIRD], '10 4, 10 4 10 4 0', stairs)
    for accuracy in (1, 2, 64):
        add(12, accuracy, [FIRST, SECOND], '3 1, 3 1 3 1 0', stairs)
        add(12, accuracy, [FIRST], '1 1, 1 1 1 1 0', stairs)
    # By accuracy 2 the jobs of a row are counted as 1, 2, 3, 4, 6, 6, 8, 8, 12.
    for length, work, answer in (
        (16, 12, '16 4, 16 4 16 4 0'), (24, 13, '19 5, 18 5 19 5 1'), (24, 18, '24 5, 24 6 24 5 0'),
        (32, 19, '27 6, 26 7 27 6 1'), (36, 25, '- 7, 34 9 - 7 -'),
    ):
        add(720, 2, [FIRST, (work, length, 720, 0)], answer, stairs)


def every_staircase():
    """Rows by the staircase of each accuracy, and below each number of others."""
    for accuracy in range(1, 65):
        for above, most in ((source.between(1, 10), 60), (source.between(1, 4), 400))[accuracy % 2:]:
            frame, rows, row = rows_and_room(above, most, source.utilisation(accuracy))
            add(frame, accuracy, rows + (row,), to=stairs)
    for above in range(32):
        accuracy = random_accuracy()
        frame, rows, row = rows_and_room(above, 120, source.utilisation(accuracy))
        add(frame, accuracy, rows + (row,), to=stairs)


def late_by_staircase(accuracy):
    """A frame, rows and one below them that rests later by a staircase than in exact steps, and when it does by both."""
    while True:
        frame = source.pick([5040, 27_720, 720_720])
        share = source.between(30, 98) * accuracy // (accuracy + 1)
        above = tuple(source.table(source.between(1, 3), divisors(frame, 2, source.pick([3, 6, 12])), share, LOOSE))
        row = (source.between(accuracy, 20 * accuracy), frame, frame, source.pick([0, source.below(frame // 2)]))
        widest = row[:1] + (min(frame, 6000 + row[3]),) + row[2:]
        exact, rest = (first_rest(frame, bound, widest, above) for bound in (EXACT_STEPS, STAIRCASES[accuracy]))
        if rest is not None and rest > exact:
            return frame, above, row, exact, rest


def staircase_windows():
    """Rows that rest later by the staircase of each accuracy, in windows that end there, before it, or where they rest in
    exact steps.
    """
    for accuracy in range(1, 65):
        frame, above, row, _, rest = late_by_staircase(accuracy)
        add_with_window(frame, accuracy, above, row, rest + source.below(2) * source.below(40), stairs)
        frame, above, row, exact, rest = late_by_staircase(accuracy)
        add_with_window(frame, accuracy, above, row, source.pick([rest - 1, rest, exact]), stairs)


def refused_stairs():
    """Frames, tables and rows that are refused, and frames at their ends."""
    on, off = (1, 4, 4, 0), (1, 5, 5, 0)
    for frame, rows, number, position in (
        (0, [on], 1, 0), (HORIZON + 1, [on, off], 1, 0), (12, 33 * [on] + [on], 9, 0), (12, 32 * [on] + [on], 9, 0),
        (12, [off, on], 8, 1), (12, [on, off], 8, 2), (13, [on], 8, 1), (12, 31 * [on] + [off], 8, 32),
    ):
        add(frame, source.between(1, 64), rows, ', '.join(2 * [refused_at(number, position)]), stairs)
    for accuracy in (1, 2, 64):
        add(1, accuracy, 32 * [(1, 1, 1, 0)], to=stairs)
        add(HORIZON, accuracy, 31 * [(1, HORIZON, HORIZON, HORIZON - 1)] + [(1, 40, HORIZON, 0)], to=stairs)
        add(HORIZON, accuracy, 3 * [(1, 1, 1, 0)] + [(5, 30, HORIZON, 0)], to=stairs)
        add(HORIZON, accuracy, 32 * [(1, HORIZON, HORIZON, 0)], '32 1, 32 1 32 1 0', stairs)


def make_stairs():
    """Adds every question by a staircase, by chance of their own."""
    source.turn_to(20_261_128)
    worked_stairs()
    every_staircase()
    staircase_windows()
    refused_stairs()


# --- All of them -------------------------------------------------------------------------------------------


def make_vectors():
    """Adds every vector."""
    worked_table()
    every_number_above()
    every_accuracy()
    random_rows()
    windows_at_the_edge()
    rows_past_the_tails()
    narrow_rows()
    frames_at_the_ends()
    wide_rows()
    refusals()
    make_stairs()


def off_frame(frame, row):
    """Whether the period of the row does not divide the frame."""
    return frame % row[2] != 0


def refusal_of(frame, rows):
    """The number and the position of the refusal, or None: of the frame, of the table above, and of the question."""
    if frame == 0 or frame > HORIZON:
        return BAD_FRAME, 0
    row, above = rows[-1], rows[:-1]
    if len(above) > MOST_ROWS:
        return FULL_TABLE, 0
    for rank, other in enumerate(above, start=1):
        if off_frame(frame, other):
            return OFF_FRAME, rank
    if len(above) == MOST_ROWS:
        return FULL_TABLE, 0
    if off_frame(frame, row):
        return OFF_FRAME, len(rows)
    return None


def weight(case):
    """About how long a vector takes."""
    _, _, rows = case
    return len(rows) * window(rows[-1])


def or_dash(*numbers):
    """Numbers in decimal, with a dash for one that is not there."""
    return ' '.join('-' if number is None else str(number) for number in numbers)


def told_without_frame(count, rows, *more):
    """What is counted of a row below others with no frame, or the refusal of a table that is full."""
    if len(rows) - 1 > MOST_ROWS - 1:
        return refused_at(FULL_TABLE, 0)
    return or_dash(count(rows[-1], rows[:-1], *more))


def answer_of(case):
    """The answers to a question; its counts are checked on the way. Of one that is refused that refusal comes first."""
    frame, accuracy, rows = case
    response = told_without_frame(response_time, rows)
    slow = told_without_frame(slow_rest, rows, accuracy)
    refused = refusal_of(frame, rows)
    if refused is not None:
        return ', '.join([*3 * [refused_at(*refused)], response, refused_at(*refused), slow])
    row, above = rows[-1], rows[:-1]
    check_case(frame, row, above, accuracy)
    exact = finding(frame, EXACT_STEPS, row, above)
    tail = finding(frame, LINEAR_TAILS[accuracy], row, above)
    gap = None if exact[0] is None or tail[0] is None else tail[0] - exact[0]
    assert gap is None or gap >= 0
    return ', '.join([
        or_dash(*exact),
        or_dash(*tail),
        or_dash(*exact, *tail, gap),
        response,
        or_dash(least_accuracy(frame, row, above)),
        slow,
    ])


def told_together(frame, bound, row, above, find):
    """The finding of a row by a bound, and that in exact steps, the same, and the gap, by what finds them."""
    exact, found = find(frame, EXACT_STEPS, row, above), find(frame, bound, row, above)
    gap = None if exact[0] is None or found[0] is None else found[0] - exact[0]
    assert gap is None or gap >= 0
    return f'{or_dash(*found)}, {or_dash(*exact, *found, gap)}'


def stairs_answer(case):
    """The answer to a question by a staircase; its counts are checked on the way."""
    frame, accuracy, rows = case
    refused = refusal_of(frame, rows)
    if refused is not None:
        return ', '.join(2 * [refused_at(*refused)])
    check_case(frame, rows[-1], rows[:-1], accuracy)
    return told_together(frame, STAIRCASES[accuracy], rows[-1], rows[:-1], finding)


def kind_of(answer):
    """By which counts the row of an answer meets, or that it is refused."""
    exact, tail = answer.split(', ')[:2]
    return 'refused' if exact.startswith('refused') else (exact.startswith('-'), tail.startswith('-'))


def is_as_known(answer, expected):
    """Whether an answer is the one that is known beforehand: of a refusal, that of each call that is given the frame."""
    told = answer.split(', ')
    return expected is None or answer == expected or told[:3] + told[4:5] == 4 * [expected]


def line_of(case):
    """The line of a question."""
    frame, accuracy, rows = case
    return ' '.join(str(number) for number in (frame, accuracy, *(number for row in rows for number in row)))


def print_rows(answers):
    """Prints the questions by linear tails, or the answers."""
    print('=== rows')
    if not answers:
        for case in vectors:
            print(line_of(case))
        return
    kinds = []
    for (case, expected), answer in zip(vectors.items(), work_out(answer_of, list(vectors), weight)):
        assert is_as_known(answer, expected), f'{line_of(case)}: {answer}, not {expected}'
        kinds.append(kind_of(answer))
        print(answer)
    counts = {kind: kinds.count(kind) for kind in set(kinds)}
    assert len(counts) == 4 and min(counts.values()) >= 100


def print_stairs(answers):
    """Prints the questions by staircases, or the answers."""
    print('=== rows staircase')
    if not answers:
        for case in stairs:
            print(line_of(case))
        return
    told = work_out(stairs_answer, list(stairs), weight)
    for (case, expected), answer in zip(stairs.items(), told):
        assert expected in (None, answer), f'{line_of(case)}: {answer}, not {expected}'
        print(answer)
    later = [answer for answer in told if not answer.endswith((' 0', ' -')) and 'refused' not in answer]
    misses = [answer for answer in told if answer.startswith('-') and ', -' not in answer]
    assert len(later) >= 90 and len(misses) >= 30


def main():
    """Prints the questions, or the answers."""
    if sys.argv[1:] not in ([], ['--answers']):
        sys.exit('use: row_vectors.py [--answers]')
    make_vectors()
    for print_section in (print_rows, print_stairs):
        print_section(sys.argv[1:] == ['--answers'])


if __name__ == '__main__':
    main()
