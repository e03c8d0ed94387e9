"""Makes the stored questions about sheets: strings of bytes, which docs/FORMAT.md answers.

    python3 reference/sheet_vectors.py > questions
    python3 reference/sheet_vectors.py --answers > answers

The questions are lines of bytes in uppercase hexadecimal, `-` where there is no byte, below a line `=== sheets`. With
--answers the script prints instead, below the same line, the answer to each, in a line:

    ANSWER, ANSWER, refused 19 at 0

what is answered into a buffer with room for every answer, into one of the length of this answer, and into one that is a
byte shorter. ANSWER is bytes in uppercase hexadecimal, in which a leading `+` stands for the bytes of the sheet.

The same lines come each time. Where this file names the answer to a sheet, it was taken from docs/FORMAT.md or
docs/RULES.md by hand, and the answers are held to it. The counts of each survey are held to what docs/RULES.md says of
them.
"""

import sys

sys.dont_write_bytecode = True  # leave no cache beside the sources

from chance import LOOSE, NEARLY_LOOSE, Source, at_the_edge, divisors, work_out  # noqa: E402
from counts import check_case, first_rest, slow_rest, test_points, window  # noqa: E402
from leaves import (  # noqa: E402
    END,
    FINDING,
    HORIZON,
    read_leaf,
    write_end,
    write_finding,
    write_heading,
    write_leaf,
    write_row,
)
from refusals import (  # noqa: E402
    BAD_ACCURACY,
    BAD_FRAME,
    CUT_LEAF,
    FULL_TABLE,
    IDLE_ROW,
    LATE_DEADLINE,
    LONG_PERIOD,
    NO_WINDOW,
    OFF_FRAME,
    OUT_OF_TURN,
    SHORT_BUFFER,
    STRANGE_LETTER,
    UNKNOWN_BOUND,
    refused_at,
)
from sheets import answer_sheet, bound_of, read_sheet, write_refusal  # noqa: E402

TOP = 4_294_967_295  # the largest number of 32 bits
HALF = 2_147_483_648  # the least that would be negative if it had a sign

# The refusals that a sheet can have.
REFUSALS = [
    BAD_FRAME, BAD_ACCURACY, IDLE_ROW, NO_WINDOW, LATE_DEADLINE, LONG_PERIOD, OFF_FRAME, FULL_TABLE, CUT_LEAF,
    STRANGE_LETTER, OUT_OF_TURN, UNKNOWN_BOUND,
]

# The windows of all sheets but ten are no longer. Of those ten only the answer is worked out.
WIDEST = 20_000

source = Source(20_240_301)

vectors = {}  # bytes to the answer that is known beforehand, or None; in the order in which they were added


def add(data, expected=None):
    """Adds a vector, unless it is there already."""
    known = vectors.get(data)
    assert known is None or expected is None or known == expected
    vectors[data] = known or expected


def refuse(data, number, place):
    """Adds bytes that are refused."""
    add(data, write_refusal(number, place))


def write_sheet(frame, bound, accuracy, rows):
    """The bytes of the heading and the rows, whatever they say."""
    return write_heading(frame, bound, accuracy) + b''.join(write_row(*row) for row in rows)


def add_sheet(frame, accuracy, rows, findings=None):
    """Adds a sheet and answers its bytes; accuracy 0 stands for exact steps. Findings may be known beforehand."""
    return add_sheet_by(1 if accuracy else 0, frame, accuracy, rows, findings)


def add_sheet_by(bound, frame, accuracy, rows, findings=None):
    """Adds a sheet by the bound of a number."""
    data = write_sheet(frame, bound, accuracy, rows)
    assert len(data) == 7 + 17 * len(rows)
    add(data, None if findings is None else write_leaf(frame, bound, accuracy, rows, findings))
    return data


def row_place(rank):
    """The place at which the row of a rank begins."""
    return 7 + 17 * (rank - 1)


# --- The sheets that the others are made from --------------------------------------------------------------

# The worked table of docs/RULES.md.
WORKED_ROWS = [(1, 4, 4, 0), (2, 6, 6, 1), (3, 12, 12, 0)]
WORKED = write_sheet(12, 1, 3, WORKED_ROWS)

# The sheet of 32 rows, no two alike: periods are the divisors of its frame from 40 on.
FULL_FRAME = 720_720
FULL_PERIODS = divisors(FULL_FRAME, 40, 500)[:32]
FULL_ROWS = [
    (1 + rank % 3, period - rank % 2, period, rank % 4)
    for rank, period in enumerate(FULL_PERIODS, start=1)
]
FULL = write_sheet(FULL_FRAME, 0, 0, FULL_ROWS)

# Pieces of sheets, for vectors that are put together by hand.
HEAD = write_heading(12, 1, 3)
GOOD_ROW = write_row(1, 4, 4, 0)
GOOD_FINDING = write_finding(1, 1)

# Rows that are refused on any frame that 12 divides and 5 and 7 do not, each alone by its number; and with them
# the bytes that no row begins with.
FLAWED_ROWS = {
    4: write_row(0, 4, 4, 0),
    5: write_row(2, 4, 4, 3),
    6: write_row(1, 5, 4, 0),
    7: write_row(1, 4, HORIZON + 1, 0),
    8: write_row(1, 4, 5, 0),
    14: b'S' + GOOD_ROW[1:],
    15: GOOD_FINDING,
}
FLAWED_HEADINGS = {
    1: write_heading(0, 1, 3),
    20: write_heading(12, 3, 3),
    3: write_heading(12, 1, 0),
}


# --- The worked table --------------------------------------------------------------------------------------


def worked_table():
    """The tables of docs/RULES.md and the leaf of docs/FORMAT.md, held by hand."""
    add_sheet(12, 0, WORKED_ROWS, [(1, 1), (3, 1), (10, 4)])
    add_sheet(12, 1, WORKED_ROWS, [(1, 1), (4, 1), (0, 1)])
    add_sheet(12, 2, WORKED_ROWS, [(1, 1), (3, 1), (0, 3)])
    add_sheet(12, 3, WORKED_ROWS, [(1, 1), (3, 1), (11, 4)])
    add(WORKED, WORKED + bytes.fromhex(
        '41 00000001 00000001'
        '41 00000003 00000001'
        '41 0000000B 00000004'
        '5A 00000007'
    ))
    assert len(WORKED) == 58
    for accuracy in range(4, 65):
        add_sheet(12, accuracy, WORKED_ROWS)

    # The amounts that the page tells, and the two rows at the slower speed.
    first, second, third = WORKED_ROWS
    exact, two, three = bound_of(0, 0), bound_of(1, 2), bound_of(1, 3)
    assert [exact.amount(12, second, instant) for instant in (5, 6)] == [24, 48]
    assert [two.amount(12, second, instant) for instant in (5, 6)] == [24, 52]
    assert three.corners_before(second, HORIZON) == [5, 11]
    assert test_points(exact, third, (first, second)) == [4, 5, 8, 11, 12]
    assert slow_rest(third, (first, second), 3) is None
    assert slow_rest(second, (first,), 3) == 4
    assert first_rest(12, three, second, (first,)) == 3


# --- Sound sheets ------------------------------------------------------------------------------------------


def empty_tables():
    """Sheets without a row, by every bound."""
    for accuracy in range(65):
        add_sheet([1, 12, HORIZON][accuracy % 3], accuracy, [], [])
    for frame in (1, 2, 255, 256, 65_535, 65_536, 16_777_215, HORIZON):
        add_sheet(frame, 0, [], [])
        add_sheet(frame, 64, [], [])
    add(write_heading(12, 0, 0), write_heading(12, 0, 0) + write_end(1))


def random_accuracy():
    """An accuracy of a linear tail: small ones are the likelier, for they part most from exact steps."""
    return source.pick([source.between(1, 4), source.between(1, 12), source.between(1, 64)])


def random_sheet(count, accuracy, most):
    """A sheet by chance of so many rows with windows up to `most`."""
    frame, periods = source.frame_and_periods(count, most)
    add_sheet(frame, accuracy, source.table(count, periods, source.utilisation(accuracy)))


def every_number_of_rows():
    """Tables of each number of rows, by both bounds."""
    for count in range(33):
        for most in (60, 150, 250):
            random_sheet(count, 0, most)
            random_sheet(count, random_accuracy(), most)
        if count > 8:
            random_sheet(count, 0, 400)
            random_sheet(count, source.between(1, 64), 400)
    for count in (31, 32):
        for _ in range(4):
            random_sheet(count, 0, 200)
            random_sheet(count, random_accuracy(), 200)
    add_sheet(FULL_FRAME, 0, FULL_ROWS)
    add_sheet(FULL_FRAME, 2, FULL_ROWS)
    add_sheet(FULL_FRAME, 64, FULL_ROWS)


def every_accuracy():
    """Tables by the linear tail of each accuracy."""
    for accuracy in range(1, 65):
        for most in (12, 60, 200, 500):
            random_sheet(source.between(2, 9), accuracy, most)


def random_sheets():
    """Tables by chance, of few rows mostly."""
    for _ in range(240):
        random_sheet(source.between(2, 9), 0, source.pick([12, 30, 100, 300, 500]))
    for _ in range(240):
        random_sheet(source.between(2, 9), random_accuracy(), source.pick([12, 30, 100, 300, 500]))


def tiny_sheets():
    """Tables of small numbers, in which all happens near the first instants."""
    for _ in range(200):
        periods = divisors(12, 1, 12)
        rows = source.table(source.between(1, 4), periods, source.between(70, 150))
        add_sheet(12, source.pick([0, 1, 2, 3, random_accuracy()]), rows)


def deadlines_at_the_edge():
    """Tables in which most windows end where the row first rests, or an instant before or after."""
    for _ in range(160):
        count = source.between(2, 8)
        accuracy = source.pick([0, random_accuracy()])
        frame, periods = source.frame_and_periods(count, source.pick([30, 100, 300]))
        rows = source.table(count, periods, source.utilisation(accuracy), source.pick([LOOSE, NEARLY_LOOSE]))
        bound = bound_of(1 if accuracy else 0, accuracy)
        for at, row in enumerate(rows):
            if source.below(4):
                rows[at] = at_the_edge(source, frame, bound, row, tuple(rows[:at]))
        add_sheet(frame, accuracy, rows)


def narrow_sheets():
    """Windows of 1, jitter just below the period, periods 1 and 2."""
    for turn in range(120):
        accuracy = source.pick([0, 1, 2, random_accuracy()])
        frame = source.pick([1, 2, 4, 12, 60, 720, 65_536, HORIZON])
        rows = []
        for _ in range(source.between(1, 5)):
            period = source.pick(divisors(frame, 1, 300))
            kind = (turn, source.below(5))[turn % 2] % 5
            if kind == 0:  # a window of 1, wherever the deadline is
                deadline = source.between(1, period)
                rows.append((1, deadline, period, deadline - 1))
            elif kind == 1:  # jitter just below the period
                jitter = period - 1 - source.below(min(3, period))
                rows.append((source.between(1, period - jitter), period, period, jitter))
            elif kind == 2:  # periods 1 and 2
                period = source.pick([number for number in (1, 2) if frame % number == 0])
                rows.append(source.row(source.between(1, period), period))
            elif kind == 3:  # work as long as the window
                work = source.between(1, period)
                rows.append((work, period, period, period - work))
            else:
                rows.append(source.row(1 + period // 8, period))
        add_sheet(frame, accuracy, rows)

    # Windows of 1 with the largest periods and jitter.
    for accuracy in (0, 1, 2, 64):
        for count in (1, 2, 32):
            add_sheet(HORIZON, accuracy, count * [(1, HORIZON, HORIZON, HORIZON - 1)])
        for left in (2, 3, 100, 5000):
            row = (source.between(1, left), HORIZON, HORIZON, HORIZON - left)
            add_sheet(HORIZON, accuracy, [row])
            add_sheet(HORIZON, accuracy, [(1, 4, 4, 0), (1, 2, 4, 1), row])
            add_sheet(HORIZON, accuracy, [(1, 4, 4, 1), row, row])
        for row in ((1, 1, HORIZON, 0), (1, 2, HORIZON, 1), (1, HORIZON - 1, HORIZON, HORIZON - 2)):
            add_sheet(HORIZON, accuracy, [row, (1, 3, HORIZON, 0), row])


def frames_at_the_ends():
    """Frames of 1 and of the horizon."""
    for count in range(0, 33):
        add_sheet(1, source.pick([0, 1, 2, 64]), count * [(1, 1, 1, 0)])
    for accuracy in range(65):
        add_sheet(1, accuracy, source.between(1, 3) * [(1, 1, 1, 0)])
    for _ in range(70):
        most = source.pick([16, 64, 256, 1024])
        periods = [number for number in divisors(HORIZON, 4, most)]
        rows = source.table(source.between(1, 7), periods, source.utilisation())
        add_sheet(HORIZON, source.pick([0, random_accuracy()]), rows)


def wide_sheets():
    """Windows up to 20,000, and tables with many test points."""
    for _ in range(30):
        frame = source.pick([HORIZON, 14_414_400, 720_720, 1_000_000])
        most = source.pick([4000, 9000, 20_000])
        periods = divisors(frame, most // 50, most) + divisors(frame, most // 4, most)
        accuracy = source.pick([0, random_accuracy()])
        rows = source.table(source.between(2, 6), periods, source.utilisation(accuracy), NEARLY_LOOSE)
        add_sheet(frame, accuracy, rows)
    for _ in range(20):
        periods = divisors(1_441_440, 20, 60) + divisors(1_441_440, 900, 3000)
        rows = source.table(source.between(5, 14), periods, source.between(85, 102), NEARLY_LOOSE)
        add_sheet(1_441_440, source.pick([0, 0, source.between(16, 64)]), rows)
    # Thousands of test points.
    for turn in range(14):
        rows = source.table(source.between(1, 4), divisors(720_720, 2, 12), source.between(60, 98), LOOSE)
        period = source.pick(divisors(720_720, 4000, 20_000))
        used = sum(period * work // other for work, _, other, _ in rows)
        work = min(max(1, period - used - source.between(-20, 40)), period)
        rows.append((work, period, period, source.below(min(period - work, 9) + 1)))
        add_sheet(720_720, (0, 64, 0, source.between(30, 64))[turn % 4], rows)


def long_sheets():
    """Ten tables with windows of millions of instants, up to the horizon."""
    half, quarter = HORIZON // 2, HORIZON // 4
    small = [(1 + rank % 9, HORIZON - rank, HORIZON, 37 * rank) for rank in range(32)]
    add_sheet(HORIZON, 0, [(HORIZON, HORIZON, HORIZON, 0)], [(HORIZON, 1)])
    add_sheet(HORIZON, 0, [(3, HORIZON, HORIZON, 0), (HORIZON - 2, HORIZON, HORIZON, 0)], [(3, 1), (0, 1)])
    rows = [(quarter, HORIZON, HORIZON, 0), (9, HORIZON, HORIZON, 0)]
    add_sheet(HORIZON, 0, rows, [(quarter, 1), (quarter + 9, 1)])
    add_sheet(HORIZON, 0, 32 * [(1, HORIZON, HORIZON, 0)], [(rank, 1) for rank in range(1, 33)])
    add_sheet(HORIZON, 1, 32 * [(1, HORIZON, HORIZON, 0)], [(1, 1)] + [(rank + 1, 1) for rank in range(2, 33)])
    add_sheet(HORIZON, 2, small)
    add_sheet(HORIZON, 3, [(half // 30, half, half, 1000), (half // 4, HORIZON, HORIZON, 0)])
    add_sheet(HORIZON, 64, [(100_000, quarter, quarter, quarter - 100_000), (300_000, HORIZON, HORIZON, 1)])
    add_sheet(14_414_400, 0, [(600_000, 1_801_800, 1_801_800, 0), (900_000, 7_207_200, 7_207_200, 99)])
    rows = [(500_000, 16_777_213, 16_777_213, 0), (250_000, 1_000_000, 16_777_213, 99), (1, 1, 1, 0)]
    add_sheet(16_777_213, 2, rows)


# --- Refusals ----------------------------------------------------------------------------------------------


def refusals_of_the_heading():
    """The heading's fields, alone and in pairs, and the heading cut."""
    for frame in (0, HORIZON + 1, HALF, HALF + 12, TOP, 12 * 256 * 256 * 256):
        refuse(write_heading(frame, 0, 0), 1, 0)
        refuse(write_heading(frame, 1, 3) + GOOD_ROW, 1, 0)
        refuse(write_heading(frame, 3, 0), 1, 0)  # 1 and 20
        refuse(write_heading(frame, 0, 1), 1, 0)  # 1 and 3
        refuse(write_heading(frame, 255, 255), 1, 0)
    for bound in (3, 65, 128, 254, 255):
        for accuracy in (0, 1, 64, 65, 255):  # no accuracy is looked at
            refuse(write_heading(12, bound, accuracy), 20, 0)
    for accuracy in (1, 2, 64, 65, 128, 255):
        refuse(write_heading(12, 0, accuracy), 3, 0)
    for accuracy in (0, 65, 66, 128, 255):
        refuse(write_heading(12, 1, accuracy), 3, 0)
        refuse(write_heading(HORIZON, 1, accuracy) + GOOD_ROW, 3, 0)
    # A heading is whole before any of its fields is looked at.
    for heading in list(FLAWED_HEADINGS.values()) + [write_heading(TOP, 255, 255)]:
        for length in range(7):
            refuse(heading[:length], 13, length)


def refusals_of_rows():
    """Each number about a row, alone and with others, at the first rank, at a later one and at the last."""
    for row, number in (
        ((0, 4, 4, 0), 4),  # alone
        ((0, 4, 4, 4), 4),
        ((2, 4, 4, 3), 5),
        ((5, 4, 4, 0), 5),
        ((1, 4, 4, 4), 5),
        ((1, 0, 4, 0), 5),
        ((1, 5, 4, 0), 6),
        ((1, 12, 4, 11), 6),
        ((1, 4, HORIZON + 1, 0), 7),
        ((1, 4, HORIZON + 12, 0), 7),
        ((1, HORIZON + 1, HORIZON + 1, 0), 7),
        ((1, 4, TOP, 0), 7),
        ((1, 4, 5, 0), 8),
        ((1, 4, 8, 0), 8),
        ((1, 4, 13, 0), 8),
        ((1, 4, 24, 0), 8),
        ((1, 4, HORIZON, 0), 8),
        ((HORIZON, HORIZON, HORIZON, 0), 8),
        ((0, 4, 4, 5), 4),  # 4 and 5
        ((0, 5, 4, 0), 4),  # 4 and 6
        ((0, 4, HORIZON + 1, 0), 4),  # 4 and 7
        ((0, 5, 5, 0), 4),  # 4 and 8
        ((0, 0, 0, 0), 4),
        ((0, 9, 8, 10), 4),  # 4, 5, 6 and 8
        ((0, TOP - 1, TOP - 2, TOP), 4),  # 4, 5, 6 and 7
        ((9, 8, 4, 0), 5),  # 5 and 6
        ((1, 5, 4, 5), 5),
        ((9, 8, HORIZON + 1, 0), 5),  # 5 and 7
        ((6, 5, 5, 0), 5),  # 5 and 8
        ((1, 0, 0, 0), 5),  # a period of 0
        ((TOP, HALF, HORIZON + 1, 0), 5),  # 5, 6 and 7
        ((1, 6, 5, 0), 6),  # 6 and 8
        ((1, HORIZON + 3, HORIZON + 2, 0), 6),  # 6 and 7
        ((1, TOP, TOP - 1, 0), 6),
        ((TOP, TOP, HORIZON + 1, 0), 6),
        ((1, 1, 0, 0), 6),  # a period of 0
        ((1, TOP, 0, TOP - 1), 6),
        ((1, 4, HORIZON + 1, 0), 7),  # 7 and 8
        ((1, TOP, TOP, 0), 7),
        ((TOP, 4, 4, 0), 5),  # each field at the top of 32 bits
        ((1, TOP, 4, 0), 6),
        ((1, 4, TOP, 0), 7),
        ((1, 4, 4, TOP), 5),
        ((HALF, 4, 4, 0), 5),
        ((1, HALF, 4, 0), 6),
        ((1, 4, HALF, 0), 7),
        ((1, 4, 4, HALF), 5),
        ((TOP, TOP, TOP, 0), 7),
        ((0, TOP, TOP, TOP), 4),
        ((TOP, TOP, TOP, TOP), 5),  # the sum of work and jitter does not fit 32 bits
        ((TOP, 4, 4, TOP), 5),
        ((TOP, TOP, TOP, 1), 5),
        ((TOP, 4, 4, 1), 5),
        ((TOP, 4, 4, 2), 5),
        ((TOP, 4, 4, 5), 5),
        ((2, 4, 4, TOP), 5),
        ((5, 4, 4, TOP), 5),
        ((HALF, 4, 4, HALF), 5),
        ((HALF, 4, 4, HALF + 4), 5),
        ((HALF, TOP, TOP, HALF), 5),
        ((HALF, TOP, TOP, HALF - 1), 7),  # the largest sum that fits
        ((HALF, TOP, TOP - 1, HALF - 1), 6),
    ):
        refuse(HEAD + write_row(*row), number, 7)
        refuse(HEAD + GOOD_ROW + write_row(*row) + GOOD_ROW, number, 24)
    # Alone at each of many ranks, the last among them.
    for number in (4, 5, 6, 7, 8):
        for rank in (3, 17, 31, 32):
            refuse(HEAD + (rank - 1) * GOOD_ROW + FLAWED_ROWS[number], number, row_place(rank))


def pairs_of_faults():
    """Of two flaws in two entries the earlier is told, whichever they are."""
    rows_and_cut = {**FLAWED_ROWS, 13: GOOD_ROW[:-1]}
    for number, heading in FLAWED_HEADINGS.items():
        for later in rows_and_cut.values():
            refuse(heading + later, number, 0)
        refuse(heading + HEAD, number, 0)
        refuse(heading + 33 * GOOD_ROW, number, 0)
    for first, second in ((1, 2), (2, 3), (31, 32), (1, 32)):
        for number, flaw in FLAWED_ROWS.items():
            if (first, second) == (1, 32) and number in (14, 15):
                continue
            for other, later in rows_and_cut.items():
                between = (second - first - 1) * GOOD_ROW
                refuse(HEAD + (first - 1) * GOOD_ROW + flaw + between + later, number, row_place(first))
    # Any flaw, and a row too many after it.
    for number, flaw in FLAWED_ROWS.items():
        if number not in (14, 15):
            refuse(HEAD + 31 * GOOD_ROW + flaw + GOOD_ROW, number, row_place(32))
            refuse(HEAD + flaw + 32 * GOOD_ROW, number, 7)
    # Where the letter is wrong, no field is looked at.
    for number in (4, 5, 6, 7, 8):
        for kind, other in ((b'S', 14), (b'A', 15), (b'Z', 15), (b'F', 15)):
            refuse(HEAD + kind + FLAWED_ROWS[number][1:], other, 7)
            refuse(HEAD + GOOD_ROW + kind + FLAWED_ROWS[number][1:], other, 24)
    for number, heading in FLAWED_HEADINGS.items():
        for kind, other in ((b'S', 14), (b'A', 15), (b'Z', 15), (b'R', 15)):
            refuse(kind + heading[1:], other, 0)
    # A row is whole before any of its fields is looked at; its letter is looked at first.
    for number, flaw in FLAWED_ROWS.items():
        for length in (1, 4, 5, 8, 12, 16):
            if number not in (14, 15):
                refuse(HEAD + flaw[:length], 13, 7 + length)
            else:
                refuse(HEAD + flaw[:length], number, 7)


def letters_out_of_turn():
    """A, Z, F and strange letters, wherever an entry may begin."""
    for kind in list(range(0x3F, 0x5D)) + [0, 1, 0x61, 0x66, 0x72, 0x7A, 128, 255]:
        add(bytes([kind]))
        add(HEAD + bytes([kind]))
        add(bytes([kind]) + WORKED[1:])
        add(HEAD + GOOD_ROW + bytes([kind]) + GOOD_ROW[1:])
    for kind, number in ((b'A', 15), (b'Z', 15), (b'F', 15), (b'X', 14)):
        for count in range(33):
            refuse(HEAD + count * GOOD_ROW + kind, number, row_place(count + 1))
    for count in (0, 1, 2, 31, 32):
        place = row_place(count + 1)
        table = HEAD + count * GOOD_ROW
        refuse(table + GOOD_FINDING, 15, place)
        refuse(table + write_end(1 + count), 15, place)
        refuse(table + HEAD, 15, place)
        refuse(table + HEAD + GOOD_ROW, 15, place)
        refuse(table + write_refusal(13, 0), 14, place)
    for first in (b'R', b'A', b'Z', GOOD_ROW, GOOD_FINDING, write_end(0), write_end(1)):
        refuse(first, 15, 0)
        refuse(first + HEAD, 15, 0)
    refuse(write_refusal(13, 0), 14, 0)


def sheets_cut():
    """Sheets cut at every length, and the one of 32 rows around each place at which a row begins."""
    for sheet in (write_sheet(24, 0, 0, WORKED_ROWS[:1]), WORKED, write_sheet(FULL_FRAME, 1, 5, FULL_ROWS[:6])):
        for length in range(len(sheet)):
            if length < 7 or (length - 7) % 17 != 0:
                refuse(sheet[:length], 13, length)
            else:
                add(sheet[:length])
    for rank in range(1, 33):
        place = row_place(rank)
        refuse(FULL[:place + 1], 13, place + 1)
        refuse(FULL[:place + 16], 13, place + 16)
        add(FULL[:place])


def long_inputs():
    """Inputs longer than a sheet can be. The first 552 bytes decide."""
    assert len(FULL) == 551
    noise = bytes(source.below(256) for _ in range(700))
    for rest in (
        b'',
        b'R',
        b'x',
        bytes(1),
        GOOD_ROW[1:],
        GOOD_ROW[1:16],
        write_row(0, 0, 0, 0)[1:],
        write_row(TOP, TOP, TOP, TOP)[1:],
        GOOD_ROW[1:] + GOOD_ROW,
        GOOD_ROW[1:] + GOOD_FINDING,
        GOOD_FINDING,
        write_end(33),
        600 * b'R',
        620 * bytes(1),
        noise[:600],
        noise,
        FULL,
    ):
        refuse(FULL + b'R' + rest, 9, 551)
    for letter, number in ((b'A', 15), (b'Z', 15), (b'F', 15), (b'X', 14), (b'\x00', 14), (b'\xff', 14)):
        refuse(FULL + letter, number, 551)
        refuse(FULL + letter + GOOD_ROW[1:], number, 551)
        refuse(FULL + letter + noise[:600], number, 551)
    for flaw in (4, 5, 6, 7, 8):
        refuse(FULL + FLAWED_ROWS[flaw], 9, 551)
        refuse(FULL + FLAWED_ROWS[flaw][:11], 9, 551)
    refuse(b'\x00' + noise, 14, 0)
    refuse(b'F' + 800 * b'\xff', 1, 0)
    refuse(b'R' + noise, 15, 0)
    refuse(HEAD + 700 * b'S', 14, 7)
    refuse(HEAD + GOOD_ROW + FLAWED_ROWS[8] + noise, 8, 24)


def leaves_given():
    """Whole leaves given as sheets: their first finding, or their end, is out of turn."""
    worked = [(1, 1), (3, 1), (11, 4)]
    refuse(write_leaf(12, 1, 3, WORKED_ROWS, worked), 15, 58)
    refuse(write_leaf(12, 1, 3, [], []), 15, 7)
    refuse(write_leaf(12, 0, 0, [], []), 15, 7)
    refuse(write_leaf(12, 0, 0, WORKED_ROWS[:1], [(1, 1)]), 15, 24)
    refuse(write_leaf(12, 0, 0, WORKED_ROWS[:1], []), 15, 24)
    refuse(write_leaf(FULL_FRAME, 0, 0, FULL_ROWS, 32 * [(1, 1)]), 15, 551)
    refuse(write_leaf(FULL_FRAME, 0, 0, FULL_ROWS[:31], 31 * [(0, 9)]), 15, 534)


def sheets_damaged():
    """Sheets with single bits of them turned, with other bytes changed, put in and taken out."""
    for offset in range(7 + 17):
        for bit in range(8):
            damaged = bytearray(WORKED)
            damaged[offset] ^= 1 << bit
            add(bytes(damaged))
    sheet = write_sheet(FULL_FRAME, 0, 0, FULL_ROWS[:3])
    for offset in range(len(sheet)):
        for value in (0, 255):
            add(sheet[:offset] + bytes([value]) + sheet[offset + 1:])
        add(sheet[:offset] + sheet[offset + 1:])
        add(sheet[:offset] + bytes([source.below(256)]) + sheet[offset:])
    for _ in range(25):
        at = source.below(len(FULL))
        add(FULL[:at] + bytes([source.below(256)]) + FULL[at + 1:])
        add(bytes(source.below(256) for _ in range(source.below(40))))
        add(b'F' + bytes(source.below(256) for _ in range(source.below(30))))


# --- By the staircase --------------------------------------------------------------------------------------

STAIRCASE = 2


def add_by_staircase(frame, accuracy, rows, findings=None):
    """Adds a sheet by the staircase of an accuracy."""
    return add_sheet_by(STAIRCASE, frame, accuracy, rows, findings)


def worked_staircases():
    """The worked table by every staircase. Its rows have at most 3 jobs, so all but the first count as exact steps do."""
    exact = [(1, 1), (3, 1), (10, 4)]
    add_by_staircase(12, 1, WORKED_ROWS, [(1, 1), (3, 1), (11, 4)])
    for accuracy in range(2, 65):
        add_by_staircase(12, accuracy, WORKED_ROWS, exact)
    for accuracy in (1, 2, 64):
        add_by_staircase([1, 12, HORIZON][accuracy % 3], accuracy, [], [])


def stairs_of_one():
    """A row below one of period 4 that asks for 1 by each job: by accuracy 2 that is 1, 2, 3, 4, 6, 6, 8, 8, 12."""
    for window_told, work, rest, points in (
        (4, 3, 4, 1), (8, 5, 7, 2), (12, 8, 11, 3), (16, 12, 16, 4), (24, 13, 19, 5), (24, 18, 24, 5), (32, 19, 27, 6),
        (36, 22, 30, 6), (36, 24, 32, 6), (36, 25, None, 7),
    ):
        rows = [(1, 4, 4, 0), (work, window_told, 720, 0)]
        add_by_staircase(720, 2, rows, [(1, 1), (rest or 0, points)])


def random_staircase(count, accuracy, most):
    """A sheet by chance of so many rows with windows up to `most`."""
    frame, periods = source.frame_and_periods(count, most)
    add_by_staircase(frame, accuracy, source.table(count, periods, source.utilisation(accuracy)))


def every_staircase():
    """Tables by the staircase of each accuracy, short windows and long ones; and of each number of rows."""
    for accuracy in range(1, 65):
        for most in (60, 500):
            random_staircase(source.between(2, 9), accuracy, most)
    for count in range(33):
        random_staircase(count, random_accuracy(), 200)
    for accuracy in (1, 2, 64):
        add_by_staircase(FULL_FRAME, accuracy, FULL_ROWS)


def stairs_far_up():
    """Tables in which rows of short periods ask so often that their jobs are counted in large grains."""
    for turn in range(40):
        accuracy = source.pick([1, 1, 2, 3, source.between(1, 8), source.between(1, 64)])
        share = source.between(40, 96) * accuracy // (accuracy + 1)
        rows = source.table(source.between(1, 3), divisors(720_720, 2, 12), share, source.pick([LOOSE, NEARLY_LOOSE]))
        bound = bound_of(STAIRCASE, accuracy)
        period = source.pick(divisors(720_720, 400, 8000))
        used = sum(period * work // other for work, _, other, _ in rows)
        work = min(max(1, (period - used) * source.between(5, 60) // 100), period)
        row = (work, period, period, source.below(min(period - work, 9) + 1))
        if turn % 4:
            row = at_the_edge(source, 720_720, bound, row, tuple(rows))
        add_by_staircase(720_720, accuracy, rows + [row])


def stairs_at_the_edge():
    """Tables in which most windows end where the row first rests by the staircase, or an instant before or after."""
    for _ in range(60):
        count, accuracy = source.between(2, 7), random_accuracy()
        frame, periods = source.frame_and_periods(count, source.pick([30, 100, 300]))
        rows = source.table(count, periods, source.utilisation(accuracy), source.pick([LOOSE, NEARLY_LOOSE]))
        for at, row in enumerate(rows):
            if source.below(4):
                rows[at] = at_the_edge(source, frame, bound_of(STAIRCASE, accuracy), row, tuple(rows[:at]))
        add_by_staircase(frame, accuracy, rows)


def refusals_of_staircases():
    """The accuracies of a staircase past their ends, and what else may be wrong with its sheet."""
    for accuracy in (0, 65, 66, 128, 255):
        refuse(write_heading(12, STAIRCASE, accuracy), 3, 0)
        refuse(write_heading(HORIZON, STAIRCASE, accuracy) + GOOD_ROW, 3, 0)
        for frame in (0, HORIZON + 1, TOP):
            refuse(write_heading(frame, STAIRCASE, accuracy), 1, 0)
    for accuracy in (1, 64):
        head = write_heading(12, STAIRCASE, accuracy)
        for number, flaw in FLAWED_ROWS.items():
            refuse(head + flaw, number, 7)
            refuse(head + GOOD_ROW + flaw, number, 24)
        refuse(head + 33 * GOOD_ROW, 9, 551)
        refuse(head + GOOD_ROW[:-1], 13, 23)
        refuse(head + write_end(1), 15, 7)
        refuse(head + head, 15, 7)


def staircases():
    """The sheets by staircases, by chance of their own."""
    source.turn_to(20_261_127)
    worked_staircases()
    stairs_of_one()
    every_staircase()
    stairs_far_up()
    stairs_at_the_edge()
    refusals_of_staircases()


# --- All of them -------------------------------------------------------------------------------------------


def make_vectors():
    """Adds every vector."""
    refuse(b'', 13, 0)
    worked_table()
    empty_tables()
    every_number_of_rows()
    every_accuracy()
    random_sheets()
    tiny_sheets()
    deadlines_at_the_edge()
    narrow_sheets()
    frames_at_the_ends()
    wide_sheets()
    long_sheets()
    refusals_of_the_heading()
    refusals_of_rows()
    pairs_of_faults()
    letters_out_of_turn()
    sheets_cut()
    long_inputs()
    leaves_given()
    sheets_damaged()
    staircases()


def longest_window(data):
    """The longest window of a sheet's rows; 0 where there is none."""
    read = read_sheet(data)
    return max(map(window, read[4]), default=0) if read[0] == 'sheet' else 0


def weight(data):
    """About how long a vector takes."""
    return len(data) * longest_window(data)


def check_reading(data):
    """Holds the reading of a sheet to what docs/FORMAT.md says of it beside the reading of a leaf."""
    read, as_leaf = read_sheet(data), read_leaf(data)
    assert read_sheet(data[:552]) == read
    if read[0] == 'sheet':
        assert len(data) <= 551 and as_leaf == ('refused', CUT_LEAF, len(data))
    elif not (read[1] == OUT_OF_TURN and read[2] > 0 and data[read[2]] in (FINDING, END)):
        assert as_leaf == read


def worked_out(data):
    """The answer to a vector. Its reading, and the counts of a sheet, are checked on the way."""
    check_reading(data)
    read = read_sheet(data)
    if read[0] == 'refused':
        return answer_sheet(data)
    _, frame, bound, accuracy, rows = read
    if longest_window(data) <= WIDEST:
        for at, row in enumerate(rows):
            # Beside a row in exact steps, some linear tail and staircase.
            check_case(frame, row, tuple(rows[:at]), accuracy or 1 + (7 * at + row[1]) % 64, in_full=False)
    answer = answer_sheet(data)
    findings = read_leaf(answer)[5]
    assert read_leaf(answer) == ('leaf', frame, bound, accuracy, rows, findings)
    return answer


def kind_of(data):
    """The kind of answer to a sheet, for which nothing need be counted."""
    read = read_sheet(data)
    if read[0] == 'refused':
        return read[1]
    return ['exact steps', 'linear tail', 'staircase'][read[2]]


def check_spread():
    """Every answer that a sheet can have is there."""
    kinds = [kind_of(data) for data in vectors]
    counts = {kind: kinds.count(kind) for kind in set(kinds)}
    assert set(counts) == {'exact steps', 'linear tail', 'staircase', *REFUSALS} and min(counts.values()) >= 20
    assert sum(longest_window(data) > WIDEST for data in vectors) == 10


def line_of(data, answer):
    """The line of an answer."""
    told = answer.hex().upper()
    if answer[:1] == b'F':
        assert len(answer) == 12 + 26 * ((len(data) - 7) // 17)
    if answer.startswith(data):
        told = '+' + answer[len(data):].hex().upper()
    return f'{told}, {told}, {refused_at(SHORT_BUFFER, 0)}'


def main():
    """Prints the questions, or the answers."""
    if sys.argv[1:] not in ([], ['--answers']):
        sys.exit('use: sheet_vectors.py [--answers]')
    make_vectors()
    check_spread()
    print('=== sheets')
    if sys.argv[1:] == []:
        for data in vectors:
            print(data.hex().upper() or '-')
        return
    for (data, expected), answer in zip(vectors.items(), work_out(worked_out, list(vectors), weight)):
        assert expected is None or answer == expected, f'{data.hex()}: {answer.hex()}, not {expected.hex()}'
        print(line_of(data, answer))


if __name__ == '__main__':
    main()
