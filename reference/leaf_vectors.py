"""Makes the stored questions about leaves: strings of bytes, which docs/FORMAT.md answers.

    python3 reference/leaf_vectors.py > questions
    python3 reference/leaf_vectors.py --answers > answers

The questions are lines of bytes in uppercase hexadecimal, `-` where there is no byte, in three sections:

    === leaves            the bytes of each line
    === leaves cut        those of each line cut at every length, 0 first and their own last
    === leaves changed    those of each line with one byte changed: the first to each value from 0 to 255, then the next

With --answers the script prints instead, below the same three lines, the answer to each string of bytes, in a line:

    refused N at P, refused N at P, refused N at P      read entry by entry, asked once more, and read as a whole
    F .. R .. A .. Z .. +, -, + +                       the entries as reference/leaves.py tells them; `+` for the same
                                                        bytes, filed call by call; `-` for no entry more; the same bytes
                                                        filed by one call, and with the rows and the findings in them

The same lines come each time. Where this file names the answer to some bytes, it was taken from docs/FORMAT.md by
hand, and the reader is held to it.
"""

import random
import sys

sys.dont_write_bytecode = True  # leave no cache beside the sources

from leaves import (  # noqa: E402
    HORIZON,
    LENGTH,
    answer_text,
    four_bytes,
    read_leaf,
    write_end,
    write_finding,
    write_heading,
    write_leaf,
    write_row,
)
from refusals import (  # noqa: E402
    BAD_ACCURACY,
    BAD_FINDING,
    BAD_FRAME,
    CUT_LEAF,
    FULL_TABLE,
    IDLE_ROW,
    LATE_DEADLINE,
    LONG_PERIOD,
    LOOSE_BYTES,
    MISCOUNT,
    NO_WINDOW,
    OFF_FRAME,
    OUT_OF_TURN,
    STRANGE_LETTER,
    UNKNOWN_BOUND,
    refused_at,
)

TOP = 4_294_967_295  # the largest number of 32 bits
HALF = 2_147_483_648  # the least that would be negative if it had a sign

# The refusals that reading gives.
REFUSALS = [
    BAD_FRAME, BAD_ACCURACY, IDLE_ROW, NO_WINDOW, LATE_DEADLINE, LONG_PERIOD, OFF_FRAME, FULL_TABLE, CUT_LEAF,
    STRANGE_LETTER, OUT_OF_TURN, MISCOUNT, BAD_FINDING, LOOSE_BYTES, UNKNOWN_BOUND,
]

questions = {}  # bytes, in the order in which they were added; none comes two times
cut = []  # bytes of which every cut is asked about
changed = []  # bytes of which every change is asked about


def answer_of(data, expected=None):
    """What read_leaf answers to the bytes, as text; `expected` is that text where it is known beforehand."""
    answer = read_leaf(data)
    text = answer_text(answer)
    assert expected in (None, text), f'{data.hex()}: {text}, not {expected}'
    # A leaf has one way to be written.
    if answer[0] == 'leaf':
        assert write_leaf(*answer[1:]) == data, data.hex()
    return text


def add(data, expected=None):
    """Adds a question, unless it is there already."""
    answer_of(data, expected)
    questions[data] = None


def refuse(data, number, place):
    """Adds bytes that are refused."""
    add(data, refused_at(number, place))


def accept(frame, bound, accuracy, rows, findings):
    """Adds a leaf of these contents and answers its bytes."""
    data = write_leaf(frame, bound, accuracy, rows, findings)
    assert len(data) == 12 + 26 * len(rows)
    add(data, answer_text(('leaf', frame, bound, accuracy, rows, findings)))
    return data


def row_place(rank):
    return 7 + 17 * (rank - 1)


def finding_place(rows, rank):
    return 7 + 17 * rows + 9 * (rank - 1)


def end_place(rows):
    return 7 + 26 * rows


# --- The leaves that the others are made from --------------------------------------------------------------

# The worked leaf, byte for byte as docs/FORMAT.md shows it.
WORKED = bytes.fromhex(
    '46 0000000C 01 03'
    '52 00000001 00000004 00000004 00000000'
    '52 00000002 00000006 00000006 00000001'
    '52 00000003 0000000C 0000000C 00000000'
    '41 00000001 00000001'
    '41 00000003 00000001'
    '41 0000000B 00000004'
    '5A 00000007'
)

# The leaf of two rows.
TWO_ROWS = [(1, 4, 4, 0), (2, 6, 6, 1)]
TWO_FINDINGS = [(1, 1), (3, 1)]
TWO = write_leaf(24, 1, 3, TWO_ROWS, TWO_FINDINGS)

# The leaf of 32 rows, no two alike: periods are the divisors of its frame from 8 on.
FULL_FRAME = 720_720
FULL_PERIODS = [period for period in range(8, 400) if FULL_FRAME % period == 0][:32]
FULL_ROWS = [
    (1 + rank % 3, period - rank % 2, period, rank % 4)
    for rank, period in enumerate(FULL_PERIODS, start=1)
]
FULL_FINDINGS = [(3 * rank if rank % 5 else 0, 40 + rank) for rank in range(1, 33)]
FULL = write_leaf(FULL_FRAME, 0, 0, FULL_ROWS, FULL_FINDINGS)

# Pieces of leaves, for vectors that are put together by hand.
HEAD = write_heading(12, 1, 3)
GOOD_ROW = write_row(1, 4, 4, 0)
GOOD_FINDING = write_finding(1, 1)
FULL_HEAD = write_heading(FULL_FRAME, 0, 0)
FULL_TABLE = FULL_HEAD + b''.join(write_row(*row) for row in FULL_ROWS)
FULL_BODY = FULL_TABLE + b''.join(write_finding(*finding) for finding in FULL_FINDINGS)


def full_with_row(rank, row):
    """The leaf of 32 rows with another row at a rank."""
    rows = list(FULL_ROWS)
    rows[rank - 1] = row
    return write_leaf(FULL_FRAME, 0, 0, rows, FULL_FINDINGS)


def full_with_finding(rank, finding):
    """The leaf of 32 rows with another finding at a rank."""
    findings = list(FULL_FINDINGS)
    findings[rank - 1] = finding
    return write_leaf(FULL_FRAME, 0, 0, FULL_ROWS, findings)


# --- Sound leaves ------------------------------------------------------------------------------------------


def sound_leaves():
    add(
        WORKED,
        'F 12 1 3 R 1 4 4 0 R 2 6 6 1 R 3 12 12 0 A 1 1 A 3 1 A 11 4 Z 7',
    )
    accept(12, 1, 3, [], [])
    accept(12, 0, 0, [], [])
    accept(12, 0, 0, [(1, 4, 4, 0)], [(1, 1)])
    add(TWO, 'F 24 1 3 R 1 4 4 0 R 2 6 6 1 A 1 1 A 3 1 Z 5')
    accept(FULL_FRAME, 0, 0, FULL_ROWS[:31], FULL_FINDINGS[:31])
    accept(FULL_FRAME, 0, 0, FULL_ROWS, FULL_FINDINGS)
    accept(FULL_FRAME, 1, 64, FULL_ROWS, FULL_FINDINGS)
    assert len(WORKED) == 90 and len(FULL) == 844

    # Both bounds, each with its accuracies.
    for rows, findings in (([], []), ([(1, 4, 4, 0)], [(1, 1)]), (TWO_ROWS, TWO_FINDINGS)):
        accept(12, 0, 0, rows, findings)
        for accuracy in (1, 2, 63, 64):
            accept(12, 1, accuracy, rows, findings)
    for accuracy in range(1, 65):
        accept(12, 1, accuracy, [], [])

    # The frame at its ends and around powers of two.
    for frame in (1, 2, 255, 256, 65_535, 65_536, 16_777_215, 16_777_216):
        accept(frame, 0, 0, [], [])
        accept(frame, 1, 64, [(1, 1, 1, 0)], [(1, 1)])
        accept(frame, 0, 0, [(frame, frame, frame, 0)], [(frame, 1)])  # T = H, and nothing but work

    # The row at its ends.
    for row in (
        (1, 1, 1, 0),
        (1, 1, HORIZON, 0),
        (1, HORIZON, HORIZON, 0),
        (HORIZON, HORIZON, HORIZON, 0),
        (1, HORIZON, HORIZON, HORIZON - 1),  # C + J = D with the most jitter
        (HORIZON - 1, HORIZON, HORIZON, 1),
        (3, 5, 8, 2),  # C + J = D below T
        (3, 6, 8, 2),
        (3, 8, 8, 2),
        (257, 65_537, 131_072, 259),
    ):
        accept(HORIZON, 0, 0, [row], [(1, 1)])
        accept(HORIZON, 1, 1, [row, (1, 2, 2, 1), row], [(0, 7), (2, 8), (0, 9)])

    # The finding at its ends. Nobody asks whether it is the finding of its row.
    for first_rest in (0, 1, 2, 255, 256, 65_536, 16_777_215, 16_777_216):
        for points in (1, 2, 16_777_217, HALF, TOP):
            accept(12, 0, 0, [(1, 4, 4, 0)], [(first_rest, points)])
    accept(FULL_FRAME, 0, 0, FULL_ROWS, [(HORIZON, TOP)] + FULL_FINDINGS[1:31] + [(0, TOP)])


# --- Each refusal, at the first and at the last place where it can come ------------------------------------


def refusals_of_the_heading():
    rest = write_end(1)
    for frame in (0, 16_777_217, 16_777_218, 33_554_432, HALF, HALF + 12, TOP - 1, TOP):
        refuse(write_heading(frame, 0, 0) + rest, 1, 0)
        refuse(write_heading(frame, 1, 3) + GOOD_ROW + GOOD_FINDING + write_end(3), 1, 0)
    for bound in (3, 4, 64, 65, 127, 128, 129, 254, 255):
        refuse(write_heading(12, bound, 0) + rest, 20, 0)
        refuse(write_heading(12, bound, 1) + GOOD_ROW + GOOD_FINDING + write_end(3), 20, 0)
    for accuracy in (1, 2, 3, 63, 64, 65, 127, 128, 255):
        refuse(write_heading(12, 0, accuracy) + rest, 3, 0)
    for accuracy in (0, 65, 66, 100, 127, 128, 129, 192, 254, 255):
        refuse(write_heading(12, 1, accuracy) + rest, 3, 0)
    # Refused although nothing follows the heading.
    refuse(write_heading(0, 0, 0), 1, 0)
    refuse(write_heading(12, 3, 0), 20, 0)
    refuse(write_heading(12, 0, 1), 3, 0)


def refusals_of_rows():
    # Rows that are none on a frame that 4, 8 and the horizon divide, and why.
    for row, number in (
        ((0, 4, 4, 0), 4),
        ((0, 0, 0, 0), 4),
        ((1, 0, 4, 0), 5),
        ((5, 4, 4, 0), 5),
        ((1, 4, 4, 4), 5),
        ((2, 4, 4, 3), 5),
        ((4, 4, 4, 1), 5),
        ((1, 5, 4, 0), 6),
        ((1, 1, 0, 0), 6),
        ((1, HORIZON, HORIZON - 1, 0), 6),
        ((1, HORIZON + 1, HORIZON, 0), 6),
        ((1, TOP, 4, 0), 6),
        ((1, 4, HORIZON + 1, 0), 7),
        ((1, HORIZON + 1, HORIZON + 1, 0), 7),
        ((1, 4, 2 * HORIZON, 0), 7),
        ((1, 4, HALF, 0), 7),
        ((1, 4, TOP, 0), 7),
        ((TOP, TOP, TOP, 0), 7),
        ((1, TOP, TOP, TOP - 1), 7),
        ((1, 3, 3, 0), 8),
        ((1, 4, 5, 0), 8),
        ((1, 4, HORIZON - 1, 0), 8),
        ((1, 4, HORIZON // 2 + 1, 0), 8),
        ((1, 4, 12, 3), 8),
    ):
        bad = write_row(*row)
        head = write_heading(HORIZON, 0, 0)
        refuse(head + bad + GOOD_FINDING + write_end(3), number, 7)
        refuse(head + bad, number, 7)  # with nothing behind it
        refuse(head + GOOD_ROW + bad + GOOD_FINDING + GOOD_FINDING + write_end(5), number, 24)
    for row, number in (
        ((0, 8, 8, 0), 4),
        ((6, 8, 8, 3), 5),
        ((1, 9, 8, 0), 6),
        ((1, 8, HORIZON + 1, 0), 7),
        ((1, 8, 17, 0), 8),
    ):
        refuse(full_with_row(1, row), number, 7)
        refuse(full_with_row(32, row), number, 534)
    # Periods larger than the frame, and small frames.
    refuse(write_leaf(12, 0, 0, [(1, 24, 24, 0)], [(1, 1)]), 8, 7)
    refuse(write_leaf(12, 0, 0, [(1, 13, 13, 0)], [(1, 1)]), 8, 7)
    refuse(write_leaf(1, 0, 0, [(1, 2, 2, 0)], [(1, 1)]), 8, 7)
    refuse(write_leaf(8_388_608, 0, 0, [(1, 2, HORIZON, 0)], [(1, 1)]), 8, 7)
    refuse(write_leaf(16_777_215, 0, 0, [(1, 2, 2, 0)], [(1, 1)]), 8, 7)

    # 9 comes at the 33rd row alone.
    last = write_row(*FULL_ROWS[31])
    refuse(FULL_TABLE + last, 9, 551)
    refuse(FULL_TABLE + last + FULL_BODY[551:] + GOOD_FINDING + write_end(67), 9, 551)
    refuse(FULL_TABLE + last + last + last, 9, 551)


def refusals_of_findings():
    bad = [(1, 0), (0, 0), (HORIZON, 0), (HORIZON + 1, 1), (HALF, 1), (TOP, 1), (TOP, TOP), (TOP, 0)]
    for finding in bad:
        one = write_finding(*finding)
        refuse(HEAD + GOOD_ROW + one + write_end(3), 17, 24)
        refuse(HEAD + GOOD_ROW + one, 17, 24)
        refuse(HEAD + GOOD_ROW + GOOD_ROW + GOOD_FINDING + one + write_end(5), 17, 50)
    for finding in ((1, 0), (HORIZON + 1, 1)):
        refuse(full_with_finding(1, finding), 17, 551)
        refuse(full_with_finding(32, finding), 17, 830)


def refusals_by_order_and_number():
    # 13: no byte at all; no byte after the last row; no end; the last byte gone.
    refuse(b'', 13, 0)
    refuse(HEAD, 13, 7)
    refuse(FULL_TABLE, 13, 551)
    refuse(FULL_BODY, 13, 839)
    refuse(FULL[:-1], 13, 843)

    # 14: in each phase, at its beginning and at its end. Neighbours of the letters, small letters, the ends.
    for strange in b'EGQS@BY[fraz 0\x00\x01\x7f\x80\xc6\xff':
        one = bytes([strange])
        refuse(one, 14, 0)
        refuse(one + WORKED, 14, 0)
        refuse(HEAD + one, 14, 7)
        refuse(HEAD + one + GOOD_ROW + GOOD_FINDING + write_end(3), 14, 7)
        refuse(HEAD + GOOD_ROW + one + GOOD_FINDING + write_end(3), 14, 24)
        refuse(HEAD + GOOD_ROW + GOOD_ROW + GOOD_FINDING + one + GOOD_FINDING + write_end(5), 14, 50)
        refuse(HEAD + GOOD_ROW + GOOD_FINDING + one, 14, 33)
        refuse(HEAD + GOOD_ROW + GOOD_FINDING + one + write_end(3), 14, 33)
    refuse(FULL_TABLE + b'r' + FULL[551:], 14, 551)
    refuse(FULL_BODY + b'z' + FULL[840:], 14, 839)

    # 15: before the heading.
    refuse(GOOD_ROW, 15, 0)
    refuse(GOOD_ROW + HEAD + GOOD_FINDING + write_end(3), 15, 0)
    refuse(GOOD_FINDING, 15, 0)
    refuse(GOOD_FINDING + HEAD + GOOD_ROW + write_end(3), 15, 0)
    refuse(write_end(0), 15, 0)
    refuse(write_end(1) + HEAD, 15, 0)
    refuse(WORKED[7:], 15, 0)
    # 15: in the rows.
    refuse(HEAD + HEAD + write_end(1), 15, 7)
    refuse(HEAD + HEAD + write_end(2), 15, 7)
    refuse(HEAD + GOOD_ROW + HEAD + GOOD_FINDING + write_end(3), 15, 24)
    refuse(FULL_TABLE + FULL_HEAD + FULL[551:], 15, 551)
    # 15: in the findings.
    for wrong in (HEAD, GOOD_ROW):
        refuse(HEAD + GOOD_ROW + GOOD_FINDING + wrong, 15, 33)
        refuse(HEAD + GOOD_ROW + GOOD_FINDING + wrong + write_end(3), 15, 33)
        refuse(HEAD + GOOD_ROW + GOOD_FINDING + wrong + write_end(4), 15, 33)
        refuse(HEAD + 2 * GOOD_ROW + GOOD_FINDING + wrong + GOOD_FINDING + write_end(5), 15, 50)
        refuse(FULL_TABLE + GOOD_FINDING + wrong + FULL[560:], 15, 560)
        refuse(FULL_BODY + wrong + write_end(65), 15, 839)
    refuse(HEAD + GOOD_ROW + GOOD_FINDING + GOOD_ROW + GOOD_FINDING + write_end(5), 15, 33)

    # 16: a finding too many.
    refuse(HEAD + GOOD_FINDING, 16, 7)
    refuse(HEAD + GOOD_FINDING + write_end(1), 16, 7)
    refuse(HEAD + GOOD_FINDING + write_end(2), 16, 7)
    refuse(HEAD + GOOD_ROW + 2 * GOOD_FINDING + write_end(3), 16, 33)
    refuse(HEAD + GOOD_ROW + 2 * GOOD_FINDING + write_end(4), 16, 33)
    refuse(HEAD + 2 * GOOD_ROW + 3 * GOOD_FINDING + write_end(6), 16, 59)
    refuse(FULL_BODY + GOOD_FINDING + write_end(65), 16, 839)
    refuse(FULL_BODY + GOOD_FINDING + write_end(66), 16, 839)
    # 16: an end too early.
    refuse(HEAD + GOOD_ROW + write_end(2), 16, 24)
    refuse(HEAD + GOOD_ROW + write_end(3), 16, 24)
    refuse(HEAD + 2 * GOOD_ROW + write_end(3), 16, 41)
    refuse(HEAD + 2 * GOOD_ROW + GOOD_FINDING + write_end(4), 16, 50)
    refuse(HEAD + 2 * GOOD_ROW + GOOD_FINDING + write_end(5), 16, 50)
    refuse(FULL_TABLE + write_end(33), 16, 551)
    refuse(FULL_TABLE + write_end(65), 16, 551)
    refuse(FULL[:830] + write_end(64), 16, 830)
    refuse(FULL[:830] + write_end(65), 16, 830)
    # 16: another number in the end.
    for rows in (0, 1, 2, 3):
        right = 1 + 2 * rows
        body = HEAD + rows * GOOD_ROW + rows * GOOD_FINDING
        wrong_numbers = {
            0,
            rows,
            right - 1,
            right + 1,
            right + 2,
            2 * right,
            right + 256,
            right + 65_536,
            right + 16_777_216,
            right + HALF,
            right * 16_777_216,
            end_place(rows),
            12 + 26 * rows,
            TOP,
            TOP + 1 - right,
        } - {right}
        for number in sorted(wrong_numbers):
            refuse(body + write_end(number), 16, end_place(rows))
    for number in (0, 32, 64, 66, 65 + HALF):
        refuse(FULL_BODY + write_end(number), 16, 839)

    # 18: one loose byte and many, letters among them.
    none = HEAD + write_end(1)
    for loose in (b'F', b'R', b'A', b'Z', b'\x00', b'\xff', b'\n', b'x', b'\x00\x00', HEAD, GOOD_ROW,
                  GOOD_FINDING, write_end(1), write_end(2), write_end(1)[1:], none, 40 * b'\x00', WORKED):
        refuse(none + loose, 18, 12)
        refuse(TWO + loose, 18, 64)
        refuse(WORKED + loose, 18, 90)
    refuse(FULL + b'Z', 18, 844)
    refuse(FULL + b'\x00', 18, 844)
    refuse(FULL + HEAD, 18, 844)


def damages_told_in_the_format():
    """The damaged leaves at the end of docs/FORMAT.md."""
    refuse(WORKED[:-1], 13, 89)
    refuse(WORKED + b'\x00', 18, 90)
    refuse(WORKED[:58] + b'R' + WORKED[59:], 5, 58)
    refuse(WORKED[:89] + b'\x06', 16, 85)


# --- Which check comes first -------------------------------------------------------------------------------


def pairs_of_faults():
    """Two faults or more at one entry, or at two. The second check of each pair would tell something else."""
    # A strange letter (14) that is also the last byte, before 15 and 13.
    refuse(b'r', 14, 0)
    refuse(HEAD + b'f', 14, 7)
    refuse(HEAD + GOOD_ROW + GOOD_FINDING + b'r', 14, 33)

    # Out of turn (15) before a full table (9): a row in the findings when 32 rows have come.
    refuse(FULL_TABLE + GOOD_FINDING + write_row(*FULL_ROWS[0]), 15, 560)
    refuse(FULL_TABLE + GOOD_FINDING + b'R', 15, 560)
    # Out of turn (15) before a miscount (16): no rows and no findings have come, but neither has the heading.
    refuse(GOOD_FINDING + write_end(1), 15, 0)
    # Out of turn (15) before a cut (13).
    for data in (
        b'R',
        b'A',
        b'Z',
        HEAD + b'F',
        HEAD + GOOD_ROW + b'F',
        HEAD + GOOD_ROW + GOOD_FINDING + b'F',
        HEAD + GOOD_ROW + GOOD_FINDING + b'R',
        HEAD + 2 * GOOD_ROW + GOOD_FINDING + b'R',
    ):
        refuse(data, 15, len(data) - 1)
        refuse(data + b'\x00\x00\x00', 15, len(data) - 1)
    # Out of turn (15) before the fields.
    refuse(write_row(0, 0, 0, 0), 15, 0)
    refuse(write_finding(TOP, 0), 15, 0)
    refuse(write_end(7), 15, 0)
    refuse(HEAD + write_heading(0, 3, 65), 15, 7)
    refuse(HEAD + GOOD_ROW + GOOD_FINDING + write_heading(0, 3, 65), 15, 33)
    refuse(HEAD + GOOD_ROW + GOOD_FINDING + write_row(0, 0, 0, 0), 15, 33)

    # A full table (9) before a cut (13).
    refuse(FULL_TABLE + b'R', 9, 551)
    refuse(FULL_TABLE + write_row(*FULL_ROWS[0])[:-1], 9, 551)
    # A full table (9) before the fields.
    refuse(FULL_TABLE + write_row(0, 0, 0, 0), 9, 551)
    refuse(FULL_TABLE + write_row(1, 17, 17, 0), 9, 551)

    # A miscount of findings and rows (16) before a cut (13).
    refuse(HEAD + b'A', 16, 7)
    refuse(HEAD + GOOD_FINDING[:-1], 16, 7)
    refuse(HEAD + GOOD_ROW + GOOD_FINDING + b'A', 16, 33)
    refuse(HEAD + GOOD_ROW + GOOD_FINDING + GOOD_FINDING[:-1], 16, 33)
    refuse(FULL_BODY + b'A', 16, 839)
    refuse(HEAD + GOOD_ROW + b'Z', 16, 24)
    refuse(HEAD + GOOD_ROW + write_end(2)[:-1], 16, 24)
    refuse(HEAD + 2 * GOOD_ROW + GOOD_FINDING + b'Z', 16, 50)
    refuse(FULL_TABLE + b'Z', 16, 551)
    # A finding too many (16) before the fields (17).
    refuse(HEAD + write_finding(1, 0), 16, 7)
    refuse(HEAD + write_finding(TOP, 1), 16, 7)
    refuse(HEAD + GOOD_ROW + GOOD_FINDING + write_finding(TOP, 0), 16, 33)
    refuse(FULL_BODY + write_finding(TOP, 0), 16, 839)

    # A cut (13) before the fields.
    bad_heading = write_heading(0, 3, 65)
    for length in range(1, 7):
        refuse(bad_heading[:length], 13, length)
        refuse(write_heading(12, 3, 65)[:length], 13, length)
        refuse(write_heading(TOP, 1, 3)[:length], 13, length)
    for row in ((0, 0, 0, 0), (9, 4, 4, 0), (1, 5, 4, 0), (1, TOP, TOP, 0), (1, 5, 5, 0)):
        for length in (1, 4, 5, 8, 9, 12, 13, 16):
            refuse(HEAD + write_row(*row)[:length], 13, 7 + length)
    refuse(full_with_row(32, (0, 0, 0, 0))[:550], 13, 550)
    for finding in ((TOP, 1), (TOP, 0), (1, 0)):
        for length in (1, 4, 5, 8):
            refuse(HEAD + GOOD_ROW + write_finding(*finding)[:length], 13, 24 + length)
    for number in (0, 2, TOP):
        for length in (1, 2, 3, 4):
            refuse(HEAD + write_end(number)[:length], 13, 7 + length)

    # The fields of a heading: 1 before 20 before 3.
    for frame in (0, HORIZON + 1, TOP):
        refuse(write_heading(frame, 3, 3), 1, 0)
        refuse(write_heading(frame, 1, 0), 1, 0)
        refuse(write_heading(frame, 0, 65), 1, 0)
        refuse(write_heading(frame, 255, 255), 1, 0)
    for accuracy in (0, 1, 64, 65, 255):
        refuse(write_heading(12, 3, accuracy), 20, 0)
        refuse(write_heading(12, 255, accuracy), 20, 0)

    # The fields of a row, 4 to 8, at frame 12.
    for row, number in (
        ((0, 4, 4, 5), 4),  # 4 and 5
        ((0, 3, 4, TOP), 4),
        ((0, 9, 4, 0), 4),  # 4 and 6
        ((0, 4, HORIZON + 1, 0), 4),  # 4 and 7
        ((0, 5, 5, 0), 4),  # 4 and 8
        ((0, 9, 8, 10), 4),  # 4, 5, 6 and 8
        ((0, TOP - 1, TOP - 2, TOP), 4),  # 4, 5, 6 and 7
        ((9, 8, 4, 0), 5),  # 5 and 6
        ((1, 5, 4, 5), 5),
        ((9, 8, HORIZON + 1, 0), 5),  # 5 and 7
        ((6, 5, 5, 0), 5),  # 5 and 8
        ((1, 0, 0, 0), 5),  # 5 with a period of 0
        ((TOP, HALF, HORIZON + 1, 0), 5),  # 5, 6 and 7
        ((1, 6, 5, 0), 6),  # 6 and 8
        ((1, HORIZON + 3, HORIZON + 2, 0), 6),  # 6 and 7
        ((1, TOP, TOP - 1, 0), 6),
        ((TOP, TOP, HORIZON + 1, 0), 6),
        ((1, 1, 0, 0), 6),  # 6 with a period of 0
        ((1, TOP, 0, TOP - 1), 6),
        ((1, 4, HORIZON + 1, 0), 7),  # 7 and 8
        ((1, TOP, TOP, 0), 7),
        # The sum of work and jitter does not fit 32 bits.
        ((TOP, TOP, TOP, TOP), 5),
        ((TOP, 4, 4, TOP), 5),
        ((TOP, TOP, TOP, 1), 5),
        ((TOP, 4, 4, 1), 5),
        ((TOP, 4, 4, 2), 5),
        ((TOP, 4, 4, 5), 5),
        ((1, 4, 4, TOP), 5),
        ((2, 4, 4, TOP), 5),
        ((5, 4, 4, TOP), 5),
        ((HALF, 4, 4, HALF), 5),
        ((HALF, 4, 4, HALF + 4), 5),
        ((HALF, TOP, TOP, HALF), 5),
        ((HALF, TOP, TOP, HALF - 1), 7),  # the largest sum that fits
        ((HALF, TOP, TOP - 1, HALF - 1), 6),
    ):
        refuse(HEAD + write_row(*row), number, 7)
        refuse(HEAD + GOOD_ROW + write_row(*row) + 2 * GOOD_FINDING + write_end(5), number, 24)

    # Entry after entry: a fault of an earlier entry is told before any of a later one.
    refuse(write_heading(0, 0, 0) + write_row(0, 0, 0, 0), 1, 0)
    refuse(write_heading(12, 0, 1) + b'x', 3, 0)
    refuse(HEAD + write_row(1, 5, 5, 0) + write_row(0, 4, 4, 0), 8, 7)
    refuse(HEAD + write_row(1, 4, TOP, 0) + write_row(1, 5, 4, 0), 7, 7)
    refuse(HEAD + write_row(1, 5, 5, 0) + b'x', 8, 7)
    refuse(HEAD + GOOD_ROW + write_finding(1, 0) + write_end(9), 17, 24)
    refuse(HEAD + GOOD_ROW + write_finding(1, 0) + b'x', 17, 24)
    refuse(full_with_row(1, (1, 17, 17, 0))[:551] + GOOD_ROW, 8, 7)  # 8 here, and a 33rd row
    refuse(HEAD + write_end(2) + b'\x00', 16, 7)  # another number, and a loose byte
    refuse(HEAD + GOOD_ROW + write_end(2) + GOOD_FINDING + write_end(3), 16, 24)


# --- Damage, bit by bit and byte by byte -------------------------------------------------------------------


def single_bits():
    """The leaf of two rows with each single bit of it turned."""
    for offset in range(len(TWO)):
        for bit in range(8):
            damaged = bytearray(TWO)
            damaged[offset] ^= 1 << bit
            add(bytes(damaged))


def truncations():
    """Leaves cut. Every leaf cut anywhere is refused with 13, at the length that is left."""
    for leaf in (TWO, WORKED):
        for length in range(len(leaf)):
            refuse(leaf[:length], 13, length)
    # Around each place at which an entry of the leaf of 32 rows begins.
    boundaries = [0]
    boundaries += [row_place(rank) for rank in range(1, 33)]
    boundaries += [finding_place(32, rank) for rank in range(1, 33)]
    boundaries += [end_place(32), len(FULL)]
    for boundary in boundaries:
        for length in (boundary - 1, boundary, boundary + 1):
            if 0 <= length < len(FULL):
                refuse(FULL[:length], 13, length)


def every_kind_byte():
    """Every byte as the kind of the first entry, and as that of the second row."""
    empty = HEAD + write_end(1)
    for kind in range(256):
        add(bytes([kind]) + empty[1:])
    for kind in range(256):
        add(TWO[:24] + bytes([kind]) + TWO[25:])


# --- Leaves of every length, and their entries out of place ------------------------------------------------


def leaf_of(count):
    """The leaf, in exact steps, of so many of the first rows of the leaf of 32 rows."""
    return write_leaf(FULL_FRAME, 0, 0, FULL_ROWS[:count], FULL_FINDINGS[:count])


def every_row_count():
    """Leaves of every number of rows, in exact steps and by a linear tail."""
    for count in range(33):
        rows, findings = FULL_ROWS[:count], FULL_FINDINGS[:count]
        accept(FULL_FRAME, 0, 0, rows, findings)
        accept(FULL_FRAME, 1, 1 + count, rows, findings)


def entries_of(data):
    """The entries of a sound leaf, each as its bytes."""
    entries = []
    while data:
        length = LENGTH[data[0]]
        entries.append(data[:length])
        data = data[length:]
    return entries


def every_entry_out_of_place():
    """The leaf of three rows with two entries exchanged, one doubled, one left out: each pair and each one."""
    entries = entries_of(leaf_of(3))
    assert len(entries) == 8
    for at, entry in enumerate(entries):
        add(b''.join(entries[:at] + entries[at + 1:]))
        add(b''.join(entries[:at] + [entry, entry] + entries[at + 1:]))
        for other in range(at + 1, len(entries)):
            swapped = list(entries)
            swapped[at], swapped[other] = swapped[other], swapped[at]
            add(b''.join(swapped))


# --- Leaves cut and changed everywhere ---------------------------------------------------------------------


def cuts_of(data):
    """The bytes cut at every length, and whole."""
    return [data[:length] for length in range(len(data) + 1)]


def changes_of(data):
    """The bytes with each in turn changed to each value in turn."""
    return [
        data[:offset] + bytes([value]) + data[offset + 1:] for offset in range(len(data)) for value in range(256)
    ]


def damaged_leaves():
    for rows in (0, 1, 5, 32):
        cut.append(leaf_of(rows))
        # Every leaf cut anywhere is refused with 13, at the length that is left.
        for length, data in enumerate(cuts_of(leaf_of(rows))[:-1]):
            answer_of(data, refused_at(CUT_LEAF, length))
    for rows in (2, 3):
        changed.append(leaf_of(rows))


# --- Chance ------------------------------------------------------------------------------------------------

# One source with a fixed seed. Of it only random() is used, whose sequence stays from release to release of
# Python.
source = random.Random(20_240_229)


def below(count):
    """A number from 0 to count - 1."""
    return int(source.random() * count)


def pick(choices):
    return choices[below(len(choices))]


def between(least, most):
    return least + below(most - least + 1)


FRAMES = [1, 2, 6, 12, 24, 60, 64, 100, 360, 720, 1000, 1024, 5040, 65_536, 1_000_000, HORIZON]
DIVISORS = {frame: [part for part in range(1, 1025) if frame % part == 0] + [frame] for frame in FRAMES}

# Numbers at which something changes.
EDGES = [0, 1, 2, 3, 4, 6, 12, 24, 255, 256, HORIZON - 1, HORIZON, HORIZON + 1, 2 * HORIZON, HALF - 1, HALF,
         HALF + 1, TOP - 1, TOP]


def random_row(frame):
    """A row that stands on the frame."""
    period = pick(DIVISORS[frame])
    deadline = between((period + 1) // 2, period)
    work = between(1, deadline)
    jitter = pick([0, deadline - work, below(deadline - work + 1)])
    return (work, deadline, period, jitter)


def random_finding():
    first_rest = pick([0, 1, between(1, 1000), between(1, HORIZON), HORIZON])
    points = pick([1, between(1, 40), between(1, TOP), TOP])
    return (first_rest, points)


def random_contents():
    frame = pick(FRAMES)
    bound = below(2)
    accuracy = between(1, 64) if bound == 1 else 0
    count = pick([0, 1, 1, 2, 2, 2, 3, 3, 4])
    rows = [random_row(frame) for _ in range(count)]
    findings = [random_finding() for _ in range(count)]
    return frame, bound, accuracy, rows, findings


def random_entries():
    """A sound leaf as a list of its entries."""
    frame, bound, accuracy, rows, findings = random_contents()
    entries = [write_heading(frame, bound, accuracy)]
    entries += [write_row(*row) for row in rows]
    entries += [write_finding(*finding) for finding in findings]
    entries.append(write_end(len(entries)))
    return entries


def edit_entries(entries):
    """The entries with one edit that keeps entries whole."""
    entries = list(entries)
    at = below(len(entries))
    edit = below(6)
    if edit == 0:  # one dropped
        del entries[at]
    elif edit == 1:  # one doubled
        entries.insert(at, entries[at])
    elif edit == 2:  # two swapped
        other = below(len(entries))
        entries[at], entries[other] = entries[other], entries[at]
    elif edit == 3:  # a number of four bytes at an edge
        entry = entries[at]
        numbers = {7: 1, 17: 4, 9: 2, 5: 1}[len(entry)]
        offset = 1 + 4 * below(numbers)
        entries[at] = entry[:offset] + four_bytes(pick(EDGES)) + entry[offset + 4:]
    elif edit == 4:  # another entry put in
        entries.insert(at, pick([HEAD, GOOD_ROW, GOOD_FINDING, write_end(len(entries) - 1), write_end(at)]))
    elif below(2):  # one dropped or doubled, and the number of the end made good
        entries.pop()
        if entries:
            at = below(len(entries))
            if below(2):
                del entries[at]
            else:
                entries.insert(at, entries[at])
        entries.append(write_end(len(entries)))
    else:  # the order of rows and findings turned round
        entries[1:-1] = entries[1:-1][::-1]
    return entries


def edit_bytes(data):
    """The bytes with one edit that knows nothing of entries."""
    edit = below(5)
    at = below(len(data) + 1)
    if edit == 0 and data:  # a byte changed
        at = below(len(data))
        return data[:at] + bytes([below(256)]) + data[at + 1:]
    if edit == 1 and data:  # a byte changed by one
        at = below(len(data))
        return data[:at] + bytes([(data[at] + pick([1, 255])) % 256]) + data[at + 1:]
    if edit == 2:  # bytes inserted
        return data[:at] + bytes(below(256) for _ in range(between(1, 4))) + data[at:]
    if edit == 3 and data:  # bytes taken out
        return data[:at] + data[at + between(1, 4):]
    return data[:at]  # cut


def random_leaves():
    for _ in range(70):
        accept(*random_contents())
    for _ in range(420):
        add(b''.join(edit_entries(random_entries())))
    for _ in range(80):
        add(b''.join(edit_entries(edit_entries(random_entries()))))
    for _ in range(330):
        add(edit_bytes(b''.join(random_entries())))
    for _ in range(80):
        add(edit_bytes(b''.join(edit_entries(random_entries()))))


def random_walks():
    """A heading and then entries of any kind in any order, with numbers at the edges among them."""
    for _ in range(180):
        data = HEAD
        entries = 1
        for _ in range(between(1, 6)):
            kind = pick('RRRAAZF')
            sound = below(3) > 0
            if kind == 'R':
                data += GOOD_ROW if sound else write_row(*(pick(EDGES) for _ in range(4)))
            elif kind == 'A':
                data += GOOD_FINDING if sound else write_finding(pick(EDGES), pick(EDGES))
            elif kind == 'Z':
                data += write_end(entries if sound else pick(EDGES))
            else:
                data += HEAD
            entries += 1
        add(data)


def random_bytes():
    # Any bytes.
    for _ in range(60):
        add(bytes(below(256) for _ in range(below(40))))
    # Any bytes after an F.
    for _ in range(40):
        add(b'F' + bytes(below(256) for _ in range(below(30))))
    # Letters and small numbers, after a heading.
    for _ in range(80):
        add(HEAD + bytes(pick(b'FRAZ\x00\x00\x00\x00\x01\x02\x04\x0c\xff') for _ in range(below(60))))


# --- Leaves by the staircase -------------------------------------------------------------------------------


def staircase_leaves():
    """Leaves of bound 2, sound and damaged, and its accuracies at their ends."""
    worked = write_leaf(12, 2, 3, [(1, 4, 4, 0), (2, 6, 6, 1), (3, 12, 12, 0)], [(1, 1), (3, 1), (10, 4)])
    add(worked, 'F 12 2 3 R 1 4 4 0 R 2 6 6 1 R 3 12 12 0 A 1 1 A 3 1 A 10 4 Z 7')
    assert worked[:7] == bytes.fromhex('46 0000000C 02 03')
    for accuracy in range(1, 65):
        accept(12, 2, accuracy, [], [])
    for accuracy in (1, 2, 63, 64):
        accept(12, 2, accuracy, [(1, 4, 4, 0)], [(1, 1)])
        accept(12, 2, accuracy, TWO_ROWS, TWO_FINDINGS)
    for frame in (1, 2, 255, 256, 65_535, 65_536, 16_777_215, HORIZON):
        accept(frame, 2, 64, [(1, 1, 1, 0)], [(1, 1)])
    for count in range(33):
        accept(FULL_FRAME, 2, 64 - count, FULL_ROWS[:count], FULL_FINDINGS[:count])

    # An accuracy that is none, alone and with other faults.
    for accuracy in (0, 65, 66, 127, 128, 129, 192, 254, 255):
        refuse(write_heading(12, 2, accuracy), 3, 0)
        refuse(write_heading(12, 2, accuracy) + write_end(1), 3, 0)
        refuse(write_heading(12, 2, accuracy) + GOOD_ROW + GOOD_FINDING + write_end(3), 3, 0)
        refuse(write_heading(HORIZON, 2, accuracy) + b'x', 3, 0)
        for frame in (0, HORIZON + 1, TOP):
            refuse(write_heading(frame, 2, accuracy), 1, 0)
        refuse(HEAD + write_heading(12, 2, accuracy), 15, 7)
        for length in range(1, 7):
            refuse(write_heading(12, 2, accuracy)[:length], 13, length)
    for frame in (0, HORIZON + 1, HALF, TOP):
        refuse(write_heading(frame, 2, 3) + write_end(1), 1, 0)

    # What else may be wrong with such a leaf, from its rows on to its end, and each of its bits turned.
    head = write_heading(12, 2, 64)
    refuse(head, 13, 7)
    refuse(head + write_row(0, 4, 4, 0), 4, 7)
    refuse(head + write_row(5, 4, 4, 0), 5, 7)
    refuse(head + write_row(1, 5, 4, 0), 6, 7)
    refuse(head + write_row(1, 4, HORIZON + 1, 0), 7, 7)
    refuse(head + write_row(1, 4, 5, 0), 8, 7)
    refuse(write_heading(FULL_FRAME, 2, 5) + FULL_TABLE[7:] + write_row(*FULL_ROWS[0]), 9, 551)
    refuse(head + b'S', 14, 7)
    refuse(head + head, 15, 7)
    refuse(head + GOOD_FINDING, 16, 7)
    refuse(head + GOOD_ROW + write_finding(1, 0), 17, 24)
    refuse(head + write_end(1) + b'Z', 18, 12)
    sound = write_leaf(24, 2, 3, TWO_ROWS, TWO_FINDINGS)
    for length in range(len(sound)):
        refuse(sound[:length], 13, length)
    for offset in range(7):
        for bit in range(8):
            add(sound[:offset] + bytes([sound[offset] ^ 1 << bit]) + sound[offset + 1:])

    # Each byte of the shortest one changed to every value.
    changed.append(write_leaf(12, 2, 64, [], []))


# --- All of them -------------------------------------------------------------------------------------------


def make_questions():
    sound_leaves()
    damages_told_in_the_format()
    refusals_of_the_heading()
    refusals_of_rows()
    refusals_of_findings()
    refusals_by_order_and_number()
    pairs_of_faults()
    single_bits()
    truncations()
    every_kind_byte()
    random_leaves()
    random_walks()
    random_bytes()
    every_row_count()
    every_entry_out_of_place()
    damaged_leaves()
    staircase_leaves()


def check_spread(texts):
    """Every answer that reading can give is there."""
    kinds = [' '.join(text.split(' ')[:2]) if text.startswith('refused') else 'leaf' for text in texts]
    counts = {kind: kinds.count(kind) for kind in set(kinds)}
    assert set(counts) == {'leaf', *(f'refused {number}' for number in REFUSALS)}
    assert counts['leaf'] >= 30 and min(counts.values()) >= 2


def line_of(text):
    """The line of an answer, by the text that read_leaf gives it."""
    return ', '.join(3 * [text]) if text.startswith('refused') else f'{text} +, -, + +'


def main():
    """Prints the questions, or the answers."""
    if sys.argv[1:] not in ([], ['--answers']):
        sys.exit('use: leaf_vectors.py [--answers]')
    make_questions()
    sections = [
        ('leaves', list(questions), lambda data: [data]),
        ('leaves cut', cut, cuts_of),
        ('leaves changed', changed, changes_of),
    ]
    texts = []
    for name, lines, strings_of in sections:
        print(f'=== {name}')
        for data in lines:
            if sys.argv[1:] == []:
                print(data.hex().upper() or '-')
                continue
            for string in strings_of(data):
                texts.append(answer_of(string))
                print(line_of(texts[-1]))
    if texts:
        check_spread(texts)


if __name__ == '__main__':
    main()
