"""Scripts whose answers were taken from docs/RULES.md, docs/REFUSALS.md and docs/PROGRAMS.md by hand.

Each recipe takes a source of chance, which only spells calls in other ways, and gives a script (scripts.py).
"""

from leaves import HORIZON
from scripts import HALF, STAIRS, TOP, Script

FIRST, SECOND, THIRD = (1, 4, 4, 0), (2, 6, 6, 1), (3, 12, 12, 0)
CROWD = (5, 6, 6, 0)

# The script of docs/PROGRAMS.md, and what is written for it.
PROGRAMS_SCRIPT = b"""\
# three tasks on a frame of 12
linear 2
frame 12
admit 1 1 4 4 0
admit 2 2 6 6 1
admit 3 3 12 12 0
dismiss 1
admit 2 3 12 12 0
inquire 2
inquire 3
frame 24
admit two
"""
PROGRAMS_ANSWERS = """\
done
done
done
refused 21 newcomer overload at rank 3
done
done
row 3 12 12 0 meets 5 points 1
refused 10 no rank
refused 2 standing rows
not a call at line 12: expected admit RANK C D T J
"""


# --- What the pages tell -----------------------------------------------------------------------------------


def programs_script(source):
    """The script of docs/PROGRAMS.md as it is."""
    script = Script(source)
    for line in PROGRAMS_SCRIPT.splitlines():
        script.line(line)
    assert script.bytes_of() == (PROGRAMS_SCRIPT, PROGRAMS_ANSWERS.encode('ascii'))
    return script


def told(row, rest, points):
    """The answer that tells of a row that meets."""
    return 'row ' + ' '.join(map(str, row)) + f' meets {rest} points {points}'


def worked_table(source, accuracy):
    """The worked table of docs/RULES.md, which tells these counts by each of four bounds."""
    findings = {
        0: [(1, 1), (3, 1), (10, 4)],
        1: [(1, 1), (4, 1), None],
        2: [(1, 1), (3, 1), None],
        3: [(1, 1), (3, 1), (11, 4)],
    }[accuracy]
    script = Script(source, accuracy)
    script.admit(1, FIRST, 8)  # on frame 1
    for _ in range(2):
        script.frame(12, 'done')
        for rank, (row, finding) in enumerate(zip((FIRST, SECOND, THIRD), findings), start=1):
            if finding is None:
                script.admit(rank, row, f'refused 21 newcomer overload at rank {rank}')
                script.inquire(rank, 'refused 10 no rank')
                continue
            script.admit(rank, row, 'done')
            for other, row_there in enumerate((FIRST, SECOND, THIRD)[:rank], start=1):
                script.inquire(other, told(row_there, *findings[other - 1]))
        script.frame(12, 'refused 2 standing rows')
        script.inquire(4, 'refused 10 no rank')
        while script.count:
            script.dismiss(1, 'done')
            if script.rows[:1] == (SECOND,):
                # With nothing above it a row rests as soon as its own work is done.
                script.inquire(1, told(SECOND, 2, 1))
    script.dismiss(1, 'refused 10 no rank')
    return script


def bench_of_rules(source):
    """What docs/RULES.md tells of a bench by the tail of accuracy 2, and the same once more."""
    script = Script(source, 2)
    script.frame(12, 'done')
    for _ in range(3):
        script.admit(1, FIRST, 'done')
        script.admit(2, SECOND, 'done')
        script.admit(3, THIRD, 'refused 21 newcomer overload at rank 3')
        script.sweep()
        script.dismiss(1, 'done')
        script.inquire(1, told(SECOND, 2, 1))
        script.admit(2, THIRD, 'done')
        script.inquire(2, told(THIRD, 5, 1))
        script.admit(1, CROWD, 'refused 11 overload at rank 2')  # rows 2 and 3 would both miss
        script.admit(2, CROWD, 'refused 21 newcomer overload at rank 2')  # and row 3
        script.admit(3, CROWD, 'refused 21 newcomer overload at rank 3')
        script.sweep()
        script.frame(12, 'refused 2 standing rows')
        script.dismiss(2, 'done')
        script.dismiss(1, 'done')
        script.frame(12, 'done')
    return script


# --- Each refusal, and each two of them --------------------------------------------------------------------

# Numbers that are no row on a frame of 96, with the number that is told: 4 to 8, alone as far as they can be, and
# in pairs. A period above the horizon never divides the frame, so 7 never comes without 8.
FLAWED = [
    ((0, 4, 4, 0), 4),
    ((0, 4, 4, 4), 4),
    ((2, 4, 4, 3), 5),  # work + jitter = deadline + 1
    ((5, 4, 4, 0), 5),
    ((1, 4, 4, 4), 5),
    ((1, 0, 4, 0), 5),
    ((1, 5, 4, 0), 6),  # deadline = period + 1
    ((1, 12, 4, 11), 6),
    ((1, 4, HORIZON + 1, 0), 7),
    ((1, HORIZON + 1, HORIZON + 1, 0), 7),
    ((1, 4, TOP, 0), 7),
    ((1, 4, 5, 0), 8),
    ((1, 4, 95, 0), 8),
    ((1, 4, 97, 0), 8),
    ((1, 4, 192, 0), 8),
    ((1, 4, HORIZON, 0), 8),
    ((HORIZON, HORIZON, HORIZON, 0), 8),
    ((0, 4, 4, 5), 4),  # 4 and 5
    ((0, 5, 4, 0), 4),  # 4 and 6
    ((0, 4, HORIZON + 1, 0), 4),  # 4 and 7
    ((0, 5, 5, 0), 4),  # 4 and 8
    ((0, 0, 0, 0), 4),
    ((0, TOP - 1, TOP - 2, TOP), 4),
    ((9, 8, 4, 0), 5),  # 5 and 6
    ((9, 8, HORIZON + 1, 0), 5),  # 5 and 7
    ((6, 5, 5, 0), 5),  # 5 and 8
    ((1, 0, 0, 0), 5),
    ((1, HORIZON + 3, HORIZON + 2, 0), 6),  # 6 and 7
    ((1, 6, 5, 0), 6),  # 6 and 8
    ((1, 1, 0, 0), 6),  # a period of 0
    ((TOP, TOP, TOP, TOP), 5),  # the sum of work and jitter does not fit 32 bits
    ((TOP, 4, 4, 2), 5),
    ((TOP, 4, 4, 5), 5),
    ((HALF, 4, 4, HALF + 4), 5),
    ((HALF, TOP, TOP, HALF), 5),
    ((HALF, TOP, TOP, HALF - 1), 7),  # the largest sum that fits
]

# Rows that stand at the edges of what is allowed: work + jitter = deadline, deadline = period, period = frame.
AT_THE_EDGES = [(1, 1, 96, 0), (1, 96, 96, 95), (96, 96, 96, 0), (1, 1, 1, 0), (2, 4, 4, 2), (40, 95, 96, 55)]

# It takes the whole processor, so that all below it miss; and it misses itself below any other.
WHOLE = (96, 96, 96, 0)


def flawed_rows(source, accuracy, count):
    """Numbers that are no row, at a rank, and outside the ranks; with 32 rows also in a full table."""
    script = Script(source, accuracy)
    script.frame(96, 'done')
    for rank in range(1, count + 1):
        script.admit(rank, (1, 96, 96, 0), 'done')
    for row, number in FLAWED:
        script.admit(source.between(1, count + 1), row, number)
        script.admit(source.pick([0, count + 2, TOP]), row, number)  # and 10
    script.sweep()
    return script


def pairs_of_refusals(source, accuracy):
    """8 to 10, 21 and 11, alone and each two of them; and the two of a frame."""
    script = Script(source, accuracy)
    script.frame(96, 'done')
    script.admit(1, (96, 480, 480, 0), 8)
    for rank in range(1, 33):
        script.admit(rank, (1, 96, 96, 0), 'done')
        if rank in (1, 2, 31):
            script.admit(1, WHOLE, 'refused 11 overload at rank 2')
            script.admit(rank + 1, WHOLE, f'refused 21 newcomer overload at rank {rank + 1}')
            if rank > 1:
                script.admit(2, WHOLE, 'refused 21 newcomer overload at rank 2')  # and 11
            for outside in (0, rank + 2, TOP):
                script.admit(outside, (1, 96, 96, 0), 10)
                script.admit(outside, WHOLE, 10)  # and 21 or 11
                script.admit(outside, (5, 5, 5, 0), 8)  # and 10
            script.admit(1, (5, 5, 5, 0), 8)  # and 11
            script.admit(rank + 1, (5, 5, 5, 0), 8)  # and 21
            script.admit(1, (96, HORIZON + 1, HORIZON + 1, 0), 7)  # and 11
            script.admit(1, (6, 6, 4, 0), 6)  # and 11
            script.admit(1, (97, 96, 96, 0), 5)  # and 11
            script.admit(rank + 1, (0, 1, 96, 0), 4)  # and 21 where two or more rows stand above
            for frame in (1, 96, HORIZON):
                script.frame(frame, 2)
            for frame in (0, HORIZON + 1, TOP):
                script.frame(frame, 1)  # and 2
    for rank in (1, 32, 33):
        script.admit(rank, (1, 96, 96, 0), 9)
        script.admit(rank, WHOLE, 9)  # and 11, or 21 below another
        script.admit(rank, (5, 5, 5, 0), 8)  # and 9
    for rank in (0, 34, TOP):
        script.admit(rank, (1, 96, 96, 0), 9)  # and 10
        script.admit(rank, WHOLE, 9)  # and 10
    script.dismiss(0, 10)
    script.dismiss(33, 10)
    script.inquire(33, 10)
    script.dismiss(32, 'done')
    script.admit(33, (1, 96, 96, 0), 10)
    script.admit(32, (1, 96, 96, 0), 'done')
    script.inquire(32)
    return script


# --- Edges of single numbers -------------------------------------------------------------------------------


def ranks_at_the_edge(source, accuracy):
    """The ranks about the last for each number of rows from none up."""
    script = Script(source, accuracy)
    script.frame(96, 'done')
    for count in range(9):
        row = (1, 96 - count, 96, count)
        for rank in (0, count + 2, TOP):
            script.admit(rank, row, 'refused 10 no rank')
        for rank in (0, count + 1, count + 2, TOP):
            script.dismiss(rank, 'refused 10 no rank')
            script.inquire(rank, 'refused 10 no rank')
        script.sweep()
        script.admit(source.pick([1, count + 1]), row, 'done')
    return script


def frames_at_the_edge(source, accuracy):
    """Frames at the ends, with no row and with rows on them."""
    script = Script(source, accuracy)
    script.admit(1, (1, 1, 2, 0), 'refused 8 off frame')  # on frame 1, that of a new bench
    script.admit(1, (1, 1, 1, 0), 'done')
    script.inquire(1, 'row 1 1 1 0 meets 1 points 1')
    script.dismiss(1, 'done')
    for frame in (1, 2, 97, 96, HORIZON - 1, HORIZON, 1):
        for bad in (0, HORIZON + 1, HALF, TOP):
            script.frame(bad, 'refused 1 bad frame')
        script.frame(frame, 'done')
        script.admit(1, (1, 1, frame + 1, 0), 7 if frame == HORIZON else 8)
        # The longest first rest of all is tried one time, for it takes long to count.
        work = frame if frame < 100 or (frame, accuracy) == (HORIZON, 0) else 300
        script.admit(1, (work, frame, frame, 0), 'done')
        script.inquire(1, f'row {work} {frame} {frame} 0 meets {work} points 1')
        script.frame(0, 'refused 1 bad frame')  # and 2
        script.frame(frame, 'refused 2 standing rows')
        script.admit(2, (1, 1, 1, 0), 'refused 21 newcomer overload at rank 2')
        script.dismiss(1, 'done')
        script.admit(1, (1, frame, frame, frame - 1), 'done')
        script.inquire(1, f'row 1 {frame} {frame} {frame - 1} meets 1 points 1')
        script.dismiss(1, 'done')
    return script


def rows_at_the_edge(source, accuracy):
    """Rows just allowed, alone and above and below a light one."""
    script = Script(source, accuracy)
    script.frame(96, 'done')
    for row in AT_THE_EDGES:
        rest = row[0]
        script.admit(1, row, 'done')
        script.inquire(1, told(row, rest, 1))
        script.admit(1, (1, 96, 96, 0))
        script.admit(2, (1, 96, 96, 0))
        script.sweep()
        while script.count:
            script.dismiss(script.count, 'done')
        work, deadline, period, jitter = row
        script.admit(1, (deadline - jitter + 1, deadline, period, jitter), 5)
        script.admit(1, (work, period + 1, period, jitter), 6)
        script.admit(1, (work, deadline, 192, jitter), 8)
    return script


def worked_stairs(source, accuracy):
    """The worked table by the staircases of accuracy 1 and 2.

    By accuracy 1 a row that asks for three jobs is counted with four, so that E rests at 11; by accuracy 2 it rests as in
    exact steps.
    """
    script = Script(source, accuracy)
    rest = {1: 11, 2: 10}[accuracy]
    script.frame(12, 'done')
    for _ in range(4):
        script.admit(1, FIRST, 'done')
        script.admit(2, SECOND, 'done')
        script.admit(3, (3, rest - 1, 12, 0), 'refused 21 newcomer overload at rank 3')
        script.admit(3, THIRD, 'done')
        script.inquire(1, told(FIRST, 1, 1))
        script.inquire(2, told(SECOND, 3, 1))
        script.inquire(3, told(THIRD, rest, 4))
        script.admit(1, CROWD, 'refused 11 overload at rank 2')
        script.frame(12, 'refused 2 standing rows')
        for rank in (3, 2, 1):
            script.dismiss(rank, 'done')
    return script


def stairs_one_by_one(source):
    """A row below one of period 4 that asks for 1 by each job: by accuracy 2 that is 1, 2, 3, 4, 6, 6, 8, 8, 12."""
    script = Script(source, STAIRS[2])
    script.frame(720, 'done')
    script.admit(1, (1, 4, 4, 0), 'done')
    for window, work, rest, points in (
        (4, 3, 4, 1), (8, 5, 7, 2), (12, 8, 11, 3), (16, 12, 16, 4), (24, 13, 19, 5), (24, 18, 24, 5), (32, 19, 27, 6),
        (36, 22, 30, 6), (36, 24, 32, 6),
    ):
        row = (work, window, 720, 0)
        script.admit(2, row, 'done')
        script.inquire(2, told(row, rest, points))
        script.dismiss(2, 'done')
        jitter = source.below(720 - window)
        script.admit(2, (work, rest - 1 + jitter, 720, jitter), 'refused 21 newcomer overload at rank 2')
    script.admit(2, (25, 36, 720, 0), 'refused 21 newcomer overload at rank 2')
    return script


def just_meets(source):
    """Windows around the first rest of the worked table's E, which docs/RULES.md tells by two bounds."""
    script = Script(source, source.pick([0, 3]))
    rest = 11 if script.accuracy else 10
    script.frame(12, 'done')
    script.admit(1, FIRST, 'done')
    script.admit(2, SECOND, 'done')
    for _ in range(6):
        script.admit(3, (3, rest - 1, 12, 0), 'refused 21 newcomer overload at rank 3')
        script.admit(3, (3, 12, 12, 12 - rest + 1), 'refused 21 newcomer overload at rank 3')
        script.admit(3, (3, rest, 12, 0), 'done')
        script.inquire(3)
        script.dismiss(3, 'done')
        script.admit(3, (3, 12, 12, 12 - rest), 'done')
        script.inquire(3)
        script.admit(1, (1, 12, 12, 0))
        script.dismiss(3, 'done')
    return script
