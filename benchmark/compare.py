"""Compares programs that play works with the independent counts of reference/ on random tables.

    python3 benchmark/compare.py PROGRAM ..

Each table is a work of its own, surveyed in exact steps, by a linear tail and by a staircase of the same accuracy,
and where all of its rows meet a row of it is swapped. Most tables are small, and counted instant by instant
(reference/counts.py). Of the others the last row has a long window: the rows above leave so little time that it
rests late, and by a tail later still, or about as much as a staircase rounds up, or its points are many, or few in
the longest window that there is (reference/pieces.py). The tables come from fixed seeds.
"""

import random
import subprocess
import sys
from pathlib import Path

sys.path.append(str(Path(__file__).parent.parent / "reference"))

import pieces
from counts import EXACT_STEPS, LINEAR_TAILS, STAIRCASES, steps, survey

TABLES = 600
LATE, CROWDED, SPARSE, ROUNDED = 120, 30, 20, 128
HORIZON = 2**24
WIDE_FRAMES = (55_440, 65_536, 332_640, 720_720, 1_000_000, 1_441_440)
ACCURACIES = (1, 2, 3, 5, 8, 17, 40, 63, 64)
FRAMES = (1, 12, 60, 128, 210, 256, 2520)
WORD = 2**64


def random_row(source, frame, load):
    """A row on the frame, that takes about so much of the processor."""
    period = source.choice([number for number in range(1, frame + 1) if frame % number == 0])
    work = min(period, max(1, round(period * load * source.random())))
    jitter = source.randint(0, period - work) if source.random() < 0.7 else 0
    return work, source.randint(work + jitter, period), period, jitter


def random_table(source):
    """A frame and rows, some tables with few distinct periods or jitters, and some overloaded."""
    frame = source.choice(FRAMES)
    count = source.randint(1, 32) if source.random() < 0.3 else source.randint(1, 8)
    load = source.choice((0.5, 1, 2)) * 2 / count
    rows = [random_row(source, frame, load) for _ in range(count)]
    if source.random() < 0.5:
        rows[-1] = (rows[-1][0] if source.random() < 0.5 else 1, frame, frame, 0)
    return frame, rows


def divisors(frame, least, most):
    """The numbers from least to most that divide a frame."""
    return [number for number in range(least, min(most, frame) + 1) if frame % number == 0]


def late_table(source):
    """Rows that leave 1 instant in some hundreds or thousands, above one that rests late, if it does."""
    frame = source.choice(WIDE_FRAMES)
    shortest = source.choice((4, 16, 60, 250))
    periods = divisors(frame, shortest, 20 * shortest)
    chosen = sorted(source.choice(periods) for _ in range(source.randint(2, 5)))
    rows = [[max(1, period * 9 // (10 * len(chosen))), period, period, 0] for period in chosen]
    free = frame - frame // source.choice((60, 300, 1500, 6000))
    free -= sum(work * (frame // period) for work, _, period, _ in rows)
    for row in rows[::-1]:
        row[0] += min(max(0, free) // (frame // row[2]), row[2] - row[0])
        row[3] = source.choice((0, source.randint(0, row[2] - row[0])))
        free = frame - frame // 6000 - sum(work * (frame // period) for work, _, period, _ in rows)
    for _ in range(source.randint(0, 2)):  # it hardly works, but a test point by a tail may lie where the last one rests
        period = source.choice(divisors(frame, 1000, frame))
        rows.append((1, period, period, source.randrange(period)))
    work = source.randint(1, source.choice((10, 200)))
    window = min(frame, source.choice((work * 500, 20_000, 300_000)))
    return frame, [tuple(row) for row in rows] + [(work, max(work, window), frame, 0)]


def crowded_table(source):
    """Rows with a corner at few instants' distance, above one that rests where a block of corners may end, or near."""
    frame = source.choice(WIDE_FRAMES[2:])
    end = source.choice((0, 512)) + 16_384 * source.randint(1, 5) + source.randint(-1, 2)
    rows = []
    for apart in (0, 1):  # a corner there, and at the next instant
        period = source.choice(divisors(frame, 64, 30_000))
        rows.append((1, period, period, -(end + apart) % period))
    for _ in range(source.randint(1, 8)):
        period = source.choice(divisors(frame, 40, 300))
        work = source.randint(1, period // 24 + 1)
        rows.append((work, period, period, source.randint(0, period - work)))
    work = max(1, end - sum(steps(row, end) for row in rows))
    return frame, rows + [(work, min(frame, max(work, end + source.randint(-1, 3))), frame, 0)]


def sparse_table(source):
    """Rows of long periods above one that has the horizon for its window, or nearly so."""
    rows = []
    for _ in range(source.choice((2, 8, 31))):
        period = 2 ** source.randint(17, 23)
        work = source.randint(1, period // 40)
        rows.append((work, period, period, source.choice((0, source.randint(0, period - work)))))
    window = HORIZON - source.choice((0, 0, source.randint(0, HORIZON // 2)))
    free = window - sum(steps(row, window) for row in rows)
    return HORIZON, rows + [(free + source.choice((1, 0, -source.randint(0, free // 2))), window, HORIZON, 0)]


def rounded_table(source, accuracy):
    """Rows that leave about as much time as the staircase of an accuracy rounds up, above one with a long window."""
    frame = source.choice(WIDE_FRAMES)
    periods = divisors(frame, source.choice((2, 30, 200)), 1000)
    chosen = sorted(source.choice(periods) for _ in range(source.randint(1, 6)))
    taken = round(frame * (1 - source.choice((0.3, 0.6, 0.8, 1)) / (accuracy + 1)))
    rows = [[max(1, taken * period // (frame * len(chosen))), period, period, 0] for period in chosen]
    for row in rows[::-1]:
        free = taken - sum(work * (frame // period) for work, _, period, _ in rows)
        row[0] += min(max(0, free) // (frame // row[2]), row[2] - row[0])
        row[3] = source.choice((0, source.randint(0, row[2] - row[0])))
    work = source.choice((1, source.randint(1, 300), source.randint(1, frame // (4 * accuracy))))
    return frame, [tuple(row) for row in rows] + [(work, source.choice((frame, frame // 2)), frame, 0)]


def digested(digest, findings):
    """The digest of findings after others."""
    for rest, points in findings:
        digest = (digest * 6364136223846793005 + (rest or 0)) % WORD
        digest = (digest * 6364136223846793005 + points) % WORD
    return digest


def steps_and_tail(accuracy):
    """Exact steps and the linear tail of an accuracy: how a work names each, and the bound."""
    return ("exact", 64, EXACT_STEPS), ("linear", accuracy, LINEAR_TAILS[accuracy])


def stairs(accuracy):
    """The same of the staircase of an accuracy."""
    return (("staircase", accuracy, STAIRCASES[accuracy]),)


def works_of(source, number, frame, rows, bounds, count):
    """The texts of the works of a table by some bounds, and the lines that are to be printed."""
    body = f"table {frame}\n" + "".join("row {} {} {} {}\n".format(*row) for row in rows)
    for name, accuracy, bound in bounds:
        found = count(frame, bound, rows)
        met = sum(rest is not None for rest, _ in found)
        told = f"tables 1 rows {len(rows)} met {met} digest"
        title = f"{name}-{number}"
        yield f"work {title} survey {name} {accuracy} 1\n{body}", f"{title} {told} {digested(0, found)}\n"
        if met < len(rows):
            continue
        rank = source.randint(1, len(rows))
        left = count(frame, bound, rows[: rank - 1] + rows[rank:])
        digest = digested(digested(digested(0, left), found), found)
        title = f"swap-{name}-{number}"
        yield f"work {title} swap-{rank} {name} {accuracy} 2\n{body}", f"{title} {told} {digest}\n"


def small_works(source, ranks):
    """The works of small tables. The ranks of swaps by staircases are of another source."""
    for number in range(TABLES):
        frame, rows = random_table(source)
        accuracy = source.choice((1, 2, 3, 8, 64))
        yield from works_of(source, number, frame, rows, steps_and_tail(accuracy), survey)
        yield from works_of(ranks, number, frame, rows, stairs(accuracy), survey)


def long_works(source, ranks):
    """The works of tables with long windows; late ones by several accuracies each time."""
    for kind, table, number_of in (
        ("late", late_table, LATE),
        ("crowded", crowded_table, CROWDED),
        ("sparse", sparse_table, SPARSE),
    ):
        for number in range(number_of):
            frame, rows = table(source)
            accuracy = ACCURACIES[number % len(ACCURACIES)]
            title = f"{kind}-{number}"
            yield from works_of(source, title, frame, rows, steps_and_tail(accuracy), pieces.survey)
            yield from works_of(ranks, title, frame, rows, stairs(accuracy), pieces.survey)


def rounded_works(source):
    """The works of tables with about as much time as staircases round up, twice by each accuracy."""
    for number in range(ROUNDED):
        accuracy = number % 64 + 1
        frame, rows = rounded_table(source, accuracy)
        bounds = steps_and_tail(accuracy) + stairs(accuracy)
        yield from works_of(source, f"rounded-{number}", frame, rows, bounds, pieces.survey)


def main(programs):
    """Compares each program, and tells the lines that differ."""
    ranks = random.Random(20261127)
    pairs = [*small_works(random.Random(20240229), ranks), *long_works(random.Random(20260311), ranks)]
    pairs += rounded_works(random.Random(20261128))
    text = "".join(pair[0] for pair in pairs)
    wanted = [pair[1] for pair in pairs]
    status = 0
    for program in programs:
        done = subprocess.run([program], input=text, capture_output=True, text=True, check=False)
        lines = done.stdout.splitlines(keepends=True)
        differing = [(want, line) for want, line in zip(wanted, lines) if want != line]
        for want, line in differing[:5]:
            print(f"{program}: wanted {want}{program}: printed {line}", end="")
        agree = not differing and len(lines) == len(wanted) and done.returncode == 0
        print(f"{program}: {len(lines) - len(differing)} of {len(wanted)} lines agree")
        status |= not agree
    return status


if __name__ == "__main__":
    sys.exit(main(sys.argv[1:]))
