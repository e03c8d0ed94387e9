"""Writes the works that the benchmark measures, as text, to standard output: benchmark/README.md has its form.

    python3 benchmark/works.py > works

All that is chosen at random comes from fixed seeds, so the text is the same each time.
"""

import random
import sys

BINARY = 2**24
MIXED = 14_414_400
SECONDS = 10_000_000
SMALL = 2520
DOUBLING = (64, 128, 256, 512, 1024, 2048)
SMALL_PERIODS = [period for period in range(8, SMALL + 1) if SMALL % period == 0]


# --- Counting ----------------------------------------------------------------------------------------------


def steps(row, instant):
    """The steps of a row at an instant."""
    work, _, period, jitter = row
    return work * -(-(instant + jitter) // period)


def meets(row, above):
    """Whether a row meets its deadline in exact steps."""
    work, deadline, _, jitter = row
    instant = work
    while instant <= deadline - jitter:
        demand = work + sum(steps(other, instant) for other in above)
        if demand <= instant:
            return True
        instant = demand
    return False


# --- Tables ------------------------------------------------------------------------------------------------


def late_row(above, frame):
    """A row with the frame for its window, and as much work as rests late in it, if any can."""
    late = set()
    for _, _, period, jitter in above:
        corners = range(period - jitter, frame, period)
        late.update([corner for corner in corners[-len(corners) // 8:] if corner <= 0.95 * frame][-50:])
    free = max(corner - sum(steps(row, corner) for row in above) for corner in late)
    return max(1, free), frame, frame, 0


def filled(rows, frame):
    """The rows with more work for those of long periods, until they leave little more than 1 instant in 256."""
    free = frame - frame // 256 - sum(work * (frame // period) for work, _, period, _ in rows)
    rows = sorted(rows, key=lambda row: -row[2])
    grown = True
    while grown:
        grown = False
        for place, (work, deadline, period, jitter) in enumerate(rows):
            if work + 1 + jitter <= deadline and frame // period <= free:
                rows[place] = (work + 1, deadline, period, jitter)
                free -= frame // period
                grown = True
    return rows[::-1]


def dense(frame, periods, seed):
    """31 rows of short periods with distinct jitters, above one that has the frame for its window."""
    source = random.Random(seed)
    rows, jitters = [], set()
    for place in range(31):
        period = periods[place % len(periods)]
        work = max(1, period // 32)
        jitter = source.choice([j for j in range(period - 4 * work) if j not in jitters])
        jitters.add(jitter)
        rows.append((work, period, period, jitter))
    above = filled(rows, frame)
    return frame, above + [late_row(above, frame)]


def overloaded(frame, periods, seed):
    """A dense table with more work above the last row than there is time."""
    _, rows = dense(frame, periods, seed)
    above = [(work + (period >= 1024), period, period, jitter) for work, _, period, jitter in rows[:31]]
    above[30] = (above[30][0] + above[30][2] // 64, *above[30][1:])
    assert sum(work * (frame // period) for work, _, period, _ in above) > frame
    return frame, above + [rows[31]]


def sparse(period, spread):
    """31 rows of one period with distinct jitters, close together or spread over it, above one of the frame."""
    work = period // 32
    apart = (period - work) // 31 if spread else 1
    above = [(work, period, period, place * apart) for place in range(31)]
    return BINARY, above + [late_row(above, BINARY)]


def slow():
    """Two rows that leave 1 instant in 14,400, above one of the frame."""
    a, b = next((a, b) for a in range(1, 64) for b in range(1, 225) if a * 225 + b * 64 == 64 * 225 - 1)
    above = [(a, 64, 64, 5), (b, 225, 225, 11)]
    return MIXED, above + [late_row(above, MIXED)]


def twins():
    """Two rows whose corners are all instants, above 30 that all miss."""
    rows = [(1, 2, 2, 1), (1, 2, 2, 0)] + 29 * [(1, BINARY // 2, BINARY // 2, 5)]
    return BINARY, rows + [(1, BINARY, BINARY, 0)]


def small(source):
    """A table of 1 to 8 rows, by deadline."""
    count = source.randint(1, 8)
    load = source.uniform(0.4, 1.1) * 2 / count
    rows = []
    for _ in range(count):
        period = source.choice(SMALL_PERIODS)
        work = min(period, max(1, round(period * load * source.random())))
        jitter = source.randint(0, (period - work) // 4) if source.random() < 0.5 else 0
        rows.append((work, source.randint((work + jitter + period) // 2, period), period, jitter))
    return SMALL, sorted(rows, key=lambda row: row[1])


def realistic():
    """32 rows with periods from 1 ms to 1 s in microseconds, by deadline, all of which meet."""
    source = random.Random(32)
    periods = (1000, 2000, 5000, 10000, 20000, 50000, 100000, 200000, 500000, 1000000)
    rows = []
    for place in range(32):
        period = periods[place * len(periods) // 32]
        work = round(period * source.uniform(0.010, 0.035))
        jitter = source.randint(0, period // 20)
        rows.append((work, period - source.randint(0, period // 10), period, jitter))
    rows.sort(key=lambda row: row[1])
    assert all(meets(row, rows[:place]) for place, row in enumerate(rows))
    return SECONDS, rows


# --- Works -------------------------------------------------------------------------------------------------


def mixed_periods():
    """31 periods that divide the mixed frame, spread from 64 to 2048."""
    divisors = [number for number in range(64, 2049) if MIXED % number == 0]
    return [divisors[place * (len(divisors) - 1) // 30] for place in range(31)]


def works():
    """Each work: its name, action, bound, accuracy, rounds and tables."""
    table = dense(BINARY, DOUBLING, 1)
    yield "dense", "survey", "exact", 64, 1, [table]
    yield "dense-mixed", "survey", "exact", 64, 1, [dense(MIXED, mixed_periods(), 2)]
    yield "overloaded", "survey", "exact", 64, 1, [overloaded(BINARY, DOUBLING, 3)]
    yield "overloaded-mixed", "survey", "exact", 64, 1, [overloaded(MIXED, mixed_periods(), 4)]
    yield "dense-tail-64", "survey", "linear", 64, 20, [table]
    yield "dense-stairs-64", "survey", "staircase", 64, 20, [table]
    source = random.Random(7)
    tables = [small(source) for _ in range(100_000)]
    yield "small", "survey", "exact", 64, 1, tables
    yield "small-tail-8", "survey", "linear", 8, 1, tables
    yield "small-stairs-8", "survey", "staircase", 8, 1, tables
    for power in range(20, 25):
        yield f"growth-{power}", "survey", "exact", 64, 1, [dense(2**power, DOUBLING, 5)]
    yield "sparse-9", "survey", "exact", 64, 1, [sparse(2**9, True)]
    for power in (12, 15, 19):
        rounds = 2 ** (power - 12) * 10
        yield f"sparse-{power}-close", "survey", "exact", 64, rounds, [sparse(2**power, False)]
        yield f"sparse-{power}-spread", "survey", "exact", 64, rounds, [sparse(2**power, True)]
    yield "slow", "survey", "exact", 64, 10, [slow()]
    yield "twins", "survey", "exact", 64, 1, [twins()]
    yield "swap-1", "swap-1", "exact", 64, 1000, [realistic()]
    yield "swap-32", "swap-32", "exact", 64, 10000, [realistic()]


def main():
    """Writes the text."""
    write = sys.stdout.write
    for name, action, bound, accuracy, rounds, tables in works():
        write(f"work {name} {action} {bound} {accuracy} {rounds}\n")
        for frame, rows in tables:
            write(f"table {frame}\n")
            for work, deadline, period, jitter in rows:
                assert 1 <= work and work + jitter <= deadline <= period and frame % period == 0
                write(f"row {work} {deadline} {period} {jitter}\n")


if __name__ == "__main__":
    main()
