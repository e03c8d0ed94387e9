"""Recipes for scripts that are made up by chance: rows come and go, and are asked for.

Each takes a source of chance and the accuracy of the bound, 0 for exact steps or one of STAIRS for a staircase, and gives
a script (scripts.py).
"""

from chance import LOOSE, NEARLY_LOOSE, divisors
from counts import window
from leaves import HORIZON, MOST_ROWS
from scripts import TOP, Script, Setting, flawed, rank_by_window, rank_for, rank_outside

# --- Looking at what stands --------------------------------------------------------------------------------


def look(script, rank):
    """After a change at a rank: asks for every row, for some of those from the rank on, for one, or for none."""
    source = script.source
    if script.room < script.count + 8:
        return
    kind = source.below(8)
    if kind < 3 and (script.count <= 7 or source.below(4) == 0):
        script.sweep()
    elif kind < 5:
        script.sweep(rank, rank + 2)
    elif kind == 5 and rank > 1:
        script.sweep(rank - 1, rank)
    elif kind == 6 and script.count:
        script.inquire(source.between(1, script.count))


# --- Steps -------------------------------------------------------------------------------------------------


def put_in_some(script, setting):
    """A row of about its share."""
    row = setting.row()
    rank = rank_for(script, row)
    if script.admit(rank, row) == 'done':
        look(script, rank)


def put_in_largest(script, setting):
    """A row with one unit of work too many at its rank, and with the most with which all rows meet."""
    row = setting.row()
    rank = rank_for(script, row)
    work = script.largest_work(rank, row)
    if script.source.below(3):
        script.admit(rank, (work + 1,) + row[1:])
    if work and script.admit(rank, (work,) + row[1:], 'done') == 'done':
        look(script, rank)


def put_in_tight(script, setting):
    """A row whose window ends one instant before its first rest, and one whose window ends at it."""
    row = setting.row()
    rank = rank_for(script, row)
    rest = script.rest_of(rank, row)
    work, _, period, jitter = row
    if rest is None:
        script.admit(rank, row)
        return
    if script.source.below(3) and rest > work:
        script.admit(rank, (work, rest + jitter - 1, period, jitter), f'refused 21 newcomer overload at rank {rank}')
    if script.admit(rank, (work, rest + jitter, period, jitter)) == 'done':
        look(script, rank)


def put_in_heavy(script, setting):
    """A row of several shares at a high rank, so that rows below it miss."""
    row = setting.row(script.source.between(2, 7))
    rank = script.source.pick([1, 1, script.source.between(1, script.count + 1)])
    if script.admit(rank, row) == 'done':
        look(script, rank)


def put_in_flawed(script, setting):
    """Numbers that are no row on the frame, at a rank or outside the ranks."""
    row = setting.row()
    rank = script.source.pick([rank_for(script, row), rank_outside(script, script.count + 1)])
    script.admit(rank, flawed(script, row))


def put_in_outside(script, setting):
    """A row at no rank."""
    row = setting.row(script.source.pick([1, 6]))
    script.admit(rank_outside(script, script.count + 1), row)


def take_out(script, setting):
    """A row at the first rank, at the last, in the middle, or at any."""
    if script.count == 0:
        script.dismiss(script.source.pick([0, 1]), 10)
        return
    middle = (script.count + 1) // 2
    rank = script.source.pick([1, middle, script.count, script.source.between(1, script.count)])
    script.dismiss(rank, 'done')
    look(script, rank)


def take_out_outside(script, setting):
    """No row, for there is no such rank."""
    script.dismiss(rank_outside(script, script.count), 10)


def ask(script, setting):
    """For a row, or at a rank just past the last."""
    script.inquire(script.source.between(1, script.count + 1))


def ask_outside(script, setting):
    """At no rank."""
    script.inquire(rank_outside(script, script.count), 10)


def set_frame(script, setting):
    """To any frame, where rows stand; else to one and back."""
    frame = script.source.pick([0, 0, 1, 12, script.on, HORIZON, HORIZON + 1, TOP])
    before = script.on
    if script.frame(frame) == 'done':
        script.frame(before, 'done')


STEPS = (
    28 * [put_in_some]
    + 9 * [put_in_largest]
    + 9 * [put_in_tight]
    + 6 * [put_in_heavy]
    + 10 * [put_in_flawed]
    + 3 * [put_in_outside]
    + 13 * [take_out]
    + 3 * [take_out_outside]
    + 5 * [ask]
    + 2 * [ask_outside]
    + 3 * [set_frame]
)


def go_on(script, setting, calls):
    """Steps by chance until the script has so many calls. The more rows stand, the more are taken out."""
    while len(script.answers) < calls and script.room > 8:
        if script.source.below(6 * setting.count) < script.count:
            take_out(script, setting)
        script.source.pick(STEPS)(script, setting)


def empty(script):
    """Takes out every row, in any order, and tries to set the frame before the last is out."""
    while script.count:
        if script.count == 1:
            script.frame(script.source.pick([1, script.on, 24, HORIZON]), 2)
        script.dismiss(script.source.between(1, script.count), 'done')
        if script.count and script.room > 40 and script.source.below(3) == 0:
            script.inquire(script.source.between(1, script.count))
    script.inquire(1, 10)


# --- Recipes -----------------------------------------------------------------------------------------------


def come_and_go(source, accuracy, count, most, most_frames, calls=70):
    """About so many rows with periods up to `most` that come and go, on one frame or up to so many in turn."""
    script = Script(source, accuracy)
    frames = source.between(1, most_frames)
    calls += source.between(-25, 25)
    if source.below(3) == 0:
        script.admit(1, source.pick([(1, 1, 1, 0), (1, 2, 2, 0), (1, 4, 4, 0)]))  # on frame 1
    for number in range(1, frames + 1):
        if script.count:
            empty(script)
        frame, periods = source.frame_and_periods(count, most)
        script.frame(frame, 'done')
        go_on(script, Setting(script, periods, count), calls * number // frames)
    script.sweep(last=min(MOST_ROWS, script.room))
    return script


def small_numbers(source, accuracy):
    """Rows of small numbers, for which all happens near the first instants."""
    script = Script(source, accuracy)
    for number in (1, 2):
        if script.count:
            empty(script)
        frame = source.pick([2, 4, 6, 12, 12, 24])
        script.frame(frame, 'done')
        setting = Setting(script, divisors(frame, 1, 12), source.between(1, 4))
        go_on(script, setting, 35 * number)
    script.sweep()
    return script


def fill(script, setting, count, manner=None):
    """Puts rows in until so many stand, lighter ones where heavier ones do not fit; each is to fit in the end."""
    tries = 0
    while script.count < count:
        tries += 1
        row = setting.row()
        any_rank = script.source.between(1, script.count + 1)
        rank = script.source.pick(3 * [rank_by_window(script.rows, row)] + [any_rank])
        if tries > 2:
            row = (1, setting.periods[-1], setting.periods[-1], 0)
            rank = script.count + 1
        if script.admit(rank, row, 'done' if tries > 4 else None) == 'done':
            tries = 0


def light_setting(script, count, least, most):
    """A frame and a setting with which so many rows mostly fit, with periods from `least` to `most`."""
    frame = script.source.pick([5040, 27_720, 55_440, 332_640, 720_720, 1_441_440])
    script.frame(frame, 'done')
    setting = Setting(script, divisors(frame, least, most), count, script.source.pick([LOOSE, NEARLY_LOOSE]))
    setting.share = setting.share * 3 // 5
    return setting


def at_every_rank(source, accuracy, count):
    """A light row put in at each rank in turn and taken out again, and every row asked for each time."""
    script = Script(source, accuracy)
    setting = light_setting(script, count + 2, 20, 150)
    fill(script, setting, count)
    script.sweep()
    for rank in range(1, count + 2):
        row = setting.row()
        row = (1,) + row[1:]
        if script.room < 3 * count + 6:
            break
        if script.admit(rank, row) == 'done':
            script.sweep()
            script.dismiss(rank, 'done')
            script.sweep(rank)
        script.admit(count + 2, row, 10)
    put_in_heavy(script, setting)
    return script


def out_and_back(source, accuracy, count):
    """Each row taken out in turn, from the first or from the last, and put in again where it was."""
    script = Script(source, accuracy)
    setting = light_setting(script, count, 12, 120)
    fill(script, setting, count)
    ranks = list(range(1, count + 1))
    for rank in ranks if source.below(2) else ranks[::-1]:
        if script.room < 2 * count + 8:
            break
        row = script.rows[rank - 1]
        script.dismiss(rank, 'done')
        script.sweep()
        if source.below(2):
            script.dismiss(count, 10)
        script.admit(rank, row, 'done')
        script.sweep(rank)
    go_on(script, setting, len(script.answers) + 12)
    return script


def full_table(source, accuracy):
    """A table of 32 rows: one more is refused, and at each rank a row is taken out and, at another, put in."""
    script = Script(source, accuracy)
    setting = light_setting(script, MOST_ROWS, 90, 240)
    fill(script, setting, MOST_ROWS - 1)
    script.admit(34, setting.row(), 10)
    script.admit(32, (1, setting.periods[-1], setting.periods[-1], 0))
    fill(script, setting, MOST_ROWS)
    for rank in (0, 1, 32, 33, 34, TOP):
        script.admit(rank, setting.row(), 9)
    script.sweep()
    start, stride = source.below(MOST_ROWS), source.pick([5, 7, 11, 13])
    for at in range(MOST_ROWS):
        rank = 1 + (start + at * stride) % MOST_ROWS
        script.dismiss(rank, 'done')
        if at % 4 == 0:
            script.admit(source.pick([0, 33, TOP]), setting.row(), 10)
        to = 1 + (start * 3 + at * 9) % MOST_ROWS
        if at % 4 == 2:
            script.admit(to, setting.row(source.between(6, 18)))
            if script.count == MOST_ROWS:
                continue
        if script.admit(to, (1,) + setting.row()[1:]) != 'done':
            fill(script, setting, MOST_ROWS)
        if script.room > 2 * MOST_ROWS - 2 * at:
            script.inquire(source.pick([rank, to, 32]))
    script.dismiss(33, 10)
    return script


def narrow_row(script):
    """A window of 1, jitter just below the period, a period of 1 or 2, or work as long as the window."""
    source = script.source
    period = source.pick(divisors(script.on, 1, 250))
    kind = source.below(5)
    if kind == 0:
        deadline = source.between(1, period)
        return (1, deadline, period, deadline - 1)
    if kind == 1:
        jitter = period - 1 - source.below(min(3, period))
        return (source.between(1, period - jitter), period, period, jitter)
    if kind == 2:
        period = source.pick([number for number in (1, 2) if script.on % number == 0])
        return source.row(source.between(1, period), period)
    if kind == 3:
        work = source.between(1, period)
        return (work, period, period, period - work)
    return source.row(1 + period // 12, period)


def narrow_windows(source, accuracy):
    """Rows of which most leave no time, or hardly any."""
    script = Script(source, accuracy)
    for frame in (source.pick([1, 2, 4]), source.pick([12, 60, 720, 65_536, HORIZON])):
        if script.count:
            empty(script)
        script.frame(frame, 'done')
        setting = Setting(script, divisors(frame, 1, 250), 4)
        for _ in range(source.between(16, 22)):
            row = narrow_row(script)
            rank = source.pick([rank_for(script, row), script.count + 1, 1])
            if script.admit(rank, row) == 'done':
                look(script, rank)
            source.pick([take_out, ask, put_in_flawed, put_in_some, take_out_outside])(script, setting)
    script.sweep()
    return script


def long_periods(source, accuracy):
    """Periods up to the horizon, most of them with jitter that leaves a short window."""
    script = Script(source, accuracy)
    frame = source.pick([HORIZON, HORIZON, 14_414_400, 16_777_213])
    script.frame(frame, 'done')
    long = [frame] if frame == 16_777_213 else [frame, frame, frame // 2, frame // 4]
    setting = Setting(script, divisors(frame, 1, 128)[-6:], 5)
    for _ in range(30):
        period = source.pick(long)
        length = source.between(1, 400)
        work = source.between(1, min(length, 60))
        row = source.pick([
            (work, period, period, period - length),
            (work, period - source.below(period - length), period, source.below(9)),
            (work, period - 7, period, period - 7 - length),
            setting.row(),
        ])
        # A row that misses is tried at all instants of its window, so a wide window is only given where it meets.
        if window(row) > 400:
            row = (work, length + row[3], period, row[3])
        rank = source.pick([rank_by_window(script.rows, row), 1, script.count + 1])
        if script.admit(rank, row) == 'done':
            look(script, rank)
        source.pick([take_out, ask, put_in_flawed, put_in_outside, set_frame])(script, setting)
    script.sweep()
    return script
