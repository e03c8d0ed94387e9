"""Scripts of calls while they are being made up, and rows for them.

Each line is played on a bench (benches.py) as soon as it is added, so what comes next can go by the rows that
stand and by what the bench would answer.
"""

from benches import HeldBench, Player, missing_ranks, play, put_in
from chance import ANY, LOOSE, NEARLY_LOOSE
from counts import first_rest, window
from leaves import HORIZON, MOST_ACCURACY, MOST_ROWS

TOP = 4_294_967_295  # the largest number of 32 bits
HALF = 2_147_483_648  # the least that would be negative if it had a sign

# No script has more calls.
MOST_CALLS = 200


class Stairs(int):
    """The accuracy of a staircase, where that of a linear tail may stand too."""


STAIRS = {accuracy: Stairs(accuracy) for accuracy in range(1, MOST_ACCURACY + 1)}


class Script:
    """A script being made up."""

    def __init__(self, source, accuracy=None):
        """A new script. With an accuracy its first line names the bound: that of a linear tail, 0 for exact steps, or one
        of STAIRS.
        """
        self.source = source
        self.lines = []
        self.answers = []
        self.player = Player(HeldBench)
        self.accuracy = accuracy
        if isinstance(accuracy, Stairs):
            self.passed(f'staircase {accuracy}')
        elif accuracy is not None:
            self.passed(f'linear {accuracy}' if accuracy else 'exact')

    # Adding lines.

    def line(self, line):
        """Adds a line, told without its line feed, and gives its answer, None where there is none."""
        line = line.encode('latin-1') if isinstance(line, str) else line
        assert b'\n' not in line and not line.startswith(b'===')
        self.lines.append(line)
        answer = self.player.play(line)
        if answer is not None:
            self.answers.append(answer)
        return answer

    def passed(self, line):
        """Adds a line that is answered by nothing."""
        answer = self.line(line)
        assert answer is None, f'{line}: {answer}'

    def call(self, line, expected=None):
        """Adds a call. Its answer may be known beforehand, for a refusal by its number alone."""
        answer = self.line(line)
        assert answer is not None and not answer.startswith('not'), f'{line}: {answer}'
        if isinstance(expected, int):
            assert answer.startswith(f'refused {expected} '), f'{line}: {answer}, not {expected}'
        else:
            assert expected in (None, answer), f'{line}: {answer}, not {expected}'
        return answer

    def no_call(self, line, expected):
        """Adds a line that is no call, and what was expected."""
        answer = self.line(line)
        told = f'not a call at line {len(self.lines)}: expected {expected}'
        assert answer == told, f'{line}: {answer}, not {told}'

    def frame(self, frame, expected=None):
        """Adds a call that sets the frame."""
        return self.call(self.spelled('frame', frame), expected)

    def admit(self, rank, row, expected=None):
        """Adds a call that puts a row in."""
        return self.call(self.spelled('admit', rank, *row), expected)

    def dismiss(self, rank, expected=None):
        """Adds a call that takes a row out."""
        return self.call(self.spelled('dismiss', rank), expected)

    def inquire(self, rank, expected=None):
        """Adds a call that asks for a row."""
        return self.call(self.spelled('inquire', rank), expected)

    def sweep(self, first=1, last=MOST_ROWS):
        """Asks for each row that stands, in rank order."""
        for rank in range(first, min(last, self.count) + 1):
            self.inquire(rank)

    def spelled(self, *words):
        """A call in words; one in forty is spelled in another way that means the same."""
        words = [str(word) for word in words]
        if self.source.below(40):
            return ' '.join(words)
        blank = self.source.pick([' ', '  ', '\t', ' \t '])
        words[1:] = [self.source.pick(['', '0', '000']) + word for word in words[1:]]
        before, after = self.source.pick(['', ' ', '\t']), self.source.pick(['', ' ', '\r', ' \t\r'])
        return before + blank.join(words) + after

    # What stands, and what would be.

    @property
    def on(self):
        """The bench's frame."""
        return self.player.bench.on

    @property
    def bound(self):
        """The bench's bound."""
        return self.player.bench.bound

    @property
    def rows(self):
        """The rows that stand."""
        return self.player.bench.rows

    @property
    def count(self):
        """How many rows stand."""
        return len(self.rows)

    @property
    def room(self):
        """How many calls may still be added."""
        return MOST_CALLS - len(self.answers)

    def fits(self, rank, row):
        """Whether all rows meet with a row put in at a rank."""
        for _ in missing_ranks(self.on, self.bound, put_in(self.rows, rank, row), rank):
            return False
        return True

    def largest_work(self, rank, row):
        """The largest work up to the window with which the row fits at a rank, 0 where there is none."""
        fitting, too_large = 0, window(row) + 1
        while too_large - fitting > 1:
            work = (fitting + too_large) // 2
            if self.fits(rank, (work,) + row[1:]):
                fitting = work
            else:
                too_large = work
        return fitting

    def rest_of(self, rank, row):
        """The first rest of a row at a rank if it had its whole period as deadline, or None."""
        work, _, period, jitter = row
        return first_rest(self.on, self.bound, (work, period, period, jitter), self.rows[:rank - 1])

    # The end.

    def bytes_of(self):
        """The bytes of the script and of what is written for it, also when it is played as a whole."""
        script = b''.join(line + b'\n' for line in self.lines)
        written = b''.join(answer.encode('ascii') + b'\n' for answer in self.answers)
        assert play(script) == written
        return script, written


# --- Rows by chance ----------------------------------------------------------------------------------------


class Setting:
    """What the rows of a script are made from: periods, and how much of the processor each is to take."""

    def __init__(self, script, periods, count, manner=None):
        """The setting for about so many rows with periods that divide the frame."""
        self.source = script.source
        self.periods = periods
        self.count = count
        self.share = self.source.utilisation(script.accuracy)  # of all rows, in hundredths
        self.manner = manner or self.source.pick([LOOSE, NEARLY_LOOSE, NEARLY_LOOSE, ANY])

    def row(self, times=1):
        """A row with about its share of the utilisation, or several times as much."""
        period = self.source.pick(self.periods)
        work = times * self.share * period * self.source.between(2, 16) // (900 * self.count)
        return self.source.row(min(max(work, 1), period), period, self.manner)


def rank_by_window(rows, row):
    """The rank for a row behind all rows whose windows are no longer: there most rows meet."""
    return 1 + sum(window(other) <= window(row) for other in rows)


def rank_for(script, row):
    """A rank for a row: mostly by its window, else any, the ends among them."""
    others = [1, script.count + 1, script.source.between(1, script.count + 1)]
    return script.source.pick(6 * [rank_by_window(script.rows, row)] + others)


def rank_outside(script, most):
    """A rank outside those from 1 to `most`, near them or far off."""
    near = [0, 0, most + 1, most + 1, most + 2, most + 3]
    return script.source.pick(near + [33, 34, 64, 255, 256, HALF, TOP - 1, TOP])


def flawed(script, row):
    """The row with a flaw, just past what is allowed or far past it, and maybe with another."""
    source = script.source
    work, deadline, period, jitter = row
    for _ in range(source.pick([1, 1, 2])):
        kind = source.pick([0, 1, 2, 3, 3, 4, 4, 5, 5, 5])
        if kind == 0:
            work = 0
        elif kind == 1:
            too_long = max(deadline - jitter, 0) + 1
            work = source.pick([too_long, too_long, TOP, HALF])
        elif kind == 2:
            jitter = source.pick([max(deadline - work, 0) + 1, deadline, TOP])
        elif kind == 3:
            deadline = source.pick([period + 1, period + 1, TOP])
        elif kind == 4:
            period = source.pick([HORIZON + 1, HORIZON + 1, 2 * HORIZON, TOP])
        else:
            period = source.pick([period + 1, period + 1, script.on + 1, 2 * period + 1])
            while script.on % period == 0:
                period += 1
    return tuple(min(number, TOP) for number in (work, deadline, period, jitter))


def put_in_or_take_out(script, setting):
    """A row put in, or taken out where some stand, and the first row asked for."""
    if script.count and script.source.below(3) == 0:
        script.dismiss(script.source.between(1, script.count), 'done')
    else:
        row = setting.row()
        script.admit(rank_for(script, row), row)
    script.inquire(1)
