"""A bench and its scripts by docs/RULES.md (The bench), docs/REFUSALS.md and docs/PROGRAMS.md (`bench`) alone.

A bench here keeps its bound, its frame and its rows, and no finding: whatever a call asks about is counted anew,
from the rows that stand, by brute force (counts.py). Its calls answer one of these:

    ('done',)
    ('refused', number, position)
    ('row', (C, D, T, J), (first rest or None, points tested))

A script is read line by line, and each line is answered as docs/PROGRAMS.md says, in bytes.

    python3 reference/benches.py < script

plays the script on standard input.
"""

import sys
from functools import lru_cache

sys.dont_write_bytecode = True  # leave no cache beside the sources

from counts import (  # noqa: E402
    EXACT_STEPS,
    LINEAR_TAILS,
    STAIRCASES,
    finding,
    first_rest,
    no_later,
    slow_rest,
    window,
)
from leaves import HORIZON, MOST_ACCURACY, MOST_ROWS, check_row  # noqa: E402
from refusals import (  # noqa: E402
    BAD_ACCURACY,
    BAD_FRAME,
    FULL_TABLE,
    NEWCOMER_OVERLOAD,
    NO_RANK,
    OVERLOAD,
    STANDING_ROWS,
    refused,
)

DONE = ('done',)

MOST_NUMBER = 4_294_967_295
MOST_BYTES = 128  # of a line that is no comment

# The lines that name a bound and those that are calls: their first words, and what the others stand for.
BOUND_FORMS = {b'exact': [], b'linear': ['K'], b'staircase': ['K']}
CALL_FORMS = {
    b'frame': ['H'],
    b'admit': ['RANK', 'C', 'D', 'T', 'J'],
    b'dismiss': ['RANK'],
    b'inquire': ['RANK'],
}

# The bounds that are named with an accuracy, by their words.
BOUNDS = {b'linear': LINEAR_TAILS, b'staircase': STAIRCASES}

# Rows with longer windows are not held to what is said of the slower speed, where all their instants may be tried.
WIDEST = 20_000


# --- The bench ---------------------------------------------------------------------------------------------


# The refusals that tell a rank, and not 0.
TELL_RANKS = (NEWCOMER_OVERLOAD, OVERLOAD)


def misses(frame, bound, rows, rank):
    """Whether the row at a rank misses."""
    return first_rest(frame, bound, rows[rank - 1], rows[:rank - 1]) is None


def missing_ranks(frame, bound, rows, first=1):
    """The ranks from `first` on whose rows miss, the smallest first."""
    for rank in range(first, len(rows) + 1):
        if misses(frame, bound, rows, rank):
            yield rank


def put_in(rows, rank, row):
    """The rows with one more at a rank."""
    return rows[:rank - 1] + (row,) + rows[rank - 1:]


class Bench:
    """A table on which tasks arrive and leave."""

    def __init__(self, bound):
        """A new bench: frame 1 and no row."""
        self.bound = bound
        self.on = 1  # the frame
        self.rows = ()

    def frame(self, frame):
        """Sets the frame."""
        if frame == 0 or frame > HORIZON:
            return ('refused', BAD_FRAME, 0)
        if self.rows:
            return ('refused', STANDING_ROWS, 0)
        self.on = frame
        return DONE

    def admit(self, rank, work, deadline, period, jitter):
        """Puts a row in at a rank."""
        wrong = check_row(self.on, work, deadline, period, jitter)
        if wrong is not None:
            return ('refused', wrong, 0)
        if len(self.rows) == MOST_ROWS:
            return ('refused', FULL_TABLE, 0)
        if rank < 1 or rank > len(self.rows) + 1:
            return ('refused', NO_RANK, 0)
        rows = put_in(self.rows, rank, (work, deadline, period, jitter))
        if misses(self.on, self.bound, rows, rank):
            return ('refused', NEWCOMER_OVERLOAD, rank)
        for missing in missing_ranks(self.on, self.bound, rows, rank + 1):
            return ('refused', OVERLOAD, missing)
        self.rows = rows
        return DONE

    def dismiss(self, rank):
        """Takes the row at a rank out."""
        if rank < 1 or rank > len(self.rows):
            return ('refused', NO_RANK, 0)
        self.rows = self.rows[:rank - 1] + self.rows[rank:]
        return DONE

    def inquire(self, rank):
        """The row at a rank and its finding."""
        if rank < 1 or rank > len(self.rows):
            return ('refused', NO_RANK, 0)
        row = self.rows[rank - 1]
        return ('row', row, finding(self.on, self.bound, row, self.rows[:rank - 1]))


# --- Scripts -----------------------------------------------------------------------------------------------


def answer_text(answer):
    """The line that is written for an answer."""
    if answer == DONE:
        return 'done'
    if answer[0] == 'refused':
        _, number, position = answer
        return refused(number) + (f' at rank {position}' if number in TELL_RANKS else '')
    _, row, (rest, points) = answer
    numbers = ' '.join(str(number) for number in row)
    verdict = 'misses' if rest is None else f'meets {rest}'
    return f'row {numbers} {verdict} points {points}'


def is_passed_over(line):
    """Whether a line is answered by nothing: a comment, or blanks and tabs alone, not too many, or no byte."""
    return line[:1] == b'#' or (len(line) <= MOST_BYTES and line.strip(b' \t') == b'')


def number_of(word):
    """The number that a word is, or None. The digits are those of ASCII, and there is no sign."""
    if any(byte not in b'0123456789' for byte in word):
        return None
    number = int(word)
    return number if number <= MOST_NUMBER else None


def read_line(line, forms, first_words):
    """Either (None, first word, numbers), by the forms told, or (what was expected, None, None)."""
    if len(line) > MOST_BYTES:
        return (f'a line of at most {MOST_BYTES} bytes', None, None)
    words = [word for word in line.replace(b'\t', b' ').split(b' ') if word]
    first, others = words[0], words[1:]
    if first not in forms:
        return (first_words, None, None)
    names = forms[first]
    if len(others) != len(names):
        return (' '.join([first.decode('ascii')] + names), None, None)
    numbers = [number_of(word) for word in others]
    for name, number in zip(names, numbers):
        if number is None:
            return (f'a number from 0 to {MOST_NUMBER} for {name}', None, None)
    return (None, first, numbers)


class Player:
    """Plays the lines of one script in turn on a new bench."""

    def __init__(self, make_bench=Bench):
        """The bench is made with its bound as soon as a line names that."""
        self.make_bench = make_bench
        self.bench = None
        self.number = 0  # of the line that was played last

    def play(self, line):
        """What is written for the next line, which is given without its line feed; None where nothing is."""
        self.number += 1
        if line[-1:] == b'\r':
            line = line[:-1]
        if is_passed_over(line):
            return None
        if self.bench is None:
            expected, first, numbers = read_line(line, BOUND_FORMS, 'exact or linear K or staircase K')
        else:
            expected, first, numbers = read_line(line, CALL_FORMS, 'frame, admit, dismiss or inquire')
        if expected is not None:
            return f'not a call at line {self.number}: expected {expected}'
        if self.bench is None:
            return self.name_bound(first, numbers)
        return answer_text(self.call(first, numbers))

    def name_bound(self, first, numbers):
        """Makes the bench by the bound of a word and the accuracy told, or in exact steps where none is."""
        if numbers and (numbers[0] < 1 or numbers[0] > MOST_ACCURACY):
            return answer_text(('refused', BAD_ACCURACY, 0))
        self.bench = self.make_bench(BOUNDS[first][numbers[0]] if numbers else EXACT_STEPS)
        return None

    def call(self, first, numbers):
        """The bench's answer to a call."""
        if first == b'frame':
            return self.bench.frame(*numbers)
        if first == b'admit':
            return self.bench.admit(*numbers)
        if first == b'dismiss':
            return self.bench.dismiss(*numbers)
        return self.bench.inquire(*numbers)


def lines_of(script):
    """The lines of a script without their line feeds. Where it ends with a line feed no further line begins."""
    lines = script.split(b'\n')
    return lines[:-1] if lines[-1] == b'' else lines


def play(script):
    """The bytes that are written for a script."""
    player = Player()
    written = [player.play(line) for line in lines_of(script)]
    return b''.join(answer.encode('ascii') + b'\n' for answer in written if answer is not None)


# --- What docs/RULES.md says of them -----------------------------------------------------------------------


# The rows that stand stay for many calls, and are held to the same after each.
kept_slow_rest = lru_cache(maxsize=2048)(slow_rest)


def check_standing(bench):
    """Holds the rows that stand to what is said of them after every list of calls."""
    bound, rows = bench.bound, bench.rows
    assert len(rows) <= MOST_ROWS
    for at, row in enumerate(rows):
        above = rows[:at]
        assert check_row(bench.on, *row) is None
        rest = first_rest(bench.on, bound, row, above)
        exact = first_rest(bench.on, EXACT_STEPS, row, above)
        assert rest is not None and exact is not None and exact <= rest
        if window(row) <= WIDEST:
            assert no_later(rest, kept_slow_rest(row, above, bound.accuracy))
        if bound is LINEAR_TAILS.get(bound.accuracy):
            finer = LINEAR_TAILS[min(bound.accuracy + 1, MOST_ACCURACY)]
            assert no_later(first_rest(bench.on, finer, row, above), rest)


class HeldBench(Bench):
    """A bench that is held to what docs/RULES.md says after each call."""

    def __init__(self, bound):
        """A new bench; it also notes the refusals for a miss: (newcomer's rank, rank told, how many miss)."""
        super().__init__(bound)
        self.overloads = []

    def held(self, call, *numbers):
        """The answer to a call. A refusal leaves the bench as it was; whatever changed, the rows meet."""
        before = (self.on, self.rows)
        answer = call(*numbers)
        if answer != DONE:
            assert (self.on, self.rows) == before
        else:
            check_standing(self)
        return answer

    def frame(self, frame):
        """Sets the frame."""
        return self.held(super().frame, frame)

    def admit(self, rank, *row):
        """Puts a row in at a rank. The row told is the first of all to miss, and misses at the lower speed too; it
        is no row above the newcomer, and the refusal is the newcomer's own just where it is the newcomer."""
        answer = self.held(super().admit, rank, *row)
        if answer[0] == 'refused' and answer[1] in TELL_RANKS:
            rows = put_in(self.rows, rank, row)
            missing = list(missing_ranks(self.on, self.bound, rows))
            told = answer[2]
            assert told == missing[0] >= rank
            assert (answer[1] == NEWCOMER_OVERLOAD) == (told == rank)
            if window(rows[told - 1]) <= WIDEST:
                assert slow_rest(rows[told - 1], rows[:told - 1], self.bound.accuracy) is None
            self.overloads.append((rank, told, len(missing)))
        return answer

    def dismiss(self, rank):
        """Takes the row at a rank out."""
        return self.held(super().dismiss, rank)

    def inquire(self, rank):
        """The row at a rank and its finding."""
        return self.held(super().inquire, rank)


if __name__ == '__main__':
    sys.stdout.buffer.write(play(sys.stdin.buffer.read()))
