"""What the command `yabreznul` says, by docs/PROGRAMS.md (`yabreznul`), docs/FORMAT.md and docs/RULES.md alone.

A task table is read from its bytes, judged and given a frame, and its rows are counted by brute force (counts.py);
leaves are read by leaves.py, and scripts are played by benches.py. Texts are strings that end with a line feed. What is
refused or cannot be taken is a Trouble, whose text is what is told behind the file's name.

    python3 reference/views.py file TABLE [--linear K] [--staircase K] [--frame H] [--out NAME]
    python3 reference/views.py show [--csv | --json] LEAF ..
    python3 reference/views.py compare A B
    python3 reference/views.py plot TABLE --rank R [--linear K] [--staircase K] [--frame H]
    python3 reference/views.py sheet TABLE [--linear K | --staircase K] [--frame H]
    python3 reference/views.py respond TABLE
    python3 reference/views.py bench SCRIPT

prints what is told of the files named: of `file` the table, and the bytes of all leaves or, with a name, the lines that
tell where they are filed; of `plot` the numbers of the picture; of `sheet` its bytes in hexadecimal. Of `file` and `plot`
at least one bound is named.
"""

import json
import math
import sys
from pathlib import Path
from typing import NamedTuple

sys.dont_write_bytecode = True  # leave no cache beside the sources

from benches import play  # noqa: E402
from counts import EXACT_STEPS, LINEAR_TAILS, STAIRCASES, response_time, survey, window  # noqa: E402
from leaves import HORIZON, MOST_ACCURACY, MOST_ROWS, read_leaf, write_heading, write_leaf, write_row  # noqa: E402
from refusals import (  # noqa: E402
    BAD_ACCURACY,
    BAD_FRAME,
    FULL_TABLE,
    IDLE_ROW,
    LATE_DEADLINE,
    LONG_PERIOD,
    NO_RANK,
    NO_WINDOW,
    OFF_FRAME,
    WORDS,
    refused,
)

MOST_NUMBER = 4_294_967_295


class Kind(NamedTuple):
    """A kind of bound that is named with an accuracy."""

    number: int  # in a heading
    word: str  # in options, in columns and in the names of leaves
    name: str  # as people read it
    short: str  # in the description of a picture
    bounds: dict  # by accuracy


# The kinds in the order of their numbers, in which they always come.
KINDS = [
    Kind(1, 'linear', 'linear tail', 'tail', LINEAR_TAILS),
    Kind(2, 'staircase', 'staircase', 'staircase', STAIRCASES),
]


class Named(NamedTuple):
    """A bound that is named: its kind and an accuracy that nobody has judged."""

    kind: Kind
    accuracy: int

    @property
    def bound(self):
        """The bound itself."""
        return self.kind.bounds[self.accuracy]

    @property
    def told(self):
        """The bound as people read it."""
        return f'{self.kind.name} of accuracy {self.accuracy}'

    @property
    def short(self):
        """The bound in names of files and in descriptions."""
        return f'{self.kind.word}-{self.accuracy}'


# The headings of a task table: those that must be there, all, and other words for them.
NEEDED = ['work', 'deadline', 'period']
HEADINGS = ['name', 'work', 'deadline', 'period', 'jitter']
OTHER_WORDS = {'wcet': 'work', 'C': 'work', 'D': 'deadline', 'T': 'period', 'J': 'jitter'}

BYTE_ORDER_MARK = b'\xef\xbb\xbf'
BLANKS = ' \t'
LINE_ENDS = '\r\n'

MOST_TOLD = 40  # the characters of a field that are told

MOST_COLUMNS = 720  # the columns to which the window of a picture is thinned


class Trouble(Exception):
    """What was refused or cannot be taken."""


def shown(text):
    """A text as people read it: with `?` for each control character of ASCII."""
    return ''.join('?' if character < ' ' or character == '\x7f' else character for character in text)


def told_field(field):
    """A field as it is told where it cannot be taken."""
    text = shown(field)
    return f'"{text}"' if len(text) <= MOST_TOLD else f'"{text[:MOST_TOLD]}.."'


# --- Task tables: lines and fields -------------------------------------------------------------------------


def decoded(data):
    """The text of a table. Bytes that are no text stay as characters that no text has."""
    return data.removeprefix(BYTE_ORDER_MARK).decode('utf-8', 'surrogateescape')


def is_text(field):
    """Whether the bytes of a field were UTF-8."""
    return not any('\udc80' <= character <= '\udcff' for character in field)


def behind_end(text, at):
    """The place behind the line end at a place, which is LF, CR LF, CR or that of the text."""
    return at + 2 if text.startswith('\r\n', at) else min(at + 1, len(text))


def place_of(characters, text, at):
    """The first place, from one on, where one of some characters stands, or the text ends."""
    return next((place for place in range(at, len(text)) if text[place] in characters), len(text))


def count_lines(text):
    """How many lines a text has. Behind the last line end there is one only where a character follows."""
    return line_ends(text) + (0 if text == '' or text[-1] in LINE_ENDS else 1)


def line_ends(text):
    """How many lines end in a text: with LF, CR LF or CR."""
    return len(text) - len(text.replace('\r\n', '\r').replace('\r', '').replace('\n', '')) - text.count('\r\n')


def parter_of(line):
    """What parts fields, by the first line that is neither a comment nor blank."""
    for parter in ',\t':
        if parter in line:
            return parter
    return ' '


def parter_in(text):
    """What parts the fields of a text: its first line decides that is neither a comment nor blank. Here CR ends every line."""
    lines = text.replace('\r', '\n').split('\n')
    deciding = [line for line in lines if not line.startswith('#') and line.strip(BLANKS)]
    return parter_of(deciding[0]) if deciding else ' '


def field_from(text, at, parter):
    """The field that begins at a place, its quotes taken away, and the place of the parter or line end behind it.

    It is quoted only where a quote is its first character. What stands behind its second quote is joined on.
    """
    quoted = []
    if text.startswith('"', at):
        at += 1
        while at < len(text):
            if text.startswith('""', at):
                at += 1
            elif text[at] == '"':
                at += 1
                break
            quoted.append(text[at])
            at += 1
    end = place_of(parter + LINE_ENDS, text, at)
    return ''.join(quoted) + text[at:end], end


def record_from(text, at, parter):
    """The fields of the record that begins at a place, and the place behind its end.

    Blanks and tabs around a field do not count, within its quotes either. Where blanks part fields, none is empty.
    """
    field, at = field_from(text, at, parter)
    fields = [field]
    while text.startswith(parter, at):
        field, at = field_from(text, at + 1, parter)
        fields.append(field)
    fields = [field.strip(BLANKS) for field in fields]
    if parter == ' ':
        fields = [field for field in fields if field]
    return fields, behind_end(text, at)


def records(text):
    """The line and the fields of each record that is neither a comment nor passed over, in order."""
    parter = parter_in(text)
    start, line_number = 0, 1
    while start < len(text):
        if text[start] == '#':
            end = behind_end(text, place_of('\n', text, start))
        else:
            fields, end = record_from(text, start, parter)
            if any(fields):
                yield line_number, fields
        line_number += line_ends(text[start:end])
        start = end


# --- Task tables: what is told -----------------------------------------------------------------------------


def place(line, field, heading=None):
    """A line, and a field of it with its heading."""
    return f'line {line}, field {field}' + (f' ({heading})' if heading else '')


def check_text(field, where):
    """The field's bytes are text."""
    if not is_text(field):
        raise Trouble(f'{where}: bytes that are no text stand there, expected UTF-8')


def is_digits(field):
    """Whether a field is a whole number, however large."""
    return field.isascii() and field.isdigit()


def number_of(field):
    """The number that a field tells, or None where it is none that can be taken."""
    digits = field.lstrip('0') or '0'
    if not is_digits(field) or len(digits) > len(str(MOST_NUMBER)) or int(digits) > MOST_NUMBER:
        return None
    return int(digits)


def is_number(field):
    """Whether a field is a number that can be taken."""
    return number_of(field) is not None


def read_headings(line, fields):
    """The headings of a table, each by the first of its words."""
    headings = []
    for at, field in enumerate(fields):
        where = place(line, at + 1)
        check_text(field, where)
        heading = OTHER_WORDS.get(field, field)
        if heading not in HEADINGS:
            expected = 'name, work (wcet, C), deadline (D), period (T) or jitter (J)'
            raise Trouble(f'{where}: {told_field(field)} stands there, expected {expected}')
        if heading in headings:
            raise Trouble(f'{where}: "{field}" stands there again, expected each heading once')
        headings.append(heading)
    for heading in NEEDED:
        if heading not in headings:
            raise Trouble(f'line {line}: no heading {heading} stands there, expected work, deadline and period')
    return headings


def refusal_of_large(heading, fields):
    """The refusal that a whole number too large carries, or None. The fields are those of its line, by their headings."""
    if heading == 'period':
        return LONG_PERIOD
    if heading == 'deadline':
        return LATE_DEADLINE if is_number(fields['period']) else None
    return NO_WINDOW if is_number(fields['deadline']) else None


class Task:
    """A task as it was read: its line, its name if there are names, and its four numbers."""

    def __init__(self, line, headings, fields):
        """Reads the fields of a line, of which there are as many as headings."""
        self.line = line
        self.headings = headings
        named = dict(zip(headings, fields))
        for at, (heading, field) in enumerate(zip(headings, fields)):
            where = place(line, at + 1, heading)
            check_text(field, where)
            if heading != 'name' and not is_number(field):
                told = f'{where}: {told_field(field)} stands there, expected a number from 0 to {MOST_NUMBER}'
                refusal = refusal_of_large(heading, named) if is_digits(field) else None
                raise Trouble(told if refusal is None else f'{told}: {refused(refusal)}')
        self.name = named.get('name')
        self.numbers = tuple(number_of(named.get(heading, '0')) for heading in HEADINGS[1:])

    def where(self, heading):
        """The place of a number."""
        return place(self.line, self.headings.index(heading) + 1, heading)


def read_table(data):
    """The tasks of a table, in the order of their lines."""
    text = decoded(data)
    headings, tasks = None, []
    for line, fields in records(text):
        if headings is None:
            headings = read_headings(line, fields)
            continue
        if len(tasks) == MOST_ROWS:
            raise Trouble(
                f'line {line}: a task more stands there, expected at most {MOST_ROWS}: {refused(FULL_TABLE)}'
            )
        if len(fields) != len(headings):
            raise Trouble(f'line {line}: {len(fields)} fields stand there, expected {len(headings)}')
        tasks.append(Task(line, headings, fields))
    if headings is None:
        line = count_lines(text) + 1
        raise Trouble(f'line {line}: nothing stands there, expected a heading with work, deadline and period')
    return tasks


# --- Judging -----------------------------------------------------------------------------------------------


def idle_row(task, frame):
    """What is told where the work is 0."""
    work, _, _, _ = task.numbers
    if work == 0:
        return f'{task.where("work")}: 0 stands there, expected at least 1'
    return None


def no_window(task, frame):
    """What is told where work and jitter pass the deadline."""
    work, deadline, _, jitter = task.numbers
    if work + jitter <= deadline:
        return None
    if deadline < jitter:
        expected = f'a work of at least 1 that fits: the deadline {deadline} is below the jitter {jitter}'
    elif deadline == jitter:
        expected = f'a work of at least 1 that fits: the jitter {jitter} leaves none of the deadline {deadline}'
    else:
        expected = f'at most {deadline - jitter}, the deadline {deadline} less the jitter {jitter}'
    return f'{task.where("work")}: {work} stands there, expected {expected}'


def late_deadline(task, frame):
    """What is told where the deadline passes the period."""
    _, deadline, period, _ = task.numbers
    if deadline > period:
        return f'{task.where("deadline")}: {deadline} stands there, expected at most the period {period}'
    return None


def long_period(task, frame):
    """What is told where the period passes the horizon."""
    _, _, period, _ = task.numbers
    if period > HORIZON:
        return f'{task.where("period")}: {period} stands there, expected at most {HORIZON}'
    return None


def off_frame(task, frame):
    """What is told where the period does not divide the frame that was named."""
    _, _, period, _ = task.numbers
    if frame is not None and frame % period != 0:
        return f'{task.where("period")}: {period} stands there, expected a divisor of the frame'
    return None


CHECKS = {
    IDLE_ROW: idle_row,
    NO_WINDOW: no_window,
    LATE_DEADLINE: late_deadline,
    LONG_PERIOD: long_period,
    OFF_FRAME: off_frame,
}


def check_tasks(tasks, frame=None):
    """The tasks have no flaw: each is looked for in every task before the next, off the frame only where one is named."""
    for number, check in CHECKS.items():
        for rank, task in enumerate(tasks, 1):
            told = check(task, frame)
            if told is not None:
                raise Trouble(f'{told}: {refused(number)} at rank {rank}')


class Judged:
    """A table that was read and judged: its tasks, its rows and its frame."""

    def __init__(self, data, named=(), frame=None):
        """Judges the bytes of a table by the bounds, in the order of their kinds, and the frame that are named."""
        self.tasks = read_table(data)
        if frame is not None and not 1 <= frame <= HORIZON:
            raise Trouble(f'{refused(BAD_FRAME)}: expected --frame from 1 to {HORIZON}')
        for kind, accuracy in named:
            if not 1 <= accuracy <= MOST_ACCURACY:
                raise Trouble(f'{refused(BAD_ACCURACY)}: expected --{kind.word} from 1 to {MOST_ACCURACY}')
        check_tasks(self.tasks, frame)
        self.rows = [task.numbers for task in self.tasks]
        self.frame = frame if frame is not None else math.lcm(*(period for _, _, period, _ in self.rows))
        if self.frame > HORIZON:
            raise Trouble(f'{refused(BAD_FRAME)}: the periods have no common multiple up to {HORIZON}')


# --- Columns -----------------------------------------------------------------------------------------------


def is_count(cell):
    """Whether a cell is a number that is not negative. Names and words are texts, whatever their characters."""
    return isinstance(cell, int) and cell >= 0


def columns(headings, lines):
    """A table that people read. None stands for nothing to tell."""
    ready = []
    for heading, *cells in zip(headings, *lines):
        to_the_right = not cells or any(map(is_count, cells))
        texts = [heading] + ['-' if cell is None else shown(str(cell)) for cell in cells]
        width = max(map(len, texts))
        ready.append([text.rjust(width) if to_the_right else text.ljust(width) for text in texts])
    return ''.join('  '.join(line).rstrip(' ') + '\n' for line in zip(*ready))


def rest_told(rest):
    """A first rest or a response as people read it; there is none where the row misses."""
    return 'misses' if rest is None else rest


# --- file --------------------------------------------------------------------------------------------------

def file_columns(named):
    """The headings of the table that `file` prints."""
    headings = ['rank', 'name', 'C', 'D', 'T', 'J', 'exact rest', 'response', 'slack']
    for kind, _ in named:
        headings += [f'{kind.word} rest', 'gap']
    return headings + ['exact points'] + [f'{kind.word} points' for kind, _ in named]


def hundredths(parts, frame):
    """Parts of a frame in hundredths of a percent, to the nearest, halves up."""
    return (2 * 10_000 * parts + frame) // (2 * frame)


def leaf_of(frame, named, rows, findings):
    """The bytes of a leaf by a bound that is named, in exact steps where none is."""
    plain = [(rest or 0, points) for rest, points in findings]
    return write_leaf(frame, named.kind.number if named else 0, named.accuracy if named else 0, rows, plain)


def file_cells(rank, task, row, by_exact, by_bounds):
    """The cells of a row in the table that `file` prints: its findings are told in exact steps and by each bound."""
    rest, points = by_exact
    response = None if rest is None else rest + row[3]
    slack = None if rest is None else row[1] - response
    cells = [rank, task.name or None, *row, rest_told(rest), response, slack]
    for later, _ in by_bounds:
        gap = None if rest is None or later is None else later - rest
        assert (slack is None or slack >= 0) and (gap is None or gap >= 0)
        cells += [rest_told(later), gap]
    return cells + [points] + [points for _, points in by_bounds]


def meets_told(named, exact, bounded):
    """How many rows meet in exact steps and by each bound."""
    meet = [sum(rest is not None for rest, _ in findings) for findings in (exact, *bounded)]
    told = f'{meet[0]} of {len(exact)} rows meet in exact steps'
    for (kind, _), count in zip(named, meet[1:]):
        told += f', {count} of {len(exact)} by the {kind.name}'
    return told + '\n'


def file_table(data, named, frame=None):
    """The table that `file` prints, and its leaves, in exact steps and by each bound, behind their words and short names."""
    judged = Judged(data, named, frame)
    frame, rows = judged.frame, judged.rows
    exact = survey(frame, EXACT_STEPS, rows)
    bounded = [survey(frame, one.bound, rows) for one in named]
    lines = [
        file_cells(rank, task, row, by_exact, by_bounds)
        for rank, (task, row, by_exact, *by_bounds) in enumerate(zip(judged.tasks, rows, exact, *bounded), 1)
    ]
    parts = sum(work * (frame // period) for work, _, period, _ in rows)
    percent = hundredths(parts, frame)
    told = f'frame {frame}, {", ".join(one.told for one in named)}\n'
    told += columns(file_columns(named), lines)
    told += f'utilisation {parts}/{frame}, {percent // 100}.{percent % 100:02} %\n'
    told += meets_told(named, exact, bounded)
    leaves = [('exact', 'exact', leaf_of(frame, None, rows, exact))]
    leaves += [(one.kind.word, one.short, leaf_of(frame, one, rows, found)) for one, found in zip(named, bounded)]
    return told, leaves


def file_lines(data, name, named, frame=None):
    """What `file` prints: the table, and where it files each leaf."""
    told, leaves = file_table(data, named, frame)
    return told + ''.join(f'filed {name}.{short}.leaf, {len(leaf)} bytes\n' for _, short, leaf in leaves)


# --- plot and sheet ----------------------------------------------------------------------------------------


def drawn_points(bound, row, above, first_rests):
    """How many of the test points of a row are drawn by a bound, and how many there are.

    The window is cut into columns of equal width. Drawn are the first test point of each, the end of the window, and of
    each first rest the rest itself, the instant before it, and the test point at which testing stops.
    """
    last = window(row)
    points = sorted({corner for other in above for corner in bound.corners_before(other, last)} | {last})
    width = -(-last // MOST_COLUMNS)
    drawn = {}
    for point in points:
        drawn.setdefault((point - 1) // width, point)
    kept = set(drawn.values()) | {last}
    for rest in first_rests:
        kept |= {rest - 1, rest, next(point for point in points if point >= rest)}
    return len(kept & set(points)), len(points)


def found_told(words, found):
    """A finding in the description of a picture."""
    rest, points = found
    return f'{words} misses points {points}' if rest is None else f'{words} rest {rest} points {points}'


def plot_numbers(data, rank, named, frame=None):
    """What the picture of a row tells in its description."""
    judged = Judged(data, named, frame)
    if not judged.rows:
        raise Trouble(f'{refused(NO_RANK)}: the table has no row')
    if not 1 <= rank <= len(judged.rows):
        raise Trouble(f'{refused(NO_RANK)}: expected --rank from 1 to {len(judged.rows)}')
    row, above = judged.rows[rank - 1], judged.rows[:rank - 1]
    exact, *bounded = (
        survey(judged.frame, bound, judged.rows[:rank])[-1] for bound in [EXACT_STEPS, *(one.bound for one in named)]
    )
    first_rests = [rest for rest, _ in (exact, *bounded) if rest is not None]
    told = [f'rank {rank}', f'window {window(row)}', found_told('exact', exact)]
    for one, found in zip(named, bounded):
        drawn, points = drawn_points(one.bound, row, above, first_rests)
        told.append(found_told(one.short, found))
        told.append(f'drawn {drawn} of {points} test points by the {one.kind.short}')
    return '; '.join(told) + '\n'


def sheet_of(data, named=(), frame=None):
    """The bytes of a table's sheet, by the one bound that is named, or in exact steps where none is."""
    judged = Judged(data, named, frame)
    bound, accuracy = [(one.kind.number, one.accuracy) for one in named][0] if named else (0, 0)
    return write_heading(judged.frame, bound, accuracy) + b''.join(write_row(*row) for row in judged.rows)


# --- respond -----------------------------------------------------------------------------------------------

RESPOND_COLUMNS = ['rank', 'name', 'C', 'D', 'T', 'J', 'response', 'slack']


def responses_of(data):
    """The tasks of a table, and the response time of each in exact steps, None where it misses. There is no frame."""
    tasks = read_table(data)
    check_tasks(tasks)
    rows = tuple(task.numbers for task in tasks)
    return tasks, [response_time(row, rows[:at]) for at, row in enumerate(rows)]


def respond(data):
    """What `respond` prints of a table."""
    tasks, responses = responses_of(data)
    lines = []
    for rank, (task, response) in enumerate(zip(tasks, responses), 1):
        slack = None if response is None else task.numbers[1] - response
        assert slack is None or slack >= 0
        lines.append([rank, task.name or None, *task.numbers, rest_told(response), slack])
    meet = sum(response is not None for response in responses)
    return columns(RESPOND_COLUMNS, lines) + f'{meet} of {len(tasks)} rows meet in exact steps\n'


# --- show --------------------------------------------------------------------------------------------------

SHOW_COLUMNS = ['rank', 'work', 'deadline', 'period', 'jitter', 'first rest', 'response', 'points']

FIELDS = [
    'leaf', 'refused_number', 'refused_words', 'refused_at_byte', 'bytes_around_hex', 'bound', 'accuracy',
    'frame_ticks', 'rank', 'work_ticks', 'deadline_ticks', 'period_ticks', 'jitter_ticks', 'meets',
    'first_rest_ticks', 'response_ticks', 'points_tested',
]


class Leaf:
    """A leaf that was read, with its name: what it holds, or the refusal and its place."""

    def __init__(self, name, data):
        """Reads the bytes of a leaf."""
        self.name = name
        self.data = data
        answer = read_leaf(data)
        self.damaged = answer[0] == 'refused'
        if self.damaged:
            self.number, self.place = answer[1:]
        else:
            self.frame, self.bound, self.accuracy, self.rows, self.findings = answer[1:]

    def around(self):
        """The bytes around the place of the refusal, in hexadecimal."""
        before = self.data[max(self.place - 8, 0):self.place]
        at = self.data[self.place:self.place + 1]
        behind = self.data[self.place + 1:self.place + 8]
        words = [f'{byte:02x}' for byte in before] + [f'[{at.hex()}]'] + [f'{byte:02x}' for byte in behind]
        return ' '.join(words)

    def damage(self):
        """The line that tells of the damage."""
        return f'{shown(self.name)}: {refused(self.number)} at byte {self.place}, around it {self.around()}'

    def bound_told(self):
        """The bound in words."""
        return self.bound_name() + (f' of accuracy {self.accuracy}' if self.bound else '')

    def bound_name(self):
        """The bound in words, without its accuracy."""
        return next((kind.name for kind in KINDS if kind.number == self.bound), 'exact steps')

    def counted(self):
        """Each rank with its row, its first rest, the response, None both where the row misses, and the points."""
        for rank, (row, (rest, points)) in enumerate(zip(self.rows, self.findings), 1):
            yield rank, row, rest or None, rest + row[3] if rest else None, points


def show_plain(leaves):
    """What `show` prints for people."""
    told = []
    for leaf in leaves:
        if leaf.damaged:
            told.append(leaf.damage() + '\n')
            continue
        lines = [[rank, *row, rest_told(rest), response, points] for rank, row, rest, response, points in leaf.counted()]
        heading = f'{shown(leaf.name)}: {leaf.bound_told()}, frame {leaf.frame}, {len(leaf.rows)} rows\n'
        told.append(heading + columns(SHOW_COLUMNS, lines))
    return '\n'.join(told)


def show_records(leaves):
    """The records that `show` prints for programs, with the fields that are there."""
    for leaf in leaves:
        if leaf.damaged:
            values = [leaf.name, leaf.number, WORDS[leaf.number], leaf.place, leaf.around()]
            yield dict(zip(FIELDS, values))
            continue
        record = {'leaf': leaf.name, 'frame_ticks': leaf.frame, 'bound': leaf.bound_name()}
        if leaf.bound:
            record['accuracy'] = leaf.accuracy
        if not leaf.rows:
            yield record
        for rank, row, rest, response, points in leaf.counted():
            values = [rank, *row, rest is not None, rest, response, points]
            yield {**record, **dict(zip(FIELDS[8:], values))}


def csv_field(value):
    """A value as a field of CSV."""
    if value is None:
        return ''
    if isinstance(value, bool):
        return 'true' if value else 'false'
    text = str(value)
    if any(character in text for character in ',"\r\n'):
        return '"' + text.replace('"', '""') + '"'
    return text


def show_csv(leaves):
    """What `show --csv` prints."""
    lines = [FIELDS] + [[csv_field(record.get(field)) for field in FIELDS] for record in show_records(leaves)]
    return ''.join(','.join(line) + '\n' for line in lines)


def show_json(leaves):
    """What `show --json` prints."""
    objects = [
        json.dumps({field: record.get(field) for field in FIELDS}, ensure_ascii=False, separators=(',', ':'))
        for record in show_records(leaves)
    ]
    return '[' + ','.join(objects) + ']\n'


SHOWS = {None: show_plain, '--csv': show_csv, '--json': show_json}


# --- compare -----------------------------------------------------------------------------------------------

COMPARE_COLUMNS = [
    'rank', 'work', 'deadline', 'period', 'jitter', 'A rest', 'B rest', 'B later by', 'A points', 'B points',
    'verdicts',
]


def check_one_table(a, b):
    """The leaves are read, and are of one frame and the same rows."""
    for leaf in (a, b):
        if leaf.damaged:
            raise Trouble(leaf.damage())
    if a.frame != b.frame:
        raise Trouble(f'the frames differ, {a.frame} and {b.frame}')
    if len(a.rows) != len(b.rows):
        raise Trouble(f'{len(a.rows)} rows and {len(b.rows)}')
    for rank, (row, other) in enumerate(zip(a.rows, b.rows), 1):
        if row != other:
            told = ' and '.join(' '.join(map(str, numbers)) for numbers in (row, other))
            raise Trouble(f'rank {rank} is {told}')


def compare(a, b):
    """What `compare` prints of two leaves."""
    check_one_table(a, b)
    lines, parted = [], []
    for of_a, of_b in zip(a.counted(), b.counted()):
        rank, row, rest, _, points = of_a
        _, _, other_rest, _, other_points = of_b
        same = (rest is None) == (other_rest is None)
        later = None if rest is None or other_rest is None else other_rest - rest
        if not same:
            parted.append(str(rank))
        verdicts = 'same' if same else 'part'
        rests = [rest_told(rest), rest_told(other_rest)]
        lines.append([rank, *row, *rests, later, points, other_points, verdicts])
    told = f'A: {shown(a.name)}, {a.bound_told()}\nB: {shown(b.name)}, {b.bound_told()}\n'
    told += f'frame {a.frame}, {len(a.rows)} rows\n'
    told += columns(COMPARE_COLUMNS, lines)
    if not parted:
        return told + 'the verdicts part nowhere\n'
    ranks = 'rank' if len(parted) == 1 else 'ranks'
    return told + f'the verdicts part at {ranks} {", ".join(parted)}\n'


# --- Command lines -----------------------------------------------------------------------------------------


# The options that name a bound, in the order of their kinds.
BOUND_OPTIONS = {f'--{kind.word}': kind for kind in KINDS}


def options_of(words):
    """The numbers, and the name, that are named by options."""
    assert len(words) % 2 == 0
    options = {}
    for option, word in zip(words[::2], words[1::2]):
        assert option == '--out' or option in (*BOUND_OPTIONS, '--frame', '--rank') and is_number(word)
        assert option not in options
        options[option] = word if option == '--out' else int(word)
    return options


def named_by(options):
    """The bounds that options name, in the order of their kinds, in whatever order the options stand."""
    return [Named(kind, options[option]) for option, kind in BOUND_OPTIONS.items() if option in options]


def answered(words, read):
    """What is told of a command line, given in words; `read` gives the bytes of a file by its name."""
    subcommand, words = words[0], words[1:]
    if subcommand == 'show':
        form = words[0] if words[:1] in (['--csv'], ['--json']) else None
        leaves = [Leaf(name, read(name)) for name in words[form is not None:]]
        return SHOWS[form](leaves) + ('status 1\n' if any(leaf.damaged for leaf in leaves) else '')
    if subcommand == 'compare':
        a, b = words
        return compare(Leaf(a, read(a)), Leaf(b, read(b)))
    data, options = read(words[0]), options_of(words[1:])
    frame, named = options.get('--frame'), named_by(options)
    assert named or subcommand not in ('file', 'plot')
    if subcommand == 'file' and '--out' in options:
        return file_lines(data, options['--out'], named, frame)
    if subcommand == 'file':
        told, leaves = file_table(data, named, frame)
        return told + ''.join(f'{word} leaf: {leaf.hex().upper()}\n' for word, _, leaf in leaves)
    if subcommand == 'plot':
        return plot_numbers(data, options['--rank'], named, frame)
    if subcommand == 'sheet':
        assert len(named) <= 1
        return f'sheet: {sheet_of(data, named, frame).hex().upper()}\n'
    assert not options
    if subcommand == 'respond':
        return respond(data)
    assert subcommand == 'bench'
    return play(data).decode('ascii')


def answer(words, read):
    """What is told of a command line, or the trouble with it."""
    try:
        return answered(words, read)
    except Trouble as trouble:
        return f'trouble: {trouble}\n'


if __name__ == '__main__':
    sys.stdout.buffer.write(answer(sys.argv[1:], lambda name: Path(name).read_bytes()).encode('utf-8'))
