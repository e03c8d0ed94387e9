"""Makes the files that the command `yabreznul` is tried on, the command lines, and what is told of each.

    python3 reference/view_cases.py [FOLDER]

writes into a folder, `crates/viewings` where none is named: `data/` with the files, `stdin` with a command line in each
line, and `stdout` with the answers, each behind a line `=== ` and the command line:

| command line | answer |
|---|---|
| `file TABLE [--linear K] [--staircase K] [--frame H]` | the table up to the line of rows that meet, and all leaves in hexadecimal |
| `show [--csv \\| --json] LEAF ..` | what is printed, and `status 1` where a leaf was damaged |
| `compare A B` | what is printed |
| `plot TABLE --rank R [--linear K] [--staircase K] [--frame H]` | the picture's description |
| `sheet TABLE [--linear K \\| --staircase K] [--frame H]` | the sheet in hexadecimal |
| `respond TABLE` | what is printed |
| `bench SCRIPT` | what is printed |

Of `file` and `plot` at least one bound is named, and options stand in any order. What is refused is answered by one line,
`trouble: ` and what is told. The same files come each time.

Where this file names the answer to a command line, it was taken from docs/PROGRAMS.md by hand, and the answers are
held to it. The counts of each table are held to what docs/RULES.md says of them.
"""

import sys
from pathlib import Path

sys.dont_write_bytecode = True  # leave no cache beside the sources

from chance import Source  # noqa: E402
from counts import EXACT_STEPS, check_case, exact_demand, survey, window  # noqa: E402
from leaves import HORIZON, read_leaf, write_end, write_finding, write_heading, write_leaf, write_row  # noqa: E402
from refusals import SHORT_BUFFER, SHORT_LIST, WORDS, refused  # noqa: E402
from views import (  # noqa: E402
    KINDS,
    MOST_NUMBER,
    Judged,
    Named,
    Trouble,
    answer,
    leaf_of,
    named_by,
    options_of,
    responses_of,
)

MARK = '\ufeff'  # the byte order mark

# Rows with longer windows are not held to what is said of counts, where all their instants are tried.
WIDEST = 20_000

source = Source(20_250_117)

files = {}  # the bytes of each file, by its name
expected = {}  # the answer to each command line, None where none is named here
judged_tables = []  # the frame, the rows and the accuracy of each table that is counted


# --- Files and command lines -------------------------------------------------------------------------------


def put(name, data):
    """Adds a file."""
    data = data.encode('utf-8') if isinstance(data, str) else data
    assert name not in files and not set(name) & set(' /\n\r\t') and not name.startswith('-')
    files[name] = data
    return name


def ask(line, told=None):
    """Adds a command line, maybe with what is told of it."""
    assert line not in expected and '  ' not in line and line == line.strip()
    expected[line] = told
    words = line.split(' ')
    if words[0] == 'file':
        options = options_of(words[2:])
        named = named_by(options)
        try:
            judged = Judged(files[words[1]], named, options.get('--frame'))
        except Trouble:
            return
        judged_tables.extend((judged.frame, tuple(judged.rows), accuracy) for _, accuracy in named)


def trouble(text):
    """The answer where something is refused."""
    return f'trouble: {text}\n'


def table(name, text, *options):
    """Adds a table, and its command line `file` with each of some options."""
    put(name, text)
    for option in options or ['--linear 3']:
        ask(f'file {name} {option}')


def bad(name, text, told, options='--linear 3'):
    """Adds a table that is not taken, and what is told of it."""
    put(name, text)
    ask(f'file {name} {options}', trouble(told))


def lines(*texts):
    """Lines, each with a line feed."""
    return ''.join(text + '\n' for text in texts)


def rows_text(rows, parter=',', names=None, heading='name work deadline period jitter'):
    """A table of rows under all headings, its names A1, A2, .. where no others are told."""
    names = names or [f'A{rank}' for rank in range(1, len(rows) + 1)]
    told = [heading.split(' ')] + [[name, *map(str, row)] for name, row in zip(names, rows)]
    return lines(*(parter.join(line) for line in told))


# --- Tables that are counted -------------------------------------------------------------------------------

WORKED_ROWS = [(1, 4, 4, 0), (2, 6, 6, 1), (3, 12, 12, 0)]
WORKED = lines('# three tasks', 'name,work,deadline,period,jitter', 'A,1,4,4,0', 'B,2,6,6,1', 'E,3,12,12,0')

WORKED_TOLD = """\
frame 12, linear tail of accuracy 3
rank  name  C   D   T  J  exact rest  response  slack  linear rest  gap  exact points  linear points
   1  A     1   4   4  0           1         1      3            1    0             1              1
   2  B     2   6   6  1           3         4      2            3    0             1              1
   3  E     3  12  12  0          10        10      2           11    1             4              4
utilisation 10/12, 83.33 %
3 of 3 rows meet in exact steps, 3 of 3 by the linear tail
exact leaf: 460000000C0000\
5200000001000000040000000400000000520000000200000006000000060000000152000000030000000C0000000C00000000\
410000000100000001410000000300000001410000000A000000045A00000007
linear leaf: 460000000C0103\
5200000001000000040000000400000000520000000200000006000000060000000152000000030000000C0000000C00000000\
410000000100000001410000000300000001410000000B000000045A00000007
"""

# 32 rows, as many as there may be.
PERIODS = [120, 144, 180, 240, 360, 720]
FULL_ROWS = [(3 + at % 5, PERIODS[at // 6] - 4 * (at % 6), PERIODS[at // 6], at % 7) for at in range(32)]


def forms():
    """Tables in all forms that a table may have."""
    put('worked.csv', WORKED)
    ask('file worked.csv --linear 3', WORKED_TOLD)
    for accuracy in (1, 64):
        ask(f'file worked.csv --linear {accuracy}')
    ask('file worked.csv --linear 2 --frame 16777212')
    table('worked.tsv', rows_text(WORKED_ROWS, '\t', ['first task', 'second', 'E']))
    table('worked.txt', lines(
        'name  work  deadline  period',
        'A        1         4       4',
        '  B      2         6       6  ',
        'E 3 12 12',
    ), '--linear 1')
    table('letters.csv', lines('name,C,D,T,J', 'A,1,4,4,0', 'B,2,6,6,1', 'E,3,12,12,0'))
    table('wcet.txt', lines('T  wcet  jitter  deadline', '4  1  0  4', '6  2  1  6'))
    table('order.csv', lines('period,jitter,name,deadline,work', '4,0,A,4,1', '6,1,B,6,2', '12,0,E,12,3'))
    table('bare.csv', lines('deadline,work,period', '4,1,4', '6,2,6'))
    table('jitter.txt', lines('jitter work period deadline', '1 1 4 4', '0 2 12 8'), '--linear 1')
    table('line-ends.csv', WORKED.replace('\n', '\r\n').replace('B,', '\r\n \t\r\n# B\r\nB,'))
    table('no-end-return.csv', WORKED[:-1] + '\r')
    table('returns.csv', WORKED.replace('\n', '\r').replace('tasks\r', 'tasks\n').replace('B,', '\r \t\r# B\rb\n\rB,').replace('E', '\n\r\nE'))
    table('returns.txt', '# a, b\nname work deadline period\rA,A 1 4 4\r  \n\r# b\n"B\r\t\rb" 2 6 6\rE 3 "12"\t 12')
    table('mark-comment.csv', MARK + WORKED)
    table('mark-heading.txt', MARK + lines('name work deadline period jitter', 'A 1 4 4 0'))
    table('comments.csv', lines(
        '#', '# a, b\tc "d', '', '   ', '\t', 'name,work,deadline,period', '#A,0,0,0', 'A,1,4,4', '', '##', '#B,x', 'B,2,6,6',
        '# the end',
    ))
    table('passed.csv', lines(
        ',,,,', ' ,\t', 'name,work,deadline,period', ',,,', 'A,1,4,4', '"",,,', ',', ',,,,,,', 'B,2,6,6', ' , ,\t, ', '""',
    ))
    table('passed.tsv', lines(
        '  ', '\t\t', 'name\twork\tdeadline\tperiod', '\t\t\t', 'A\t1\t4\t4', '""\t', '\t', ' \t \t ', 'B\t2\t6\t6',
    ))
    table('padding.csv', lines(
        ' name\t,\twork ,  deadline  ,period', '  A , 1 ,\t4\t,4  ', '"B, C" \t," 2"\t,"\t6 " , 6', ' D E\t,3,12,12 \t',
        ' # no comment,1,12,12', ' "F",1,12,12', '\t"G"" "" ,1,12,12',
    ))
    table('zeros.csv', lines('name,work,deadline,period,jitter', 'A,0001,04,00000000000000000004,00', f'B,2,6,6,{6000 * "0"}1'))
    table('heading.csv', lines('name,work,deadline,period,jitter'), '--linear 3', '--linear 64 --frame 12')
    table('heading-no-end.txt', '# no task\nwork period deadline')
    table('one.csv', lines('name,work,deadline,period,jitter', 'alone,5,9,10,4'), '--linear 1')
    table('commas.tsv', lines('name\twork\tdeadline\tperiod', 'A,B\t1\t4\t4', '"A\tB"\t2\t6\t6'))


def names():
    """Tables whose names are of all kinds."""
    table('quotes.csv', lines(
        '"name","work",deadline,period', '"A, the first",1,"4",4', '"the ""second""",2,6,"6"', '"",3,12,12', 'in"side,1,12,12',
        '"E" and "F" ""f""" ,"1"2,120,"1"20', '"G, ""g"""g""g,1,12,12', '""H"",1,12,12',
    ))
    table('quotes.tsv', lines('name\twork\t"deadline"\tperiod', '"A, ""a"""\t1\t4\t4', '"B\tb"\t"2"\t6\t6'))
    table('quotes.txt', lines(
        'name work deadline period', '"the first task"  1 4 4', '  "" B "  " 2 6 "6"  "\t"', '"a ""b"" c" 3 "12"   12 ',
        '  "d d"d"d 1 "1"2 12', '"" "  "', 'e"e"  "1 " " 12" "12"\t ',
    ))
    table('quoted-ends.csv', lines(
        'name,work,deadline,period', '"first', 'line",1,4,4', '"# second\r', '', '# third",2,6,6', '# a comment', 'E,3,12,12',
    ))
    table('quoted-blanks.csv', lines(
        'name,work,deadline,period', '" A\t",1,4,4', ' "  B" ,2,6,6', '"   ",3,12,12', '"\t"" "," 1","12\t",12',
    ))
    table('characters.csv', lines(
        'name,work,deadline,period', 'Rückführung,1,4,4', '制御,2,6,6', 'Δt→∞ 😀,3,12,12', 'e\u0301\u200b,1,12,12',
    ))
    table('control.csv', lines(
        'name,work,deadline,period', 'a\u0001b,1,4,4', '\u001b[1mbold\u001b[0m,2,6,6', 'tab\tin\u007f\u0085\u009f,3,12,12',
        '"\u0000",1,24,24', '\u00a0\u00ad,1,24,24',
    ))
    table('return.csv', lines('name,work,deadline,period', '"a\rb",1,4,4', '"c\rd\r\ne",2,6,6', '"f\r""\r\r"\t,3,12,12\r'))
    table('long-names.csv', lines('name,work,deadline,period', f'{300 * "x"},1,4,4', f'"{40 * "ä, "}",2,6,6', 'E,3,12,12'))
    table('empty-names.csv', lines('work,name,deadline,period', '1,,4,4', '2,B,6,6', '3, ,12,12'))
    table('no-names.tsv', lines('name\twork\tdeadline\tperiod', '\t1\t4\t4', ' \t2\t6\t6'))
    table('number-names.csv', lines('name,work,deadline,period', '7,1,4,4', '1000,2,6,6', 'seven,3,12,12'))
    table('near-numbers.csv', lines(
        'name,work,deadline,period', 'A1,1,4,4', '3.5,2,6,6', '-,3,12,12', '+1000,1,12,12', 'misses,1,24,24', '-2,1,24,24',
    ))
    table('bytes-comment.csv', b'# \xff\xfe\nwork,deadline,period\n#\xc3\n1,4,4\n')


def counted():
    """Tables whose rows meet and miss by each count, with long windows and many rows."""
    table('full.csv', rows_text(FULL_ROWS), '--linear 64', '--linear 5 --frame 1440')
    table('full-passed.csv', rows_text(FULL_ROWS) + ',,,,\n\n# no more\n"" , , ,"  " ,\t\n" ",\n', '--linear 2')
    table('tail-misses.csv', rows_text(
        [(2, 5, 5, 0), (2, 7, 7, 0), (3, 35, 35, 14), (1, 35, 35, 0)]
    ), '--linear 1', '--linear 7')
    table('both-miss.csv', rows_text(
        [(2, 4, 4, 0), (3, 6, 6, 0), (1, 3, 12, 0), (5, 12, 12, 2), (1, 12, 12, 0)]
    ), '--linear 4')
    table('jitters.csv', rows_text(
        [(1, 6, 6, 5), (1, 8, 8, 6), (2, 12, 12, 3), (3, 24, 24, 10), (1, 24, 24, 0)]
    ), '--linear 2')
    table('long-windows.csv', rows_text([
        (3, 10, 10, 2), (200, 1000, 1000, 60), (4000, 50_000, 50_000, 700), (60_000, 300_000, 1_000_000, 100_000),
    ]), '--linear 1')
    table('long-misses.tsv', rows_text(
        [(70, 100, 100, 0), (900, 3000, 3000, 10), (3, 60_000, 60_000, 0)], '\t'
    ), '--linear 8')
    table('primes.csv', lines('work,deadline,period', '1000,4093,4093', '1500,4000,4099'), '--linear 2')
    table('common.csv', lines('work,deadline,period', '7,4095,4095', '9,4096,4096', '11,80,4095'), '--linear 1')
    table('horizon.csv', rows_text([
        (1, 2, 2, 0), (5, 16_777_216, 16_777_216, 0), (3, 16_777_216, 16_777_216, 16_777_000), (1, 1024, 65_536, 3),
    ]), '--linear 4')
    table('hundredths.csv', lines('work,deadline,period', '1,20000,20000'), '--linear 1', '--linear 1 --frame 60000')
    table('hundredths-below.csv', lines('work,deadline,period', '1,20001,20001', '2,20001,20001', '3333,10000,20001'))
    table('hundredths-above.csv', lines('work,deadline,period', '1,1,1', '1,20000,20000', '19999,19999,20000'))
    table('whole.csv', lines('work,deadline,period,jitter', '1,2,2,0', '1,2,2,0', '1,2,2,1'))


def random_tables():
    """Tables made by chance: 2 to 12 rows, in all forms."""
    for number, count in enumerate([7, *range(2, 13)], 1):
        accuracy = source.between(1, 9)
        _, periods = source.frame_and_periods(count, 5000)
        rows = source.table(count, periods, source.utilisation(accuracy))
        parter = [',', '\t', '  '][number % 3]
        name = f'chance-{number:02}.' + ['csv', 'tsv', 'txt'][number % 3]
        table(name, rows_text(rows, parter), f'--linear {accuracy}')


# --- Tables whose text is not taken ------------------------------------------------------------------------

HEADING = 'name,work,deadline,period,jitter'
A_NUMBER = 'expected a number from 0 to 4294967295'
A_HEADING = 'expected name, work (wcet, C), deadline (D), period (T) or jitter (J)'
NO_TEXT = 'bytes that are no text stand there, expected UTF-8'


def nothing(line):
    """What is told where there is no heading."""
    return f'line {line}: nothing stands there, expected a heading with work, deadline and period'


def bad_headings():
    """No heading, or one that is not taken."""
    bad('empty.csv', '', nothing(1))
    bad('only-comments.csv', '# a\n# b\n', nothing(3))
    bad('only-comments-no-end.csv', '# a\n# b', nothing(3))
    bad('only-blank.txt', '\n  \n\t\r\n', nothing(4))
    bad('only-commas.csv', '# a\n,,\n"", \n', nothing(4))
    bad('h-unknown.csv', '# foo\nname,foo,deadline,period\n', f'line 2, field 2: "foo" stands there, {A_HEADING}')
    bad('h-control.csv', 'work,"a\u0001\nb",period\n', f'line 1, field 2: "a??b" stands there, {A_HEADING}')
    bad('h-empty.csv', 'work,deadline,,period\n1,4,,4\n', f'line 1, field 3: "" stands there, {A_HEADING}')
    bad('h-again.csv', '# a\nwork,work,foo\n', 'line 2, field 2: "work" stands there again, expected each heading once')
    bad('h-no-period.csv', '# a\nname,work,deadline,jitter\nA,x\n',
        'line 2: no heading period stands there, expected work, deadline and period')
    bad('h-no-deadline.txt', 'jitter work\n', 'line 1: no heading deadline stands there, expected work, deadline and period')
    bad('h-none.csv', 'jitter,name\n1,\n', 'line 1: no heading work stands there, expected work, deadline and period')
    bad('h-order.csv', 'name,period,x,y\n', f'line 1, field 3: "x" stands there, {A_HEADING}')
    bad('h-bytes.csv', b'#\nname,w\xf6rk,name,foo\n', f'line 2, field 2: {NO_TEXT}')
    bad('h-mark-comment.csv', MARK + '#\nfoo', f'line 2, field 1: "foo" stands there, {A_HEADING}')
    bad('h-mark-lines.csv', MARK + '\r\n\n# a\rb,c\n\rC,D,x\n', f'line 6, field 3: "x" stands there, {A_HEADING}')
    bad('h-marks.csv', MARK + MARK + 'work,deadline,period\n', f'line 1, field 1: "{MARK}work" stands there, {A_HEADING}')
    bad('h-mark-alone.csv', MARK, nothing(1))
    bad('h-mark-end.csv', MARK + '# a', nothing(2))
    bad('h-letter-again.csv', 'C,D,T,work\n', 'line 1, field 4: "work" stands there again, expected each heading once')
    bad('h-wcet-again.csv', 'work,D,wcet,T\n', 'line 1, field 3: "wcet" stands there again, expected each heading once')
    bad('h-small-letter.csv', 'C,d,T\n', f'line 1, field 2: "d" stands there, {A_HEADING}')
    bad('h-letters.csv', '# a\nC,T,J\n', 'line 2: no heading deadline stands there, expected work, deadline and period')
    bad('h-bytes-later.csv', b'Work,\xff,name,name\n', f'line 1, field 1: "Work" stands there, {A_HEADING}')
    bad('h-again-later.tsv', b'name\tperiod\tname\t\xff\n', 'line 1, field 3: "name" stands there again, expected each heading once')
    bad('h-long.csv', f'work,"  {41 * "h"}",period\n', f'line 1, field 2: "{40 * "h"}.." stands there, {A_HEADING}')
    bad('h-quote.csv', 'name, "work",deadline,period\n', f'line 1, field 2: ""work"" stands there, {A_HEADING}')
    bad('h-return.txt', '# a\rb\nwork\rdeadline period\n', 'line 3: no heading deadline stands there, expected work, deadline and period')


def bad_fields():
    """Too few fields, too many, and the order in which troubles are told."""
    bad('f-few.csv', f'{HEADING}\nA,1,4,4,0\n\nB,2,6\n', 'line 4: 3 fields stand there, expected 5')
    bad('f-many.tsv', 'work\tdeadline\tperiod\n1\t4\t4\t\n', 'line 2: 4 fields stand there, expected 3')
    bad('f-first.csv', f'{HEADING}\nA,x,-,4\n', 'line 2: 4 fields stand there, expected 5')
    bad('f-tabs.txt', 'name work deadline period\nA\t1\t4\t4\n', 'line 2: 1 fields stand there, expected 4')
    bad('f-lines.csv', f'{HEADING}\nA,1,4,4,y\nB,2\n', f'line 2, field 5 (jitter): "y" stands there, {A_NUMBER}')
    bad('f-return.csv', f'{HEADING}\r# a\rA,1,4,4,0\n\rB,2,6,6\r\n', 'line 5: 4 fields stand there, expected 5')
    bad('f-return-in.csv', f'{HEADING}\r\nA\r,1,4,4,0\n', 'line 2: 1 fields stand there, expected 5')
    bad('f-return-left.csv', f'{HEADING}\rA,1,4,4,0\r"\r\n",1,x,y,z\r', f'line 3, field 3 (deadline): "x" stands there, {A_NUMBER}')
    bad('f-blank-quote.csv', f'{HEADING}\n "A, B",1,4,4,0\n', 'line 2: 6 fields stand there, expected 5')
    bad('f-tab-quote.txt', 'name work deadline period\n\t"A b" 1 4 4\n', 'line 2: 5 fields stand there, expected 4')
    bad('f-no-name.txt', 'name work deadline period\n"" 1 4 "4"\n', 'line 2: 3 fields stand there, expected 4')
    bad('f-text-first.csv', f'{HEADING}\nA,0,4,4,0\nB,1,4,4,?\n', f'line 3, field 5 (jitter): "?" stands there, {A_NUMBER}',
        '--linear 0 --frame 0')
    bad('f-open-quote.csv', f'{HEADING}\nA,1,4,4,0\n"B,2,6,6,0\nE,3,12,12,0\n', 'line 3: 1 fields stand there, expected 5')
    bad('f-quoted-ends.csv', f'{HEADING}\n"A\nB\r\n\n",1,4,4,0\n# a\n"C\n",1,4,4\n', 'line 7: 4 fields stand there, expected 5')
    bad('f-quoted-number.csv', f'# a\n{HEADING}\n"A\n# b\n",x,4,4,0\n', f'line 3, field 2 (work): "x" stands there, {A_NUMBER}')
    bad('f-mark.csv', MARK + f'# a\n\n{HEADING}\nA,1,4,4,0\n"B\n",2,6,6,x\n',
        f'line 5, field 5 (jitter): "x" stands there, {A_NUMBER}')
    bad('f-letter.csv', 'C,D,T\n1,4,4\n2,x,6\n', f'line 3, field 2 (deadline): "x" stands there, {A_NUMBER}')
    bad('f-33.csv', '# a\n\n' + rows_text(FULL_ROWS + [(1, 720, 720, 0)]),
        'line 36: a task more stands there, expected at most 32: refused 9 full table')
    bad('f-33-few.csv', rows_text(FULL_ROWS) + ',,,,\n"  "\nx,1\n',
        'line 36: a task more stands there, expected at most 32: refused 9 full table')
    bad('f-33-many.txt', rows_text(FULL_ROWS, ' ') + '""  "\t"\nx 1 4 4 0 0\n',
        'line 35: a task more stands there, expected at most 32: refused 9 full table')
    bad('f-33-word.csv', rows_text(FULL_ROWS).encode('ascii') + b'\xe4,y,1,1,1\n',
        'line 34: a task more stands there, expected at most 32: refused 9 full table', '--linear 0')


def bad_numbers():
    """What is no number, in all columns."""
    texts = {
        '-3': '-3', '+3': '+3', '3 4': '3 4', '': '', '٣': '٣', '3\u00a0': '3\u00a0',
        '3\u0000': '3?', '" 3\n"': '3?', '3""': '3""', ' "3"': '"3"', '"3" "4"': '3 "4"', '"   "': '', '" 3\t"\tx ': '3??x',
        f'"  {40 * "ä"} "': 40 * 'ä', f'{39 * "ä"}\u001f9': f'{39 * "ä"}?..', f' {41 * "-"} ': f'{40 * "-"}..',
        '\u009f\u007f': '\u009f?', 1000 * 'long ': 8 * 'long ' + '..',
    }
    for number, (text, told) in enumerate(texts.items(), 1):
        at = number % 4
        fields = ['1', '4', '4', '0']
        fields[at] = text
        heading = ['work', 'deadline', 'period', 'jitter'][at]
        bad(f'n-{number:02}.csv', f'{HEADING}\n# number\nA,{",".join(fields)}\n',
            f'line 3, field {at + 2} ({heading}): "{told}" stands there, {A_NUMBER}')


def large_numbers():
    """Whole numbers that are too large, with a refusal and without."""
    large, larger, digits, cut = '4294967296', '99999999999', 6000 * '9', 40 * '9' + '..'
    seven, six, five = ': refused 7 long period', ': refused 6 late deadline', ': refused 5 no window'
    order = 'jitter,period,deadline,work'
    cases = [
        (HEADING, f'A,1,4,{large},x', 4, 'period', large, seven),
        (HEADING, f'A,1,4,000{large},{large}', 4, 'period', f'000{large}', seven),
        (HEADING, f'A,1,{large},{MOST_NUMBER},0', 3, 'deadline', large, six),
        (HEADING, f'A,1,{digits},0,0', 3, 'deadline', cut, six),
        (HEADING, f'A,1,{large},{large},0', 3, 'deadline', large, ''),
        (HEADING, f'A,1,{large},x,0', 3, 'deadline', large, ''),
        (HEADING, f'A,{large},4,4,0', 2, 'work', large, five),
        (HEADING, f'A,{larger},{MOST_NUMBER},x,0', 2, 'work', larger, five),
        (HEADING, f'A,{large},{large},4,0', 2, 'work', large, ''),
        (HEADING, f'A,1,4,4,{large}', 5, 'jitter', large, five),
        (order, f'{large},4,{large},1', 1, 'jitter', large, ''),
    ]
    for number, (heading, line, field, column, text, refusal) in enumerate(cases, 1):
        bad(f'l-{number:02}.csv', f'{heading}\n{line}\n',
            f'line 2, field {field} ({column}): "{text}" stands there, {A_NUMBER}{refusal}')


def bad_bytes():
    """Bytes that are no text."""
    bad('b-name.csv', b'# \xe4\n\nname,work,deadline,period\n\xe4,1,4,4\n', f'line 4, field 1 (name): {NO_TEXT}')
    bad('b-quoted.csv', b'work,deadline,period,name\n1,4,4,"a,\n\xc3"\n', f'line 2, field 4 (name): {NO_TEXT}')
    bad('b-number.csv', b'# a\nwork,deadline,period\n1,4\xff,4\n', f'line 3, field 2 (deadline): {NO_TEXT}')
    bad('b-numbers.csv', b'J,T,D,C\n\xc3\xa4,4,\x80,\x80\n',
        f'line 2, field 1 (jitter): "\u00e4" stands there, {A_NUMBER}')
    bad('b-long.csv', b'work,deadline,period\n1,4,' + 60 * b'9' + b'\xed\xa0\x80\n',
        f'line 2, field 3 (period): {NO_TEXT}')
    bad('b-later.csv', b'name,work,deadline,period\nA,x,4,\xc0\x80\n', f'line 2, field 2 (work): "x" stands there, {A_NUMBER}')
    bad('b-few.csv', b'name,work,deadline,period\nA,\xf5,4\n', 'line 2: 3 fields stand there, expected 4')


# --- Tables that are refused -------------------------------------------------------------------------------


def refused_tables():
    """The refusals 4 to 8 of a table that was read, and their order."""
    good = [(1, 4, 4, 0), (1, 6, 6, 0), (1, 12, 12, 0), (1, 12, 12, 3)]

    def with_row(rank, *row):
        return rows_text(good[:rank - 1] + [row] + good[rank:])

    bad('r-idle-3.csv', '\n' + with_row(3, 0, 0, 0, 9),
        'line 5, field 2 (work): 0 stands there, expected at least 1: refused 4 idle row at rank 3')
    bad('r-window.csv', with_row(1, 5, 6, 6, 2),
        'line 2, field 2 (work): 5 stands there, expected at most 4, the deadline 6 less the jitter 2: refused 5 no window at rank 1')
    bad('r-window-below.csv', with_row(1, 5, 6, 6, 9),
        'line 2, field 2 (work): 5 stands there, expected a work of at least 1 that fits: the deadline 6 is below the jitter 9: '
        'refused 5 no window at rank 1')
    bad('r-window-none.csv', with_row(4, 1, 6, 6, 6),
        'line 5, field 2 (work): 1 stands there, expected a work of at least 1 that fits: the jitter 6 leaves none of the '
        'deadline 6: refused 5 no window at rank 4')
    bad('r-window-plain.txt', 'period work deadline\n12 00013 0012\n',
        'line 2, field 2 (work): 13 stands there, expected at most 12, the deadline 12 less the jitter 0: refused 5 no window at rank 1')
    bad('r-window-sum.csv', with_row(2, MOST_NUMBER, MOST_NUMBER, MOST_NUMBER, MOST_NUMBER),
        f'line 3, field 2 (work): {MOST_NUMBER} stands there, expected a work of at least 1 that fits: the jitter '
        f'{MOST_NUMBER} leaves none of the deadline {MOST_NUMBER}: refused 5 no window at rank 2')
    bad('r-late.csv', with_row(1, 2, 7, 6, 0),
        'line 2, field 3 (deadline): 7 stands there, expected at most the period 6: refused 6 late deadline at rank 1')
    bad('r-late-3.tsv', 'deadline\tperiod\twork\n4\t4\t1\n\n6\t6\t1\n4294967295\t0\t1\n',
        'line 5, field 1 (deadline): 4294967295 stands there, expected at most the period 0: refused 6 late deadline at rank 3')
    bad('r-long.csv', with_row(1, 1, 4, 16_777_217, 0),
        'line 2, field 4 (period): 16777217 stands there, expected at most 16777216: refused 7 long period at rank 1')
    bad('r-off-4.csv', lines('period,deadline,work', '', '4,4,1', '6,6,1', '12,12,1', '24,12,1', '5,5,1'),
        'line 6, field 1 (period): 24 stands there, expected a divisor of the frame: refused 8 off frame at rank 4', '--linear 3 --frame 12')
    bad('r-return.csv', 'work,deadline,period\r1,4,4\r\n2,6,6\r0,1,1\n',
        'line 4, field 1 (work): 0 stands there, expected at least 1: refused 4 idle row at rank 3')
    bad('r-multiple.csv', lines('work,deadline,period', '1,10,4099', '1,10,4111'),
        'refused 1 bad frame: the periods have no common multiple up to 16777216')

    # One with all flaws, and then always without the one that was told.
    flaws = [
        (1, 4, 7, 0), (1, 4, 11, 0), (1, 4, 16_777_217, 0), (1, 4, 16_777_218, 0), (2, 9, 8, 0), (2, 10, 8, 0), (3, 4, 4, 2),
        (3, 4, 4, 3), (0, 0, 0, 1), (0, 4, 4, 0),
    ]
    told = [
        'line 10, field 2 (work): 0 stands there, expected at least 1: refused 4 idle row at rank 9',
        'line 8, field 2 (work): 3 stands there, expected at most 2, the deadline 4 less the jitter 2: refused 5 no window at rank 7',
        'line 6, field 3 (deadline): 9 stands there, expected at most the period 8: refused 6 late deadline at rank 5',
        'line 4, field 4 (period): 16777217 stands there, expected at most 16777216: refused 7 long period at rank 3',
        'line 2, field 4 (period): 7 stands there, expected a divisor of the frame: refused 8 off frame at rank 1',
    ]
    for number, text in enumerate(told):
        bad(f'r-order-{number}.csv', rows_text(flaws[:10 - 2 * number]), text, '--linear 3 --frame 16')

    # A refusal of a table comes before that its periods have no common multiple.
    bad('r-order-multiple.csv', lines('work,deadline,period', '1,10,4099', '1,10,4111', '0,10,10'),
        'line 4, field 1 (work): 0 stands there, expected at least 1: refused 4 idle row at rank 3')


BAD_FRAME = trouble('refused 1 bad frame: expected --frame from 1 to 16777216')
BAD_ACCURACY = trouble('refused 3 bad accuracy: expected --linear from 1 to 64')
NO_RANK = trouble('refused 10 no rank: expected --rank from 1 to 3')
NO_ROW = trouble('refused 10 no rank: the table has no row')
NO_MULTIPLE = trouble('refused 1 bad frame: the periods have no common multiple up to 16777216')


def refused_options():
    """Frames and accuracies that are refused, and the order."""
    for frame in (0, 16_777_217):
        ask(f'file worked.csv --linear 3 --frame {frame}', BAD_FRAME)
    for accuracy in (0, 65):
        ask(f'file worked.csv --linear {accuracy}', BAD_ACCURACY)
    ask('file worked.csv --linear 0 --frame 0', BAD_FRAME)
    ask('file worked.csv --linear 0 --frame 10', BAD_ACCURACY)
    ask('file worked.csv --linear 3 --frame 16', trouble(
        'line 4, field 4 (period): 6 stands there, expected a divisor of the frame: refused 8 off frame at rank 2'))
    ask('file r-idle-3.csv --linear 3 --frame 16777217', BAD_FRAME)
    ask('file r-multiple.csv --linear 0', BAD_ACCURACY)
    ask('file r-multiple.csv --linear 3 --frame 4099', trouble(
        'line 3, field 3 (period): 4111 stands there, expected a divisor of the frame: refused 8 off frame at rank 2'))
    ask('file empty.csv --linear 0 --frame 0', trouble(nothing(1)))


def thinned_plots():
    """Windows that are thinned to columns of ceiling(window / 720) ticks: of 720 ticks a column has one, of 721 two.

    Above the row stands one of period 1, each of whose releases in the window is a test point by a tail that is accurate
    enough; of 64 of them the last is at 63.
    """
    for window_told, columns in [(720, 63), (721, 32), (1440, 32), (1441, 21)]:
        put(f'column-{window_told}.csv', lines('C,D,T', '1,1,1', f'1,{window_told},{window_told}'))
        # Of the first 63 instants the first in each column is drawn, and the end of the window.
        ask(f'plot column-{window_told}.csv --rank 2 --linear 64', f'rank 2; window {window_told}; '
            f'exact misses points {window_told}; linear-64 misses points 64; '
            f'drawn {columns + 1} of 64 test points by the tail\n')


def plots():
    """The descriptions of pictures."""
    ask('plot worked.csv --rank 3 --linear 3', 'rank 3; window 12; exact rest 10 points 4; linear-3 rest 11 points 4; '
        'drawn 5 of 5 test points by the tail\n')
    ask('plot worked.csv --rank 3 --linear 1', 'rank 3; window 12; exact rest 10 points 4; linear-1 misses points 1; '
        'drawn 1 of 1 test points by the tail\n')
    ask('plot worked.csv --rank 2 --linear 1 --frame 24', 'rank 2; window 5; exact rest 3 points 1; '
        'linear-1 rest 4 points 1; drawn 1 of 1 test points by the tail\n')
    thinned_plots()
    for line in [
        'both-miss.csv --rank 3 --linear 4', 'tail-misses.csv --rank 3 --linear 2', 'full.csv --rank 32 --linear 5',
        'long-windows.csv --rank 4 --linear 9',
        'horizon.csv --rank 4 --linear 2', 'chance-12.csv --rank 12 --linear 3',
    ]:
        ask(f'plot {line}')
    for rank in (0, 4):
        ask(f'plot worked.csv --rank {rank} --linear 3', NO_RANK)
    ask('plot heading.csv --rank 1 --linear 3', NO_ROW)
    ask('plot worked.csv --rank 0 --linear 0 --frame 0', BAD_FRAME)
    ask('plot worked.csv --rank 4 --linear 65', BAD_ACCURACY)
    ask('plot worked.csv --rank 4 --linear 3 --frame 18', trouble(
        'line 3, field 4 (period): 4 stands there, expected a divisor of the frame: refused 8 off frame at rank 1'))
    ask('plot r-multiple.csv --rank 3 --linear 3', NO_MULTIPLE)
    ask('plot f-few.csv --rank 1 --linear 3', trouble('line 4: 3 fields stand there, expected 5'))


def sheets():
    """Sheets by both bounds."""
    head, rows = '460000000C', ''.join(write_row(*row).hex().upper() for row in WORKED_ROWS)
    ask('sheet worked.csv --linear 3', f'sheet: {head}0103{rows}\n')
    ask('sheet worked.csv', f'sheet: {head}0000{rows}\n')
    ask('sheet worked.txt --linear 64')
    ask('sheet heading.csv', 'sheet: 46000000010000\n')
    ask('sheet heading.csv --linear 1 --frame 16777216', 'sheet: 46010000000101\n')
    ask('sheet full.csv --linear 64 --frame 1440')
    ask('sheet worked.csv --linear 0', BAD_ACCURACY)
    ask('sheet worked.csv --linear 65 --frame 0', BAD_FRAME)
    ask('sheet worked.csv --frame 10 --linear 3', trouble(
        'line 3, field 4 (period): 4 stands there, expected a divisor of the frame: refused 8 off frame at rank 1'))
    ask('sheet r-idle-3.csv', trouble('line 5, field 2 (work): 0 stands there, expected at least 1: refused 4 idle row at rank 3'))
    ask('sheet empty.csv', trouble(nothing(1)))


RESPOND_TOLD = """\
rank  name  C   D   T  J  response  slack
   1  A     1   4   4  0         1      3
   2  B     2   6   6  1         4      2
   3  E     3  12  12  0        10      2
3 of 3 rows meet in exact steps
"""

# Rows whose periods have no common multiple up to 16,777,216. Counted by hand: C would rest at 10, past its window; D rests
# just before A asks for its second work, and E only behind that, at its deadline.
NO_FRAME_ROWS = [(3, 10, 4099, 4), (5, 4096, 4111, 8), (2, 9, HORIZON, 0), (4085, HORIZON, HORIZON, 1), (1, 4099, 5000, 0)]

NO_FRAME_TOLD = """\
rank  name     C         D         T  J  response     slack
   1  A        3        10      4099  4         7         3
   2  B        5      4096      4111  8        16      4080
   3  C        2         9  16777216  0    misses         -
   4  D     4085  16777216  16777216  1      4096  16773120
   5  E        1      4099      5000  0      4099         0
4 of 5 rows meet in exact steps
"""


def climbed(row, above):
    """The least instant up to the window at which the exact demand is that instant, or None: from demand to demand."""
    instant = row[0]
    while instant <= window(row):
        total = exact_demand(row, above, instant)
        if total == instant:
            return instant
        instant = total
    return None


def check_responses(name):
    """Holds the response times of a table to the least fixed points of the exact demand, where it is not refused."""
    try:
        tasks, responses = responses_of(files[name])
    except Trouble:
        return
    rows = [task.numbers for task in tasks]
    for at, (row, response) in enumerate(zip(rows, responses)):
        rest = climbed(row, rows[:at])
        assert response == (None if rest is None else rest + row[3]), (name, at)


def respond(name, told=None):
    """Adds a command line `respond`, maybe with what is told of its table."""
    ask(f'respond {name}', told)
    check_responses(name)


def responds():
    """Response times, of tables with a common multiple of the periods and with none."""
    respond('worked.csv', RESPOND_TOLD)
    put('no-frame.csv', rows_text(NO_FRAME_ROWS, names=list('ABCDE')))
    respond('no-frame.csv', NO_FRAME_TOLD)
    ask('sheet no-frame.csv', NO_MULTIPLE)
    respond('r-multiple.csv', """\
rank  name  C   D     T  J  response  slack
   1  -     1  10  4099  0         1      9
   2  -     1  10  4111  0         2      8
2 of 2 rows meet in exact steps
""")
    respond('heading.csv', 'rank  name  C  D  T  J  response  slack\n0 of 0 rows meet in exact steps\n')
    put('no-frame-jitters.tsv', rows_text([
        (1, 7, 7, 6), (2, 11, 11, 3), (3, 101, 101, 20), (5, 1009, 1009, 400), (9, 20, 4001, 0), (700, 16_777_213, 16_777_213, 5000),
        (40, 50_000, 16_777_199, 0), (90_000, 16_000_000, HORIZON, 7_000_000), (8, 90, 5003, 17),
    ], '\t'))
    respond('no-frame-jitters.tsv')
    for name in [
        'worked.tsv', 'worked.txt', 'letters.csv', 'wcet.txt', 'order.csv', 'bare.csv', 'jitter.txt', 'one.csv', 'heading-no-end.txt',
        'quotes.csv', 'characters.csv', 'control.csv', 'long-names.csv', 'no-names.tsv', 'near-numbers.csv',
        'full.csv', 'full-passed.csv', 'tail-misses.csv', 'both-miss.csv', 'jitters.csv', 'long-windows.csv', 'long-misses.tsv',
        'primes.csv', 'common.csv', 'horizon.csv', 'whole.csv', 'r-off-4.csv', 'r-order-4.csv', 'chance-01.tsv', 'chance-08.txt',
        'chance-12.csv',
    ]:
        respond(name)
    for name in [
        'empty.csv', 'only-commas.csv', 'h-unknown.csv', 'h-no-period.csv', 'f-few.csv', 'f-lines.csv', 'f-33.csv', 'n-01.csv',
        'l-01.csv', 'l-04.csv', 'l-10.csv', 'b-name.csv', 'r-idle-3.csv', 'r-window.csv', 'r-window-below.csv', 'r-window-none.csv',
        'r-window-sum.csv', 'r-late.csv', 'r-late-3.tsv', 'r-long.csv', 'r-order-multiple.csv',
    ]:
        respond(name, expected[f'file {name} --linear 3'])
    for number in range(4):
        respond(f'r-order-{number}.csv', expected[f'file r-order-{number}.csv --linear 3 --frame 16'])


# --- Leaves ------------------------------------------------------------------------------------------------


LINEAR, STAIRCASE = KINDS


def leaf(name, rows, accuracy, frame, kind=LINEAR):
    """Adds the leaf of a survey, in exact steps where the accuracy is 0, else by the linear tail or another kind."""
    named = Named(kind, accuracy) if accuracy else None
    bound = named.bound if named else EXACT_STEPS
    return put(name, leaf_of(frame, named, rows, survey(frame, bound, rows)))


def by_hand(name, rows, findings, accuracy=0, frame=12, kind=LINEAR):
    """Adds a leaf with findings told by hand, which need not be those of its rows."""
    return put(name, write_leaf(frame, kind.number if accuracy else 0, accuracy, rows, findings))


def rows_of(name):
    """The rows of a table that was added, and its frame."""
    judged = Judged(files[name])
    return judged.rows, judged.frame


LINEAR_3_TOLD = """\
worked.linear-3.leaf: linear tail of accuracy 3, frame 12, 3 rows
rank  work  deadline  period  jitter  first rest  response  points
   1     1         4       4       0           1         1       1
   2     2         6       6       1           3         4       1
   3     3        12      12       0          11        11       4
"""

EXACT_TOLD = """\
worked.exact.leaf: exact steps, frame 12, 3 rows
rank  work  deadline  period  jitter  first rest  response  points
   1     1         4       4       0           1         1       1
   2     2         6       6       1           3         4       1
   3     3        12      12       0          10        10       4
"""

EARLIER_TOLD = """\
A: later.leaf, linear tail of accuracy 3
B: earlier.leaf, exact steps
frame 12, 3 rows
rank  work  deadline  period  jitter    A rest  B rest  B later by    A points  B points  verdicts
   1     1         4       4       0         5       1  -4                   2         1  same
   2     2         6       6       1  16777216       2  -16777214   4294967295         1  same
   3     3        12      12       0        12       1  -11                  5         9  same
the verdicts part nowhere
"""

NOT_LATER_TOLD = """\
A: worked.exact.leaf, exact steps
B: earlier.leaf, exact steps
frame 12, 3 rows
rank  work  deadline  period  jitter  A rest  B rest  B later by  A points  B points  verdicts
   1     1         4       4       0       1       1           0         1         1  same
   2     2         6       6       1       3       2          -1         1         1  same
   3     3        12      12       0      10       1          -9         4         9  same
the verdicts part nowhere
"""

PART_EARLIER_TOLD = """\
A: later.leaf, linear tail of accuracy 3
B: misses-1.leaf, linear tail of accuracy 64
frame 12, 3 rows
rank  work  deadline  period  jitter    A rest  B rest  B later by    A points  B points  verdicts
   1     1         4       4       0         5  misses  -                    2         1  part
   2     2         6       6       1  16777216       3  -16777213   4294967295         1  same
   3     3        12      12       0        12  misses  -                    5         4  part
the verdicts part at ranks 1, 3
"""

COMPARE_TOLD = """\
A: worked.exact.leaf, exact steps
B: worked.linear-1.leaf, linear tail of accuracy 1
frame 12, 3 rows
rank  work  deadline  period  jitter  A rest  B rest  B later by  A points  B points  verdicts
   1     1         4       4       0       1       1           0         1         1  same
   2     2         6       6       1       3       4           1         1         1  same
   3     3        12      12       0      10  misses           -         4         1  part
the verdicts part at rank 3
"""


def good_leaves():
    """Leaves that are read."""
    leaf('worked.exact.leaf', WORKED_ROWS, 0, 12)
    for accuracy in (1, 2, 3, 64):
        leaf(f'worked.linear-{accuracy}.leaf', WORKED_ROWS, accuracy, 12)
    leaf('none.exact.leaf', [], 0, 1)
    leaf('none.linear-7.leaf', [], 7, HORIZON)
    leaf('one.leaf', [(5, 9, 10, 4)], 1, 10)
    leaf('full.exact.leaf', FULL_ROWS, 0, 720)
    leaf('full.linear-64.leaf', FULL_ROWS, 64, 720)
    leaf('full.linear-1.leaf', FULL_ROWS, 1, 720)
    for name in ('both-miss', 'tail-misses', 'jitters', 'horizon'):
        rows, frame = rows_of(f'{name}.csv')
        leaf(f'{name}.exact.leaf', rows, 0, frame)
        leaf(f'{name}.linear-2.leaf', rows, 2, frame)
    rows, frame = rows_of('chance-09.csv')
    leaf('chance-09.exact.leaf', rows, 0, frame)
    leaf('chance-09.linear-1.leaf', rows, 1, frame)
    leaf('frame-24.leaf', WORKED_ROWS, 0, 24)
    leaf('two-rows.leaf', WORKED_ROWS[:2], 0, 12)
    leaf('other-jitter.leaf', [WORKED_ROWS[0], (2, 6, 6, 0), WORKED_ROWS[2]], 0, 12)
    leaf('other-rows.leaf', [(1, 3, 3, 0), (2, 6, 6, 0), WORKED_ROWS[2]], 0, 12)
    leaf('other-all.leaf', [(1, 4, 4, 0), (2, 8, 8, 0)], 0, 24)
    by_hand('earlier.leaf', WORKED_ROWS, [(1, 1), (2, 1), (1, 9)])
    by_hand('later.leaf', WORKED_ROWS, [(5, 2), (16_777_216, MOST_NUMBER), (12, 5)], 3)
    by_hand('misses.leaf', WORKED_ROWS, [(0, 1), (0, 2), (0, 3)])
    by_hand('misses-1.leaf', WORKED_ROWS, [(0, 1), (3, 1), (0, 4)], 64)
    by_hand('far.leaf', [(1, HORIZON, HORIZON, HORIZON - 1)], [(HORIZON, MOST_NUMBER)], 64, HORIZON)
    put('komma,"blätter".leaf', files['worked.exact.leaf'])
    put('control\x01\x7f.leaf', files['worked.exact.leaf'])
    put('d13-control\x01\x7f.leaf', files['worked.exact.leaf'][:-1])


def damaged_leaves():
    """Leaves with every refusal that reading gives, by number."""
    whole = files['worked.linear-3.leaf']
    row, finding = write_row(1, 4, 4, 0), write_finding(1, 1)
    full = b''.join(write_row(*numbers) for numbers in FULL_ROWS)
    exact = write_heading(12, 0, 0)

    def changed(at, *values):
        return whole[:at] + bytes(values) + whole[at + len(values):]

    damaged = {
        '01-zero': write_heading(0, 0, 0) + write_end(1),
        '01-large': write_heading(HORIZON + 1, 9, 9),
        '03-exact': write_heading(12, 0, 1) + write_end(1),
        '03-zero': changed(6, 0),
        '03-large': changed(6, 65),
        '04': changed(24 + 1, 0, 0, 0, 0),
        '05': changed(58, 0x52),
        '05-sum': exact + write_row(MOST_NUMBER, MOST_NUMBER, MOST_NUMBER, MOST_NUMBER),
        '06': changed(41 + 8, 13),
        '07': exact + write_row(1, 4, HORIZON + 1, 0) + finding + write_end(3),
        '08': changed(4, 10),
        '09': write_heading(720, 0, 0) + full + row + b'A',
        '09-letter': write_heading(720, 1, 64) + full + b'R',
        '13-empty': b'',
        '13-letter': b'F',
        '13-heading': whole[:6],
        '13-no-end': whole[:7],
        '13-row': whole[:30],
        '13-rows': whole[:58],
        '13-finding': whole[:75],
        '13-findings': whole[:85],
        '13-end': whole[:89],
        '14-zero': b'\x00',
        '14-small': b'f' + whole[1:],
        '14-row': changed(41, 0xff),
        '14-text': b'name,work,deadline,period\n',
        '15-row': b'R',
        '15-end': b'Z' + whole,
        '15-heading': exact + exact,
        '15-late-row': exact + row + finding + row,
        '16-finding': exact + finding,
        '16-early-end': exact + row + row + finding + write_end(4),
        '16-second': exact + row + finding + finding + write_end(4),
        '16-number': changed(89, 6),
        '17-points': changed(58 + 8, 0),
        '17-rest': changed(67 + 1, 1, 0, 0, 1),
        '18': whole + b'\x00',
        '18-leaf': whole + whole,
        '20': changed(5, 3),
    }
    for name, data in damaged.items():
        put(f'd{name}.leaf', data)
        answer_to = read_leaf(data)
        assert answer_to[0] == 'refused' and answer_to[1] == int(name[:2]), f'{name}: {answer_to}'
    return [f'd{name}.leaf' for name in damaged]


def shows():
    """What leaves hold, for people and for programs."""
    good_leaves()
    damaged = damaged_leaves()
    ask('show worked.linear-3.leaf', LINEAR_3_TOLD)
    ask('show worked.linear-3.leaf worked.exact.leaf', LINEAR_3_TOLD + '\n' + EXACT_TOLD)
    ask('show d13-end.leaf',
        'd13-end.leaf: refused 13 cut leaf at byte 89, around it 00 00 00 04 5a 00 00 00 []\nstatus 1\n')
    ask('show d13-empty.leaf', 'd13-empty.leaf: refused 13 cut leaf at byte 0, around it []\nstatus 1\n')
    ask('show d05.leaf',
        'd05.leaf: refused 5 no window at byte 58, around it 00 00 00 0c 00 00 00 00 [52] 00 00 00 01 00 00 00\nstatus 1\n')
    ask('show worked.exact.leaf d18.leaf worked.linear-3.leaf', EXACT_TOLD + '\n'
        + 'd18.leaf: refused 18 loose bytes at byte 90, around it 00 00 04 5a 00 00 00 07 [00]\n\n' + LINEAR_3_TOLD + 'status 1\n')
    ask('show none.exact.leaf', 'none.exact.leaf: exact steps, frame 1, 0 rows\n'
        'rank  work  deadline  period  jitter  first rest  response  points\n')
    ask('show none.linear-7.leaf one.leaf')
    ask('show full.exact.leaf full.linear-64.leaf')
    ask('show both-miss.exact.leaf both-miss.linear-2.leaf tail-misses.linear-2.leaf')
    ask('show jitters.exact.leaf jitters.linear-2.leaf horizon.exact.leaf horizon.linear-2.leaf')
    ask('show earlier.leaf later.leaf misses.leaf misses-1.leaf far.leaf')
    ask('show komma,"blätter".leaf')
    ask('show control\x01\x7f.leaf', 'control??.leaf' + EXACT_TOLD.removeprefix('worked.exact.leaf'))
    ask('show d13-control\x01\x7f.leaf',
        'd13-control??.leaf: refused 13 cut leaf at byte 89, around it 00 00 00 04 5a 00 00 00 []\nstatus 1\n')
    ask('show worked.csv d13-letter.leaf')
    ask(f'show {" ".join(damaged)}')
    ask('show --csv full.linear-1.leaf later.leaf')
    for form in ('--csv', '--json'):
        ask(f'show {form}', {'--json': '[]\n'}.get(form))
        ask(f'show {form} none.exact.leaf none.linear-7.leaf')
        ask(f'show {form} worked.exact.leaf d13-end.leaf none.exact.leaf misses-1.leaf')
        ask(f'show {form} komma,"blätter".leaf far.leaf')
        ask(f'show {form} control\x01\x7f.leaf d13-control\x01\x7f.leaf')
        ask(f'show {form} {" ".join(damaged)}')


def compares():
    """Two leaves beside each other."""
    ask('compare worked.exact.leaf worked.linear-1.leaf', COMPARE_TOLD)
    ask('compare later.leaf earlier.leaf', EARLIER_TOLD)
    ask('compare worked.exact.leaf earlier.leaf', NOT_LATER_TOLD)
    ask('compare later.leaf misses-1.leaf', PART_EARLIER_TOLD)
    for line in [
        'worked.exact.leaf worked.exact.leaf', 'worked.linear-2.leaf worked.linear-3.leaf',
        'worked.exact.leaf misses.leaf', 'misses.leaf misses.leaf', 'none.exact.leaf none.exact.leaf',
        'full.exact.leaf full.linear-1.leaf', 'both-miss.exact.leaf both-miss.linear-2.leaf',
        'tail-misses.exact.leaf tail-misses.linear-2.leaf', 'chance-09.exact.leaf chance-09.linear-1.leaf',
        'komma,"blätter".leaf worked.linear-64.leaf',
    ]:
        ask(f'compare {line}')
    ask('compare control\x01\x7f.leaf worked.linear-1.leaf', COMPARE_TOLD.replace('worked.exact.leaf', 'control??.leaf'))
    ask('compare worked.exact.leaf d13-control\x01\x7f.leaf',
        trouble('d13-control??.leaf: refused 13 cut leaf at byte 89, around it 00 00 00 04 5a 00 00 00 []'))
    ask('compare worked.exact.leaf frame-24.leaf', trouble('the frames differ, 12 and 24'))
    ask('compare none.linear-7.leaf worked.exact.leaf', trouble('the frames differ, 16777216 and 12'))
    ask('compare worked.linear-3.leaf two-rows.leaf', trouble('3 rows and 2'))
    ask('compare worked.linear-3.leaf other-jitter.leaf', trouble('rank 2 is 2 6 6 1 and 2 6 6 0'))
    ask('compare other-rows.leaf worked.linear-3.leaf', trouble('rank 1 is 1 3 3 0 and 1 4 4 0'))
    ask('compare two-rows.leaf other-all.leaf', trouble('the frames differ, 12 and 24'))
    ask('compare two-rows.leaf other-rows.leaf', trouble('2 rows and 3'))
    ask('compare d13-end.leaf worked.exact.leaf',
        trouble('d13-end.leaf: refused 13 cut leaf at byte 89, around it 00 00 00 04 5a 00 00 00 []'))
    ask('compare frame-24.leaf d13-empty.leaf', trouble('d13-empty.leaf: refused 13 cut leaf at byte 0, around it []'))
    ask('compare d14-zero.leaf d13-empty.leaf', trouble('d14-zero.leaf: refused 14 strange letter at byte 0, around it [00]'))


# --- Scripts -----------------------------------------------------------------------------------------------

SCRIPT = lines(
    '# three tasks', 'linear 2', 'frame 12', 'admit 1 1 4 4 0', 'admit 2 2 6 6 1', 'admit 3 3 12 12 0', 'dismiss 1',
    'admit 2 3 12 12 0', 'inquire 2', 'inquire 3', 'frame 24', 'admit two',
)

SCRIPT_TOLD = """\
done
done
done
refused 21 newcomer overload at rank 3
done
done
row 3 12 12 0 meets 5 points 1
refused 10 no rank
refused 2 standing rows
not a call at line 12: expected admit RANK C D T J
"""


def scripts():
    """Scripts of calls."""
    put('worked.script', SCRIPT)
    ask('bench worked.script', SCRIPT_TOLD)
    put('lines.script', lines(
        'frame 12', 'linear 65', 'linear', '\t exact \r', '', ' ', '# frame 0', 'exact', 'frame 0', 'frame 16777217', 'frame 4294967296',
        'frame 0012', 'admit 1 0 4 4 0', 'admit 1 4 4 4 1', 'admit 1 4 5 4 1', 'admit 1 1 4 16777217 0', 'admit 1 1 5 5 0',
        'admit 2 1 4 4 0', 'admit 1 1 4 4 0', 'admit\t2  2 6 6 1 ', 'admit 3 3 12 12 0', 'inquire 3', 'admit 1 3 12 12 0', 'dismiss 0',
        'dismiss 4', 'dismiss -1', f'inquire 1{130 * " "}', 'inquire 1', 'dismiss 3', 'dismiss 2', 'dismiss 1', 'frame 1', 'inquire 1',
    ) + 'admit 1 1 1 1 0')
    ask('bench lines.script')


# --- Staircases, and several bounds ------------------------------------------------------------------------

BAD_STAIRS = trouble('refused 3 bad accuracy: expected --staircase from 1 to 64')

# Only the third row has jobs above it that are counted in grains: at 9 and later A has 3, counted as 4 by accuracy 1.
STAIRCASE_TOLD = """\
frame 12, staircase of accuracy 1
rank  name  C   D   T  J  exact rest  response  slack  staircase rest  gap  exact points  staircase points
   1  A     1   4   4  0           1         1      3               1    0             1                 1
   2  B     2   6   6  1           3         4      2               3    0             1                 1
   3  E     3  12  12  0          10        10      2              11    1             4                 4
utilisation 10/12, 83.33 %
3 of 3 rows meet in exact steps, 3 of 3 by the staircase
exact leaf: 460000000C0000\
5200000001000000040000000400000000520000000200000006000000060000000152000000030000000C0000000C00000000\
410000000100000001410000000300000001410000000A000000045A00000007
staircase leaf: 460000000C0201\
5200000001000000040000000400000000520000000200000006000000060000000152000000030000000C0000000C00000000\
410000000100000001410000000300000001410000000B000000045A00000007
"""

BOTH_TOLD = """\
frame 12, linear tail of accuracy 3, staircase of accuracy 2
rank  name  C   D   T  J  exact rest  response  slack  linear rest  gap  staircase rest  gap  exact points  linear points  \
staircase points
   1  A     1   4   4  0           1         1      3            1    0               1    0             1              1  \
               1
   2  B     2   6   6  1           3         4      2            3    0               3    0             1              1  \
               1
   3  E     3  12  12  0          10        10      2           11    1              10    0             4              4  \
               4
utilisation 10/12, 83.33 %
3 of 3 rows meet in exact steps, 3 of 3 by the linear tail, 3 of 3 by the staircase
exact leaf: 460000000C0000\
5200000001000000040000000400000000520000000200000006000000060000000152000000030000000C0000000C00000000\
410000000100000001410000000300000001410000000A000000045A00000007
linear leaf: 460000000C0103\
5200000001000000040000000400000000520000000200000006000000060000000152000000030000000C0000000C00000000\
410000000100000001410000000300000001410000000B000000045A00000007
staircase leaf: 460000000C0202\
5200000001000000040000000400000000520000000200000006000000060000000152000000030000000C0000000C00000000\
410000000100000001410000000300000001410000000A000000045A00000007
"""


def several_files():
    """Tables counted by a staircase, and by both bounds, whose options stand in any order."""
    ask('file worked.csv --staircase 1', STAIRCASE_TOLD)
    for line in ['--linear 3 --staircase 2', '--staircase 2 --linear 3', '--staircase 2 --frame 12 --linear 3']:
        ask(f'file worked.csv {line}', BOTH_TOLD)
    for line in [
        'worked.csv --staircase 64', 'worked.txt --staircase 1 --linear 1', 'no-names.tsv --linear 1 --staircase 64', 'heading.csv --staircase 1',
        'heading.csv --staircase 64 --linear 1 --frame 12', 'one.csv --staircase 2', 'full.csv --staircase 1', 'full.csv --linear 2 --staircase 3',
        'both-miss.csv --linear 4 --staircase 4', 'tail-misses.csv --staircase 1 --linear 1', 'jitters.csv --staircase 2',
        'long-windows.csv --linear 7 --staircase 2', 'primes.csv --staircase 1', 'common.csv --staircase 1', 'whole.csv --linear 64 --staircase 64',
        'hundredths.csv --frame 60000 --staircase 1', 'long-names.csv --linear 2 --staircase 1', 'chance-12.csv --staircase 1 --linear 3',
    ]:
        ask(f'file {line}')


def parting_rows():
    """Rows that meet by some bounds and miss by others, of which windows end about where they rest by one."""
    # At 24 the first row has had 6 jobs, which accuracy 2 counts as they are; at 36 it has had 9, of which that makes 12: with
    # 17 and 8 that is 37.
    rows = [(1, 4, 4, 0), (17, 24, 720, 0), (8, 36, 720, 0)]
    put('parting.csv', rows_text(rows, names=['A', 'at 24', 'at 36']))
    for line in ['--staircase 2', '--linear 2 --staircase 2', '--staircase 1 --linear 64', '--linear 9 --staircase 9']:
        ask(f'file parting.csv {line}')
    # Of the tail of accuracy 6 and the staircase of accuracy 2, the second row meets by one and misses by the other, and the
    # third misses by both; in exact steps all meet. So pictures show a row with one rest by a bound, and one with none.
    for name, rows in {
        'tail-meets.csv': [(1, 4, 4, 0), (26, 36, 720, 0), (1, 37, 720, 0), (1, 720, 720, 0)],
        'stairs-meet.csv': [(1, 4, 4, 0), (18, 24, 720, 0), (1, 26, 720, 0), (1, 720, 720, 0)],
    }.items():
        put(name, rows_text(rows))
        ask(f'file {name} --linear 6 --staircase 2')
        ask(f'file {name} --staircase 6 --linear 2')
        for rank in (2, 3):
            ask(f'plot {name} --rank {rank} --linear 6 --staircase 2')
        ask(f'plot {name} --rank 2 --linear 2 --staircase 6')


def stairs_by_chance():
    """Tables made by chance by a staircase or by both bounds, in all forms; of chance of their own."""
    source.turn_to(20_261_130)
    for number in range(1, 13):
        count, accuracy = source.between(2, 9), source.between(1, 4)
        _, periods = source.frame_and_periods(count, 2000)
        rows = source.table(count, periods, source.utilisation(accuracy))
        name = f'stairs-{number:02}.' + ['csv', 'tsv', 'txt'][number % 3]
        options = f'--staircase {accuracy}' + ('' if number % 4 == 0 else f' --linear {source.between(1, 9)}')
        table(name, rows_text(rows, [',', '\t', '  '][number % 3]), options)
        ask(f'plot {name} --rank {count} {options}')


def refused_stairs():
    """Accuracies of staircases that are refused, and the order of what is refused."""
    for accuracy in (0, 65, MOST_NUMBER):
        ask(f'file worked.csv --staircase {accuracy}', BAD_STAIRS)
        ask(f'plot worked.csv --rank 9 --staircase {accuracy}', BAD_STAIRS)
        ask(f'sheet worked.csv --staircase {accuracy}', BAD_STAIRS)
        ask(f'file worked.csv --linear 3 --staircase {accuracy}', BAD_STAIRS)
        ask(f'file worked.csv --staircase {accuracy} --linear 65', BAD_ACCURACY)
        ask(f'file worked.csv --staircase 2 --linear {accuracy}', BAD_ACCURACY)
        ask(f'plot worked.csv --rank 0 --staircase {accuracy} --linear 0', BAD_ACCURACY)
        ask(f'plot worked.csv --rank 0 --staircase {accuracy} --linear 1', BAD_STAIRS)
        ask(f'file worked.csv --staircase {accuracy} --linear 0 --frame 0', BAD_FRAME)
        ask(f'file r-idle-3.csv --linear 1 --staircase {accuracy}', BAD_STAIRS)
    ask('file r-idle-3.csv --staircase 1', expected['file r-idle-3.csv --linear 3'])
    ask('file r-idle-3.csv --staircase 1 --linear 3', expected['file r-idle-3.csv --linear 3'])
    ask('file r-off-4.csv --staircase 1 --linear 3 --frame 12', expected['file r-off-4.csv --linear 3 --frame 12'])
    ask('file r-multiple.csv --staircase 65 --linear 3', BAD_STAIRS)
    ask('file r-multiple.csv --staircase 64 --linear 64', NO_MULTIPLE)
    ask('file f-few.csv --staircase 0 --linear 0', expected['file f-few.csv --linear 3'])
    ask('file empty.csv --staircase 1', trouble(nothing(1)))
    ask('plot worked.csv --rank 4 --linear 3 --staircase 3', NO_RANK)
    ask('plot heading.csv --rank 1 --staircase 3', NO_ROW)
    ask('plot r-multiple.csv --rank 3 --staircase 3 --linear 1', NO_MULTIPLE)
    ask('sheet worked.csv --staircase 65 --frame 0', BAD_FRAME)
    ask('sheet r-multiple.csv --staircase 3', NO_MULTIPLE)


def several_plots():
    """The descriptions of pictures by a staircase, and by both bounds, also of windows that are thinned."""
    one = 'rank 3; window 12; exact rest 10 points 4'
    tail = 'linear-3 rest 11 points 4; drawn 5 of 5 test points by the tail'
    first = 'staircase-1 rest 11 points 4; drawn 5 of 5 test points by the staircase'
    second = 'staircase-2 rest 10 points 4; drawn 5 of 5 test points by the staircase'
    ask('plot worked.csv --rank 3 --staircase 1', f'{one}; {first}\n')
    ask('plot worked.csv --rank 3 --linear 3 --staircase 2', f'{one}; {tail}; {second}\n')
    ask('plot worked.csv --staircase 1 --rank 3 --linear 3', f'{one}; {tail}; {first}\n')
    ask('plot worked.csv --rank 1 --staircase 2 --frame 24', 'rank 1; window 4; exact rest 1 points 1; staircase-2 rest 1 points 1; '
        'drawn 1 of 1 test points by the staircase\n')
    # Below a row of period 1 the test points are the numbers that are counted as themselves: by accuracy 1 the powers of two,
    # of which 1, 2, 4 and on up to 512 are smaller than the window, and the window itself; by accuracy 2 these and 3, 6, 12
    # and on up to 384. In a window of 721 each column has 2 instants: 1 and 2 share one, 3 and 4 another.
    put('stairs-720.csv', lines('C,D,T', '1,1,1', '1,720,720'))
    put('stairs-721.csv', lines('C,D,T', '1,1,1', '1,721,721'))
    ask('plot stairs-720.csv --rank 2 --staircase 1', 'rank 2; window 720; exact misses points 720; staircase-1 misses points 11; '
        'drawn 11 of 11 test points by the staircase\n')
    ask('plot stairs-720.csv --rank 2 --staircase 2', 'rank 2; window 720; exact misses points 720; staircase-2 misses points 19; '
        'drawn 19 of 19 test points by the staircase\n')
    ask('plot stairs-721.csv --rank 2 --staircase 2', 'rank 2; window 721; exact misses points 721; staircase-2 misses points 19; '
        'drawn 17 of 19 test points by the staircase\n')
    ask('plot stairs-721.csv --rank 2 --staircase 2 --linear 64', 'rank 2; window 721; exact misses points 721; '
        'linear-64 misses points 64; drawn 33 of 64 test points by the tail; '
        'staircase-2 misses points 19; drawn 17 of 19 test points by the staircase\n')
    for line in [
        'both-miss.csv --rank 3 --staircase 4', 'tail-misses.csv --rank 3 --linear 2 --staircase 2', 'full.csv --rank 32 --staircase 5 --linear 5',
        'long-windows.csv --rank 4 --linear 9 --staircase 1', 'long-windows.csv --rank 4 --staircase 64',
        'chance-12.csv --rank 12 --staircase 1', 'parting.csv --rank 3 --linear 1 --staircase 1',
    ]:
        ask(f'plot {line}')


def staircase_sheets():
    """Sheets by the staircase."""
    rows = ''.join(write_row(*row).hex().upper() for row in WORKED_ROWS)
    ask('sheet worked.csv --staircase 3', f'sheet: 460000000C0203{rows}\n')
    ask('sheet worked.csv --frame 24 --staircase 64', f'sheet: 46000000180240{rows}\n')
    ask('sheet heading.csv --staircase 1', 'sheet: 46000000010201\n')
    ask('sheet full.csv --staircase 2')
    ask('sheet r-idle-3.csv --staircase 1', trouble('line 5, field 2 (work): 0 stands there, expected at least 1: refused 4 idle row at rank 3'))


def staircase_leaves():
    """What leaves by the staircase hold, damaged ones, and such leaves beside others."""
    for accuracy in (1, 2, 64):
        leaf(f'worked.staircase-{accuracy}.leaf', WORKED_ROWS, accuracy, 12, STAIRCASE)
    leaf('none.staircase-7.leaf', [], 7, HORIZON, STAIRCASE)
    leaf('full.staircase-1.leaf', FULL_ROWS, 1, 720, STAIRCASE)
    for name, accuracy in [('tail-meets', 2), ('stairs-meet', 2), ('parting', 1)]:
        rows, frame = rows_of(f'{name}.csv')
        leaf(f'{name}.staircase-{accuracy}.leaf', rows, accuracy, frame, STAIRCASE)
        leaf(f'{name}.linear-6.leaf', rows, 6, frame)
    by_hand('later.staircase.leaf', WORKED_ROWS, [(5, 2), (0, 3), (12, MOST_NUMBER)], 64, kind=STAIRCASE)
    whole = files['worked.staircase-1.leaf']
    for name, data in {
        '03-stairs-zero': whole[:6] + b'\x00' + whole[7:], '03-stairs-large': whole[:6] + b'\x41' + whole[7:],
        '13-stairs': whole[:-1], '20-stairs': whole[:5] + b'\x03' + whole[6:],
    }.items():
        put(f'd{name}.leaf', data)
        assert read_leaf(data)[:2] == ('refused', int(name[:2]))
    told = EXACT_TOLD.replace('worked.exact.leaf: exact steps', 'worked.staircase-1.leaf: staircase of accuracy 1')
    told = told.replace('          10        10       4', '          11        11       4')
    ask('show worked.staircase-1.leaf', told)
    ask('show d03-stairs-zero.leaf', 'd03-stairs-zero.leaf: refused 3 bad accuracy at byte 0, around it [46] 00 00 00 0c 02 00 52\nstatus 1\n')
    ask('show worked.staircase-2.leaf worked.linear-3.leaf worked.staircase-64.leaf later.staircase.leaf full.staircase-1.leaf')
    damaged = 'd03-stairs-zero.leaf d03-stairs-large.leaf d13-stairs.leaf d20-stairs.leaf'
    for form in ('', '--csv ', '--json '):
        ask(f'show {form}{damaged}')
        ask(f'show {form}worked.staircase-1.leaf none.staircase-7.leaf worked.exact.leaf later.staircase.leaf')
    ask('compare worked.exact.leaf worked.staircase-1.leaf', """\
A: worked.exact.leaf, exact steps
B: worked.staircase-1.leaf, staircase of accuracy 1
frame 12, 3 rows
rank  work  deadline  period  jitter  A rest  B rest  B later by  A points  B points  verdicts
   1     1         4       4       0       1       1           0         1         1  same
   2     2         6       6       1       3       3           0         1         1  same
   3     3        12      12       0      10      11           1         4         4  same
the verdicts part nowhere
""")
    for line in [
        'worked.staircase-2.leaf worked.linear-3.leaf', 'worked.linear-1.leaf worked.staircase-1.leaf', 'worked.staircase-1.leaf worked.staircase-2.leaf',
        'tail-meets.linear-6.leaf tail-meets.staircase-2.leaf', 'stairs-meet.staircase-2.leaf stairs-meet.linear-6.leaf',
        'parting.linear-6.leaf parting.staircase-1.leaf', 'later.staircase.leaf later.leaf', 'full.exact.leaf full.staircase-1.leaf',
        'none.linear-7.leaf none.staircase-7.leaf', 'worked.exact.leaf d13-stairs.leaf',
    ]:
        ask(f'compare {line}')


def staircase_scripts():
    """Scripts of benches by the staircase."""
    put('stairs.script', lines(
        'frame 12', 'staircase', 'staircase3', 'staircase 0', 'staircase 65', 'staircase x', '\t staircase  001 \r', 'staircase 2', 'frame 12',
        'admit 1 1 4 4 0', 'admit 2 2 6 6 1', 'admit 3 3 10 12 0', 'admit 3 3 12 12 0', 'inquire 3', 'dismiss 1', 'inquire 2', 'linear 3',
    ))
    any_call = 'expected frame, admit, dismiss or inquire'
    ask('bench stairs.script', lines(
        'not a call at line 1: expected exact or linear K or staircase K', 'not a call at line 2: expected staircase K',
        'not a call at line 3: expected exact or linear K or staircase K', 'refused 3 bad accuracy', 'refused 3 bad accuracy',
        'not a call at line 6: expected a number from 0 to 4294967295 for K', f'not a call at line 8: {any_call}', 'done', 'done', 'done',
        'refused 21 newcomer overload at rank 3', 'done', 'row 3 12 12 0 meets 11 points 4', 'done', 'row 3 12 12 0 meets 5 points 1',
        f'not a call at line 17: {any_call}',
    ))


# --- Writing -----------------------------------------------------------------------------------------------


def make_cases():
    """Adds all files and command lines."""
    for make in [
        forms, names, counted, random_tables, bad_headings, bad_fields, bad_numbers, large_numbers, bad_bytes, refused_tables,
        refused_options, plots, sheets, responds, shows, compares, scripts,
        several_files, parting_rows, stairs_by_chance, refused_stairs, several_plots, staircase_sheets, staircase_leaves, staircase_scripts,
    ]:
        make()


def check_tables():
    """Holds the counts of each table to what docs/RULES.md says of them."""
    for frame, rows, accuracy in dict.fromkeys(judged_tables):
        for at, row in enumerate(rows):
            if window(row) <= WIDEST:
                check_case(frame, row, rows[:at], accuracy, in_full=False)


# What must be told somewhere: every refusal but those of a caller's list and buffer, and every other form of what is told.
FORMS = [refused(number) for number in WORDS if number not in (SHORT_LIST, SHORT_BUFFER)] + [
    'misses    -', 'misses         -', 'of 32 rows meet', ' rows meet in exact steps\n', '0 of 0 rows meet', '0.01 %', 'stands there, expected a number from 0 to 4294967295\n',
    'fields stand there, expected', 'stands there again', 'no heading', 'a task more', 'nothing stands there', 'no text',
    'expected at least 1', 'less the jitter', 'is below the jitter', 'leaves none of the deadline',
    'at most the period', 'at most 16777216', 'a divisor of the frame',
    'expected --frame', 'no common multiple', 'expected --linear', 'expected --staircase', 'expected --rank', 'the table has no row', 'at ranks 1, 3\n',
    'part nowhere', 'the frames differ', ' rows and ', 'misses points', 'status 1',
]


def main():
    """Writes the files, the command lines and the answers."""
    if len(sys.argv) > 2:
        sys.exit('use: view_cases.py [FOLDER]')
    folder = Path(sys.argv[1] if len(sys.argv) == 2 else Path(__file__).parent.parent / 'crates' / 'viewings')
    make_cases()
    check_tables()
    told = []
    for line, named in expected.items():
        answered = answer(line.split(' '), files.__getitem__)
        assert named in (None, answered), f'{line}\n{answered}, not\n{named}'
        told.append(f'=== {line}\n{answered}')
    stdin, stdout = lines(*expected), ''.join(told)
    for form in FORMS:
        assert form in stdout, form
    used = {word for line in expected for word in line.split(' ')}
    assert set(files) <= used, set(files) - used
    # Where both bounds are named, rows meet by both, by one of them alone, and by none.
    for told_apart in ('3 of 4 by the linear tail, 2 of 4 by the staircase\n', '2 of 4 by the linear tail, 3 of 4 by the staircase\n'):
        assert told_apart in stdout, told_apart
    assert sum(map(len, files.values())) < 300_000

    data = folder / 'data'
    data.mkdir(parents=True, exist_ok=True)
    strangers = sorted({path.name for path in data.iterdir()} - set(files))
    if strangers:
        sys.exit(f'view_cases.py: {data} has files that are none of these: {", ".join(strangers)}')
    for name, content in files.items():
        (data / name).write_bytes(content)
    (folder / 'stdin').write_bytes(stdin.encode('utf-8'))
    (folder / 'stdout').write_bytes(stdout.encode('utf-8'))
    print(f'{len(files)} files, {sum(map(len, files.values()))} bytes; {len(expected)} command lines', file=sys.stderr)


if __name__ == '__main__':
    main()
