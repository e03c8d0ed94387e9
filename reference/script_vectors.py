"""Makes the vectors of scripts: scripts of calls to a bench, and what docs/PROGRAMS.md says is written for each.

    python3 reference/script_vectors.py > scripts
    python3 reference/script_vectors.py --answers > answers

A line `=== script N`, N from 1, stands before each script, and the lines up to the next such line, or to the end,
are the script: bytes, which need be no text. With --answers what is written for each script is printed instead,
behind the same line. No line of a script begins with `===`, and every line ends with a line feed.

The same bytes come each time. Where a script is made with answers known beforehand, those were taken from docs/ by
hand, and what the bench of benches.py answers is held to them. After each call of every script the bench is held
to what docs/RULES.md says of it.
"""

import sys

sys.dont_write_bytecode = True  # leave no cache beside the sources

import script_chance  # noqa: E402
import script_edges  # noqa: E402
import script_lines  # noqa: E402
from benches import lines_of  # noqa: E402
from chance import Source, work_out  # noqa: E402
from refusals import BAD_FRAME, NEWCOMER_OVERLOAD, OVERLOAD  # noqa: E402
from scripts import MOST_CALLS, STAIRS  # noqa: E402

SEED = 20_240_303_000  # and the number of the script

# The accuracies that scripts are made with, 0 for exact steps; and those of staircases.
ACCURACIES = [0, 1, 2, 3, 0, 4, 5, 8, 0, 16, 63, 64, 0, 6, 2, 1, 0, 11, 3, 27]
OF_STAIRS = [STAIRS[accuracy] for accuracy in (1, 2, 3, 1, 4, 5, 8, 2, 16, 63, 64, 1, 6, 11, 27, 3)]

LEAST_CALLS = 20

cases = []  # (number, recipe, what it is given, about how long it takes)


def add(recipe, *given, weight=1):
    """Adds a script by its recipe, which is given a source of chance besides."""
    cases.append((len(cases) + 1, recipe, given, weight))


def add_each(count, recipe, *givens, weight=1, accuracies=ACCURACIES):
    """Adds so many scripts by a recipe; of each list it is given one after the other, of accuracies first.

    The lists differ in length, so that what they hold is mixed.
    """
    for at in range(count):
        chosen = [given[at % len(given)] for given in givens]
        add(recipe, accuracies[at % len(accuracies)], *chosen, weight=weight)


# --- All of them -------------------------------------------------------------------------------------------


def add_edges():
    """The scripts whose answers are all, or mostly, known beforehand."""
    add(script_edges.programs_script)
    for accuracy in (0, 1, 2, 3):
        add(script_edges.worked_table, accuracy)
    add(script_edges.bench_of_rules)
    for accuracy in (0, 1, 64):
        add(script_edges.flawed_rows, accuracy, 0)
        add(script_edges.flawed_rows, accuracy, 5)
    for accuracy in (0, 2):
        add(script_edges.flawed_rows, accuracy, 32, weight=3)
    for accuracy in (0, 1, 3, 63):
        add(script_edges.pairs_of_refusals, accuracy, weight=3)
    for accuracy in (0, 2, 64):
        add(script_edges.ranks_at_the_edge, accuracy)
        add(script_edges.frames_at_the_edge, accuracy, weight=10)
        add(script_edges.rows_at_the_edge, accuracy)
    for _ in range(4):
        add(script_edges.just_meets)


def add_lines():
    """The scripts of lines of every kind."""
    for first in range(0, len(script_lines.NO_WORDS), 15):
        add(script_lines.unknown_words, first)
        add(script_lines.before_a_bound, first)
    add(script_lines.before_a_bound, 7, False)
    add(script_lines.before_a_bound, 41, False)
    for first in range(0, len(script_lines.NO_NUMBERS), 9):
        add(script_lines.words_for_numbers, first)
    for first in range(0, len(script_lines.LONG), 5):
        add(script_lines.lengths, first)
    for _ in range(3):
        add(script_lines.lines_passed_over)
        add(script_lines.words_too_many)
        add(script_lines.odd_spellings)


def add_chance():
    """The scripts by chance."""
    counts, wider = [4, 6, 8, 5, 10, 7, 3], [100, 200, 60, 200, 300, 150, 80, 250, 120]
    add_each(70, script_chance.come_and_go, [2, 3, 4, 5, 3, 6, 4], [12, 30, 60], [3])
    add_each(66, script_chance.come_and_go, counts, wider, [2])
    add_each(14, script_chance.come_and_go, counts, wider, [4], [155], weight=2)
    add_each(12, script_chance.come_and_go, [14, 18, 24], wider[4:] + wider[:2], [1], weight=5)
    add_each(36, script_chance.small_numbers)
    add_each(24, script_chance.at_every_rank, [2, 3, 4, 5, 6])
    add_each(24, script_chance.out_and_back, [3, 4, 5, 6, 7])
    add_each(20, script_chance.narrow_windows)
    add_each(16, script_chance.long_periods, weight=5)
    add_each(10, script_chance.full_table, weight=50)


def add_stairs():
    """The scripts by staircases."""
    for accuracy in (1, 2):
        add(script_edges.worked_stairs, STAIRS[accuracy])
    add(script_edges.stairs_one_by_one)
    for recipe, accuracy in (
        (script_edges.ranks_at_the_edge, 2), (script_edges.rows_at_the_edge, 64), (script_edges.pairs_of_refusals, 3),
        (script_edges.frames_at_the_edge, 1),
    ):
        add(recipe, STAIRS[accuracy], weight=3)
    add(script_edges.flawed_rows, STAIRS[1], 5)
    for first in range(0, len(script_lines.NO_STAIRS), 8):
        add(script_lines.before_stairs, first)
    add(script_lines.stairs_too_late)
    counts, wider = [4, 6, 8, 5, 10, 7, 3], [100, 200, 60, 200, 300, 150, 80, 250, 120]
    add_each(16, script_chance.come_and_go, [2, 3, 4, 5, 3, 6, 4], [12, 30, 60], [3], accuracies=OF_STAIRS)
    add_each(16, script_chance.come_and_go, counts, wider, [2], accuracies=OF_STAIRS)
    add_each(2, script_chance.come_and_go, [14, 18, 24], wider[4:] + wider[:2], [1], weight=5, accuracies=OF_STAIRS)
    add_each(8, script_chance.small_numbers, accuracies=OF_STAIRS)
    add_each(4, script_chance.at_every_rank, [2, 3, 4, 5, 6], accuracies=OF_STAIRS)
    add_each(4, script_chance.out_and_back, [3, 4, 5, 6, 7], accuracies=OF_STAIRS)
    add_each(4, script_chance.narrow_windows, accuracies=OF_STAIRS)
    add_each(2, script_chance.long_periods, weight=5, accuracies=OF_STAIRS)
    add_each(1, script_chance.full_table, weight=50, accuracies=OF_STAIRS)


def made(case):
    """A script with what is written for it, and what its bench noted of its refusals for a miss."""
    number, recipe, given, _ = case
    script = recipe(Source(SEED + number), *given)
    assert len(script.answers) <= MOST_CALLS
    assert len(script.answers) >= LEAST_CALLS or recipe is script_edges.programs_script
    bench = script.player.bench
    return (*script.bytes_of(), bench.overloads if bench else [])


def kind_of(answer):
    """The kind of a line that is written."""
    first, _, others = answer.partition(' ')
    if first == 'refused':
        return f'refused {others.split()[0]}'
    return {'done': 'done', 'row': 'row meets', 'not': 'not a call'}[first]


def check_spread(scripts):
    """Holds the set to what it is made for: that every answer is there, and often enough."""
    counts = {}
    for _, written, _ in scripts:
        for line in lines_of(written):
            kind = kind_of(line.decode('ascii'))
            counts[kind] = counts.get(kind, 0) + 1
    # All that a bench can refuse.
    refused = [f'refused {number}' for number in (*range(BAD_FRAME, OVERLOAD + 1), NEWCOMER_OVERLOAD)]
    kinds = ['done', 'row meets', 'not a call'] + refused
    assert sorted(counts) == sorted(kinds) and min(counts.values()) >= 60, counts
    overloads = [overload for _, _, noted in scripts for overload in noted]
    assert sum(told == rank for rank, told, _ in overloads) >= 1000  # the newcomer misses
    assert sum(told == rank + 1 for rank, told, _ in overloads) >= 500  # the row below it
    assert sum(told > rank + 1 for rank, told, _ in overloads) >= 200  # one further down
    assert sum(told == rank and missing > 1 for rank, told, missing in overloads) >= 150  # it, and rows that stood too
    assert sum(told > rank and missing > 1 for rank, told, missing in overloads) >= 500  # several that stood


def main():
    """Prints the scripts, or what is written for each."""
    if sys.argv[1:] not in ([], ['--answers']):
        sys.exit('use: script_vectors.py [--answers]')
    add_edges()
    add_lines()
    add_chance()
    add_stairs()
    scripts = work_out(made, cases, lambda case: case[3])
    check_spread(scripts)
    for number, (script, written, _) in enumerate(scripts, start=1):
        sys.stdout.buffer.write(f'=== script {number}\n'.encode('ascii'))
        sys.stdout.buffer.write(written if sys.argv[1:] == ['--answers'] else script)


if __name__ == '__main__':
    main()
