"""The refusals of docs/REFUSALS.md: a name for each number, the words that people read, and how they are told.

    python3 reference/refusals.py

looks that the numbers and words are those of the page's first table.
"""

import re
from pathlib import Path

BAD_FRAME = 1
STANDING_ROWS = 2
BAD_ACCURACY = 3
IDLE_ROW = 4
NO_WINDOW = 5
LATE_DEADLINE = 6
LONG_PERIOD = 7
OFF_FRAME = 8
FULL_TABLE = 9
NO_RANK = 10
OVERLOAD = 11
SHORT_LIST = 12
CUT_LEAF = 13
STRANGE_LETTER = 14
OUT_OF_TURN = 15
MISCOUNT = 16
BAD_FINDING = 17
LOOSE_BYTES = 18
SHORT_BUFFER = 19
UNKNOWN_BOUND = 20
NEWCOMER_OVERLOAD = 21

WORDS = {
    BAD_FRAME: 'bad frame',
    STANDING_ROWS: 'standing rows',
    BAD_ACCURACY: 'bad accuracy',
    IDLE_ROW: 'idle row',
    NO_WINDOW: 'no window',
    LATE_DEADLINE: 'late deadline',
    LONG_PERIOD: 'long period',
    OFF_FRAME: 'off frame',
    FULL_TABLE: 'full table',
    NO_RANK: 'no rank',
    OVERLOAD: 'overload',
    SHORT_LIST: 'short list',
    CUT_LEAF: 'cut leaf',
    STRANGE_LETTER: 'strange letter',
    OUT_OF_TURN: 'out of turn',
    MISCOUNT: 'miscount',
    BAD_FINDING: 'bad finding',
    LOOSE_BYTES: 'loose bytes',
    SHORT_BUFFER: 'short buffer',
    UNKNOWN_BOUND: 'unknown bound',
    NEWCOMER_OVERLOAD: 'newcomer overload',
}


def refused(number):
    """A refusal by its number and words."""
    return f'refused {number} {WORDS[number]}'


def refused_at(number, position):
    """A refusal by its number, with the position that it tells."""
    return f'refused {number} at {position}'


def main():
    """Compares the words with the page."""
    page = Path(__file__).parent.parent / 'docs' / 'REFUSALS.md'
    rows = re.findall(r'^\| (\d+) \| ([a-z ]+) \|', page.read_text(encoding='utf-8'), re.MULTILINE)
    assert {int(number): words for number, words in rows} == WORDS
    print(f'{len(WORDS)} refusals, as in docs/REFUSALS.md')


if __name__ == '__main__':
    main()
