"""Answers sheets by docs/FORMAT.md and docs/RULES.md alone.

The reader makes the checks of the format one by one, in the order stated there, and stops at the first that
applies; a sheet is then surveyed by the bound in its heading, by brute force (counts.py).

    python3 reference/sheets.py < sheet > answer

gives the answer to the bytes on standard input.
"""

import sys

sys.dont_write_bytecode = True  # leave no cache beside the sources

from counts import EXACT_STEPS, LINEAR_TAILS, STAIRCASES, survey  # noqa: E402
from leaves import (  # noqa: E402
    BEFORE_HEADING,
    HEADING,
    IN_ROWS,
    LENGTH,
    MOST_ROWS,
    ROW,
    check_heading,
    check_row,
    four_bytes,
    number_at,
    write_leaf,
)
from refusals import CUT_LEAF, FULL_TABLE, OUT_OF_TURN, STRANGE_LETTER  # noqa: E402

# The first byte of an answer that refuses. It is no kind of entry.
REFUSAL = 0x58  # X

# The kinds that belong in each phase of a sheet. It has no findings and no end.
BELONGS_IN_SHEET = {BEFORE_HEADING: (HEADING,), IN_ROWS: (ROW,)}


# --- Reading -----------------------------------------------------------------------------------------------


def read_sheet(data):
    """Either ('sheet', frame, bound, accuracy, rows), with rows a list of (C, D, T, J), or
    ('refused', number, place).
    """
    phase = BEFORE_HEADING
    place = 0  # the offset of the entry's kind byte
    frame = bound = accuracy = None
    rows = []

    # After the heading the bytes may end before any entry.
    while phase == BEFORE_HEADING or place < len(data):
        # There is no byte at the place.
        if place >= len(data):
            return ('refused', CUT_LEAF, len(data))
        kind = data[place]

        # The byte begins no kind of entry.
        if kind not in LENGTH:
            return ('refused', STRANGE_LETTER, place)

        # The kind does not belong in the phase.
        if kind not in BELONGS_IN_SHEET[phase]:
            return ('refused', OUT_OF_TURN, place)

        # A row when the table is full.
        if kind == ROW and len(rows) == MOST_ROWS:
            return ('refused', FULL_TABLE, place)

        # The bytes end inside the entry.
        if place + LENGTH[kind] > len(data):
            return ('refused', CUT_LEAF, len(data))

        # The fields, by kind; and where nothing is wrong with them, the next phase.
        body = place + 1
        if kind == HEADING:
            frame = number_at(data, body)
            bound = data[body + 4]
            accuracy = data[body + 5]
            wrong = check_heading(frame, bound, accuracy)
            if wrong is not None:
                return ('refused', wrong, place)
            phase = IN_ROWS
        else:
            work = number_at(data, body)
            deadline = number_at(data, body + 4)
            period = number_at(data, body + 8)
            jitter = number_at(data, body + 12)
            wrong = check_row(frame, work, deadline, period, jitter)
            if wrong is not None:
                return ('refused', wrong, place)
            rows.append((work, deadline, period, jitter))

        # On to the next entry.
        place = place + LENGTH[kind]

    return ('sheet', frame, bound, accuracy, rows)


# --- Answering ---------------------------------------------------------------------------------------------


def bound_of(bound, accuracy):
    """The bound that a heading names."""
    return EXACT_STEPS if bound == 0 else {1: LINEAR_TAILS, 2: STAIRCASES}[bound][accuracy]


def write_refusal(number, place):
    """The bytes of an answer that refuses."""
    return bytes([REFUSAL, number]) + four_bytes(place)


def write_survey(frame, bound, accuracy, rows):
    """The leaf of a sheet's survey. A first rest of 0 says that the row misses."""
    found = survey(frame, bound_of(bound, accuracy), rows)
    findings = [(rest or 0, points) for rest, points in found]
    return write_leaf(frame, bound, accuracy, rows, findings)


def answer_sheet(data):
    """The one answer to a string of bytes."""
    read = read_sheet(data)
    if read[0] == 'refused':
        return write_refusal(*read[1:])
    return write_survey(*read[1:])


if __name__ == '__main__':
    sys.stdout.buffer.write(answer_sheet(sys.stdin.buffer.read()))
