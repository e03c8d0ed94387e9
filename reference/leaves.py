"""Reads and writes leaves by docs/FORMAT.md alone.

The reader makes the checks of that page one by one, in the order stated there, and stops at the first that
applies. docs/RULES.md says what a row, a first rest and points tested are; nothing is counted again here.

    python3 reference/leaves.py < leaf.bin

prints the answer to the bytes on standard input in one line.
"""

import sys

sys.dont_write_bytecode = True  # leave no cache beside the sources

from refusals import (  # noqa: E402
    BAD_ACCURACY,
    BAD_FINDING,
    BAD_FRAME,
    CUT_LEAF,
    FULL_TABLE,
    IDLE_ROW,
    LATE_DEADLINE,
    LONG_PERIOD,
    LOOSE_BYTES,
    MISCOUNT,
    NO_WINDOW,
    OFF_FRAME,
    OUT_OF_TURN,
    STRANGE_LETTER,
    UNKNOWN_BOUND,
    refused_at,
)

# The horizon of docs/RULES.md: no frame, no period and no first rest lies past it.
HORIZON = 16_777_216
MOST_ROWS = 32
MOST_ACCURACY = 64

# The kinds of entry, by their byte, and how long an entry of each kind is with that byte.
HEADING = 0x46  # F
ROW = 0x52  # R
FINDING = 0x41  # A
END = 0x5A  # Z
LENGTH = {HEADING: 7, ROW: 17, FINDING: 9, END: 5}

# The phases, and the kinds that belong in each. The closed phase has no entries.
BEFORE_HEADING = 'before the heading'
IN_ROWS = 'in the rows'
IN_FINDINGS = 'in the findings'
CLOSED = 'closed'
BELONGS = {
    BEFORE_HEADING: (HEADING,),
    IN_ROWS: (ROW, FINDING, END),
    IN_FINDINGS: (FINDING, END),
}


# --- Reading -----------------------------------------------------------------------------------------------


def number_at(data, offset):
    """The number in the four bytes from `offset` on, the most significant first, without sign."""
    return (
        data[offset] * 256 * 256 * 256
        + data[offset + 1] * 256 * 256
        + data[offset + 2] * 256
        + data[offset + 3]
    )


def last_number(data):
    """Read from the end, bytes are answered either ('number', the number in the last four, the part before them) or,
    where there are fewer than four, ('refused', number, place)."""
    if len(data) < 4:
        return ('refused', CUT_LEAF, 0)
    return ('number', number_at(data, len(data) - 4), data[: len(data) - 4])


def check_heading(frame, bound, accuracy):
    """The refusal of a heading's fields, or None."""
    if frame == 0 or frame > HORIZON:
        return BAD_FRAME
    if bound > 2:
        return UNKNOWN_BOUND
    if bound == 0 and accuracy != 0:
        return BAD_ACCURACY
    if bound in (1, 2) and (accuracy < 1 or accuracy > MOST_ACCURACY):
        return BAD_ACCURACY
    return None


def check_row(frame, work, deadline, period, jitter):
    """The refusal of a row's fields, or None. The sum is not cut to 32 bits: numbers here have no width."""
    if work == 0:
        return IDLE_ROW
    if work + jitter > deadline:
        return NO_WINDOW
    if deadline > period:
        return LATE_DEADLINE
    if period > HORIZON:
        return LONG_PERIOD
    # The period is not 0 any more: 1 <= work <= deadline <= period.
    if frame % period != 0:
        return OFF_FRAME
    return None


def check_finding(first_rest, points):
    """The refusal of a finding's fields, or None. A first rest of 0 says that the row misses."""
    if points == 0 or first_rest > HORIZON:
        return BAD_FINDING
    return None


def read_leaf(data):
    """The one answer to a string of bytes: either

    ('leaf', frame, bound, accuracy, rows, findings), with rows a list of (C, D, T, J) and findings a list of
    (first rest, points), or ('refused', number, place).
    """
    phase = BEFORE_HEADING
    place = 0  # the offset of the entry's kind byte
    entries = 0  # how many entries stand before it
    frame = bound = accuracy = None
    rows = []
    findings = []

    while phase != CLOSED:
        # 1. There is no byte at the place.
        if place >= len(data):
            return ('refused', CUT_LEAF, len(data))
        kind = data[place]

        # 2. The byte begins no kind of entry.
        if kind not in LENGTH:
            return ('refused', STRANGE_LETTER, place)

        # 3. The kind does not belong in the phase.
        if kind not in BELONGS[phase]:
            return ('refused', OUT_OF_TURN, place)

        # 4. A row when the table is full.
        if kind == ROW and len(rows) == MOST_ROWS:
            return ('refused', FULL_TABLE, place)

        # 5. A finding too many, or an end before every row has its finding.
        if kind == FINDING and len(findings) == len(rows):
            return ('refused', MISCOUNT, place)
        if kind == END and len(findings) < len(rows):
            return ('refused', MISCOUNT, place)

        # 6. The bytes end inside the entry.
        if place + LENGTH[kind] > len(data):
            return ('refused', CUT_LEAF, len(data))

        # 7. The fields, by kind; and where nothing is wrong with them, the next phase.
        body = place + 1
        if kind == HEADING:
            frame = number_at(data, body)
            bound = data[body + 4]
            accuracy = data[body + 5]
            wrong = check_heading(frame, bound, accuracy)
            if wrong is not None:
                return ('refused', wrong, place)
            phase = IN_ROWS
        elif kind == ROW:
            work = number_at(data, body)
            deadline = number_at(data, body + 4)
            period = number_at(data, body + 8)
            jitter = number_at(data, body + 12)
            wrong = check_row(frame, work, deadline, period, jitter)
            if wrong is not None:
                return ('refused', wrong, place)
            rows.append((work, deadline, period, jitter))
        elif kind == FINDING:
            first_rest = number_at(data, body)
            points = number_at(data, body + 4)
            wrong = check_finding(first_rest, points)
            if wrong is not None:
                return ('refused', wrong, place)
            findings.append((first_rest, points))
            phase = IN_FINDINGS
        else:
            if number_at(data, body) != entries:
                return ('refused', MISCOUNT, place)
            phase = CLOSED

        # On to the next entry.
        entries = entries + 1
        place = place + LENGTH[kind]

    # Closed: nothing may follow.
    if place < len(data):
        return ('refused', LOOSE_BYTES, place)
    return ('leaf', frame, bound, accuracy, rows, findings)


# --- Writing: the encoding, with no check ------------------------------------------------------------------


def four_bytes(number):
    """A number of 32 bits, the most significant byte first."""
    return number.to_bytes(4, 'big')


def write_heading(frame, bound, accuracy):
    return bytes([HEADING]) + four_bytes(frame) + bytes([bound, accuracy])


def write_row(work, deadline, period, jitter):
    return (
        bytes([ROW]) + four_bytes(work) + four_bytes(deadline) + four_bytes(period) + four_bytes(jitter)
    )


def write_finding(first_rest, points):
    return bytes([FINDING]) + four_bytes(first_rest) + four_bytes(points)


def write_end(entries):
    return bytes([END]) + four_bytes(entries)


def write_leaf(frame, bound, accuracy, rows, findings):
    """The bytes of the heading, the rows, the findings and the end, whatever they say."""
    data = write_heading(frame, bound, accuracy)
    for row in rows:
        data += write_row(*row)
    for finding in findings:
        data += write_finding(*finding)
    data += write_end(1 + len(rows) + len(findings))
    return data


# --- From the last field back ------------------------------------------------------------------------------


def finding_bodies(data, rows):
    """The bodies of the findings of a leaf of so many rows, without their letters."""
    first = LENGTH[HEADING] + LENGTH[ROW] * rows
    places = [first + LENGTH[FINDING] * index for index in range(rows)]
    return [data[place + 1 : place + LENGTH[FINDING]] for place in places]


# --- Telling -----------------------------------------------------------------------------------------------


def answer_text(answer):
    """An answer of read_leaf as one line: the refusal with its place, or each entry by its letter and its numbers."""
    if answer[0] == 'refused':
        return refused_at(*answer[1:])
    _, frame, bound, accuracy, rows, findings = answer
    entries = [('F', frame, bound, accuracy)]
    entries += [('R', *row) for row in rows]
    entries += [('A', *finding) for finding in findings]
    entries.append(('Z', len(entries)))
    return ' '.join(str(word) for entry in entries for word in entry)


if __name__ == '__main__':
    print(answer_text(read_leaf(sys.stdin.buffer.read())))
