"""Makes the stored questions about numbers that bytes end in, which docs/FORMAT.md answers.

    python3 reference/last_vectors.py > questions
    python3 reference/last_vectors.py --answers > answers

The questions are lines of bytes in uppercase hexadecimal, `-` where there is no byte, in two sections:

    === last numbers        the number that the bytes of each line end in
    === leaves backwards    the findings of the leaf of each line, from the last field of each back

With --answers the script prints instead, below the same two lines, the answers:

    NUMBER BYTES            the number in the last four bytes, and the bytes before it, `-` where there is none
    POINTS REST -           a line for each finding of a leaf: its points, its first rest, and that no byte is left
    refused N at P          the refusal, of fewer than four bytes or of what is no leaf

The same lines come each time. That the fields which come from the last back are those that the reader takes is looked
at for each leaf on the way.
"""

import random
import sys

sys.dont_write_bytecode = True  # leave no cache beside the sources

from leaves import HORIZON, MOST_ROWS, finding_bodies, four_bytes, last_number, read_leaf, write_leaf  # noqa: E402
from refusals import refused_at  # noqa: E402

TOP = 4_294_967_295  # the largest number of four bytes

# The worked leaf of docs/FORMAT.md.
WORKED = write_leaf(
    12, 1, 3, [(1, 4, 4, 0), (2, 6, 6, 1), (3, 12, 12, 0)], [(1, 1), (3, 1), (11, 4)]
)

source = random.Random(20_261_127)


def strings():
    """Strings of bytes, of each length from 0 to 9 and longer ones."""
    nine = bytes([0x80, 0xFF, 1, 2, 3, 4, 0, 5, 0xFE])
    made = [nine[:length] for length in range(10)] + [nine[::-1][:length] for length in range(1, 10)]
    made += [bytes([value] * length) for length in range(1, 10) for value in (0, 0xFF)]
    made += [four_bytes(number) for number in (1, 255, 256, 65_536, 2**31 - 1, 2**31, TOP - 1, HORIZON, HORIZON + 1)]
    # One byte alone is not 0, at each place of lengths about four and about eight.
    made += [
        bytes(length - 1 - place) + bytes([value]) + bytes(place)
        for length in (3, 4, 5, 7, 8, 9)
        for place in range(length)
        for value in (1, 0x80)
    ]
    made += [four_bytes(11) + four_bytes(4), WORKED, WORKED[:-1], WORKED[: 7 + 17 * 3]]
    made += [source.randbytes(length) for length in range(4, 40)]
    made += [source.randbytes(length) for length in (255, 256, 257, 844)]
    return list(dict.fromkeys(made))


def leaf_of(count):
    """A leaf of so many rows, with findings that a reader takes whatever the rows are."""
    row = (1, 4, 4, 0)
    rests = (0, 1, 255, 256, 65_535, 65_536, HORIZON - 1, HORIZON)
    points = (1, 2, 255, 256, 65_536, 2**31, TOP - 1, TOP)
    findings = [(source.choice(rests), source.choice(points)) for _ in range(count)]
    return write_leaf(12, 1, 3, [row] * count, findings)


def leaves():
    """Leaves of every number of rows, and some bytes that are none."""
    made = [WORKED] + [leaf_of(count) for count in range(MOST_ROWS + 1)]
    made += [write_leaf(12, 0, 0, [(1, 4, 4, 0)], [(rest, TOP)]) for rest in (0, HORIZON)]
    short, long = WORKED[:-1], WORKED + bytes([0])
    none = WORKED[:81] + bytes(4) + WORKED[85:]
    return made + [b'', short, long, none]


def last_line(data):
    """The answer about the number that bytes end in."""
    answer = last_number(data)
    if answer[0] == 'refused':
        return refused_at(*answer[1:])
    return f'{answer[1]} {answer[2].hex().upper() or "-"}'


def backwards_lines(data):
    """The answer about the findings of a leaf."""
    answer = read_leaf(data)
    if answer[0] == 'refused':
        return [refused_at(*answer[1:])]
    findings = answer[5]
    lines = []
    for body, (rest, points) in zip(finding_bodies(data, len(findings)), findings, strict=True):
        kind, last, before = last_number(body)
        other, first, left = last_number(before)
        assert (kind, other, last, first, left) == ('number', 'number', points, rest, b''), data.hex()
        lines.append(f'{last} {first} {left.hex().upper() or "-"}')
    return lines


def main():
    """Prints the questions, or the answers."""
    if sys.argv[1:] not in ([], ['--answers']):
        sys.exit('use: last_vectors.py [--answers]')
    for name, questions, answers in (
        ('last numbers', strings(), lambda data: [last_line(data)]),
        ('leaves backwards', leaves(), backwards_lines),
    ):
        print(f'=== {name}')
        for data in questions:
            for line in [data.hex().upper() or '-'] if sys.argv[1:] == [] else answers(data):
                print(line)


if __name__ == '__main__':
    main()
