"""Holds a picture of `yabreznul plot` to what is counted of the row that it shows, by docs/RULES.md and docs/PROGRAMS.md.

    python3 reference/pictures.py TABLE --rank R [--linear K] [--staircase K] < picture.svg

The picture is of a window of at most 720 ticks, in which every test point is drawn. Compared are its title and its
description; the demand in exact steps and by each bound, read off the lines at every tick of the window by the labels of
the axes; where the test points stand below; and the marks of the first rests, of a row that meets by each count.
"""

import re
import sys
from pathlib import Path

sys.dont_write_bytecode = True  # leave no cache beside the sources

from counts import EXACT_STEPS, demand, first_rest, test_points, window  # noqa: E402
from views import Judged, named_by, options_of, plot_numbers  # noqa: E402


def scale(labels):
    """From where a label stands to the number that it tells, by the first and the last label of an axis."""
    (start, low), (end, high) = (tuple(map(float, label)) for label in (labels[0], labels[-1]))
    return lambda place: low + (float(place) - start) * (high - low) / (end - start)


class Picture:
    """A picture, its places in ticks."""

    def __init__(self, text):
        """Reads the axes of an SVG picture."""
        self.text = text
        self.time = scale(re.findall(r'<text x="([\d.]+)" y="\d+" text-anchor="middle">(\d+)</text>', text))
        self.work = scale(re.findall(r'<text x="84.0" y="([\d.]+)" dy="4" text-anchor="end">(\d+)</text>', text))

    def told(self, element):
        """The text of an element that stands once."""
        (told,) = re.findall(f'<{element}>(.*)</{element}>', self.text)
        return told

    def corners(self, line):
        """The corners of the first path of a class, from left to right."""
        path = re.search(f'<path class="{line}" d="([^"]*)"/>', self.text)[1]
        corners = []
        for command, places in re.findall(r'([MLHV])([\d. ]+)', path):
            x, y = corners[-1] if corners else (0, 0)
            places = places.split()
            x = self.time(places.pop(0)) if command in 'MLH' else x
            y = self.work(places.pop(0)) if command in 'MLV' else y
            corners.append((x, y))
        return corners

    def height(self, line, instant):
        """The height of a line where it comes to an instant from the left."""
        corners = self.corners(line)
        for (left, low), (right, high) in zip(corners, corners[1:]):
            if left < instant <= right:
                return low + (high - low) * (instant - left) / (right - left)
        return None

    def points(self, marks):
        """The instants of the marks below: the first path of a class is drawn from each."""
        path = re.search(f'<path class="{marks}" d="([^"]*)"/>', self.text)[1]
        return [self.time(x) for x in re.findall(r'M([\d.]+) ', path)]

    def exact_rest(self):
        """The first rest in exact steps, a circle."""
        circle = re.search(r'<circle class="rest" cx="([\d.]+)" cy="([\d.]+)"', self.text)
        return (self.time(circle[1]), self.work(circle[2]))

    def rest(self, ending):
        """The first rest by a bound, a square around its middle."""
        square = re.search(rf'<rect class="rest{ending}" x="([\d.]+)" y="([\d.]+)" width="(\d+)"', self.text)
        half = float(square[3]) / 2
        return (self.time(float(square[1]) + half), self.work(float(square[2]) + half))


def near(told, counted):
    """Whether what is drawn is what is counted, as near as tenths of a unit of the picture tell."""
    return len(told) == len(counted) and all(abs(a - b) < 0.02 for a, b in zip(told, counted))


def curves(picture, named):
    """The bounds that a picture shows, each with the classes of its line and its marks, and with its first rest."""
    yield EXACT_STEPS, 'exact', 'stroke', picture.exact_rest()
    for place, one in enumerate(named, 1):
        ending = '' if place == 1 else f'-{place}'
        yield one.bound, f'bounded{ending}', f'diamond{ending}', picture.rest(ending)


def check(picture, data, rank, named):
    """Holds a picture to the counts of a table's row in exact steps and by the bounds that are named."""
    judged = Judged(data, named)
    frame, row, above = judged.frame, judged.rows[rank - 1], tuple(judged.rows[:rank - 1])
    numbers = ', '.join(f'{name} {number}' for name, number in zip('CDTJ', row))
    assert picture.told('title') == f'rank {rank}, {judged.tasks[rank - 1].name}: {numbers}'
    assert picture.told('desc') == plot_numbers(data, rank, named).strip('\n')

    def height(bound, instant):
        return demand(frame, bound, row, above, instant) / frame

    ticks = range(1, window(row) + 1)
    for bound, line, marks, rest in curves(picture, named):
        assert near([picture.height(line, at) for at in ticks], [height(bound, at) for at in ticks]), line
        assert near(picture.points(marks), test_points(bound, row, above)), marks
        first = first_rest(frame, bound, row, above)
        assert near(rest, (first, height(bound, first))), line
    return (1 + len(named)) * len(ticks)


def main():
    """Compares the picture in standard input."""
    options = options_of(sys.argv[2:])
    data = Path(sys.argv[1]).read_bytes()
    heights = check(Picture(sys.stdin.read()), data, options['--rank'], named_by(options))
    print(f'a title, a description and {heights} heights, as counted')


if __name__ == '__main__':
    main()
