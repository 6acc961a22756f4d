"""From left to right: first the turn of everything in its band, so that few lines cross, then its place, so that lines are straight.

Both are found by trying: everything goes elsewhere in turn, and stays there where that is better, until nothing is.
"""
from collections import defaultdict

from layering.rows import Run, Section

SWEEPS = 4
"""Over all bands, up and down, before single turns are tried; more change little."""

STEP = 7
"""All places are multiples of this, so that lines that are not in line are well apart."""

# In steps:
HALF_BOX, BETWEEN, BESIDE_COLUMN, COLUMN_PADDING = 9, 2, 3, 1
"""Half a box; from one thing to the next, and where one of them is in another column; from the edge of a column to what stands in it."""
ENOUGH = 147
"""What all should fit into."""

BOX_WIDTH, WIDTH = 2 * HALF_BOX * STEP, ENOUGH * STEP
HALF_LETTER = 4
"""Of a heading."""
LOOSE, STRAIGHT, BENT = 1, 9, 2
"""What each step costs by which the ends of a line are not in line, where one is a box and the other a run, and where both are alike; and how many
steps it counts that they are not in line at all."""


class Turns:
    """What belongs to a column stays together, behind its heading."""

    def __init__(self, rows):
        self.rows = rows
        self.lines, self.members, self.turn = defaultdict(list), defaultdict(list), {}
        """The lines down to each row, and the members of each section from left to right."""
        for upper, lower, row in rows.lines:
            self.lines[row].append((upper, lower))
        for each in rows.of:
            self.members[rows.home[each]].append(each)
        for band in rows.bands:
            self.count(band)
        for sweep in range(SWEEPS):
            self.sweep(upwards=sweep % 2 == 0)
        while any([self.improve(each, section) for section in self.members for each in list(self.members[section])]):
            pass

    def order(self, band):
        return [each for member in self.members[band] for each in (member, *self.members.get(member, ()))]

    def count(self, band):
        """Turns go from 0 to 1, so that those of all bands compare."""
        order = self.order(band)
        self.turn.update({each: (at + 0.5) / len(order) for at, each in enumerate(order)})

    def sweep(self, upwards):
        """Sorts each band by the mean turn of what its members have lines to, below or above."""
        linked = defaultdict(list)
        for upper, lower in self.rows.links():
            linked[upper if upwards else lower].append(lower if upwards else upper)
        for band in self.rows.bands if upwards else reversed(self.rows.bands):
            for each in sorted(self.order(band), key=self.rows.row, reverse=not upwards):
                self.turn[each] = self.mean(linked[each] or [each])
            for section in (band, *band.columns):
                self.members[section].sort(key=lambda each: self.mean(each.crates if isinstance(each, Section) else [each]))
            self.count(band)

    def mean(self, several):
        return sum(self.turn[each] for each in several) / len(several)

    def improve(self, each, section):
        """Gives a member the best turn within its section, and says whether that is another than before."""
        before = self.members[section].index(each)
        costs = {at: self.cost_at(at, each, section) for at in (before, *range(len(self.members[section])))}
        best = min(costs, key=costs.get)
        self.cost_at(best, each, section)
        return best != before

    def cost_at(self, at, each, section):
        """Moves a member, and says how many lines then cross, and how far they lean."""
        self.members[section].remove(each)
        self.members[section].insert(at, each)
        band = self.rows.home.get(section, section)
        self.count(band)
        crossed, lean = 0, 0
        for row in range(self.rows.span[band].start - 1, self.rows.span[band].stop):
            ends = [(self.turn[upper], self.turn[lower]) for upper, lower in self.lines[row]]
            crossed += sum((upper - other) * (lower - end) < 0 for at, (upper, lower) in enumerate(ends) for other, end in ends[:at])
            lean += sum(abs(upper - lower) for upper, lower in ends)
        return crossed, lean


class Places:
    def __init__(self, rows):
        self.rows, turns = rows, Turns(rows)
        self.apart = {band: list(self.distances(turns.order(band))) for band in rows.bands}
        self.price = {(upper, lower): STRAIGHT if isinstance(upper, Run) == isinstance(lower, Run) else LOOSE for upper, lower in rows.links()}
        self.price.update({(column, crate): LOOSE for band in rows.bands for column in band.columns for crate in column.crates})
        self.linked = defaultdict(list)
        for upper, lower in self.price:
            self.linked[upper].append(lower)
            self.linked[lower].append(upper)
        self.steps = self.pushed({each: half(each) for each in rows.of}, rows.of, 1)
        self.enough = max(ENOUGH, self.width())
        while any([self.improve(each, other) for each in self.linked for other in self.linked[each]]):
            pass

    def width(self):
        return max(step + half(each) for each, step in self.steps.items())

    def distances(self, order):
        """How far any two have to be apart that are side by side."""
        for at, right in enumerate(order):
            for left in order[:at]:
                if not self.rows_beside(left, right).isdisjoint(self.rows_beside(right, left)):
                    yield left, right, half(left) + half(right) + (BETWEEN if self.section(left) == self.section(right) else BESIDE_COLUMN)

    def rows_beside(self, each, other):
        """A column keeps others out of all its rows."""
        section = self.section(each)
        return self.rows.of[each] if section in (self.section(other), *self.rows.bands) else set(self.rows.span[section])

    def section(self, each):
        return each if isinstance(each, Section) else self.rows.home[each]

    def improve(self, each, other):
        """Puts one, and all in line with it, in line with another too, if lines lean less then; and says whether it did."""
        move, group = self.steps[other] - self.steps[each], self.in_line(each)
        if not move:
            return False
        steps = self.pushed({**self.steps, **{one: self.steps[one] + move for one in group}}, group, move)
        fits = all(half(one) <= step <= self.enough - half(one) for one, step in steps.items())
        better = fits and self.lean(steps) < self.lean(self.steps)
        self.steps = steps if better else self.steps
        return better

    def in_line(self, each):
        group = [each]
        for one in group:
            group += [other for other in self.linked[one] if self.steps[other] == self.steps[one] and other not in group]
        return group

    def pushed(self, steps, group, move):
        """What is in the way of a group that moved gives way in the same direction."""
        for band in dict.fromkeys(map(self.rows.band, group)):
            for left, right, distance in self.apart[band] if move > 0 else reversed(self.apart[band]):
                if steps[right] - steps[left] < distance:
                    steps.update({right: steps[left] + distance} if move > 0 else {left: steps[right] - distance})
        return steps

    def lean(self, steps):
        leaning = ((price, steps[upper] - steps[lower]) for (upper, lower), price in self.price.items() if steps[upper] != steps[lower])
        return sum(price * (BENT + abs(aside)) for price, aside in leaning)


def half(each):
    """Half the width of what stands in a row, in steps."""
    if isinstance(each, Section):
        return -(-len(each.title) * HALF_LETTER // STEP)
    return 0 if isinstance(each, Run) else HALF_BOX
