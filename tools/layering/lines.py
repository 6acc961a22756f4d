"""How lines go between two rows: straight down, or down to a track, along it, and down again. All lines to one crate or run share a track."""
from collections import defaultdict
from dataclasses import dataclass

from layering.places import BOX_WIDTH
from layering.rows import Run

BETWEEN_PORTS, FROM_CORNER = 14, 7
"""How far apart lines leave a box, and how far from its corners."""
TOO_NEAR = 6
"""Two lines side by side as near as this would look like one."""
LIKE_ONE = 100
"""What that costs, in crossings."""


@dataclass(frozen=True)
class Bundle:
    """The lines that come together between two rows: where they arrive at the lower, and where each leaves the upper."""

    arrives: int
    leaves: tuple

    def spans(self, place):
        return min(self.arrives, *self.leaves) - TOO_NEAR < place < max(self.arrives, *self.leaves) + TOO_NEAR

    def meets(self, other):
        return any(map(self.spans, (other.arrives, *other.leaves))) or other.spans(self.arrives)

    def price_above(self, other):
        """How many lines cross where this bundle has its track above the other's, with those counted that look like one."""
        like_one = any(abs(place - self.arrives) < TOO_NEAR for place in other.leaves)
        return other.spans(self.arrives) + sum(map(self.spans, other.leaves)) + LIKE_ONE * like_one


def reach(each):
    """How far from its middle a line may leave or meet something."""
    return 0 if isinstance(each, Run) else BOX_WIDTH // 2 - FROM_CORNER


class Lines:
    def __init__(self, rows, place):
        self.place = place
        self.uppers, self.lowers = defaultdict(list), defaultdict(list)
        for upper, lower, row in rows.lines:
            self.uppers[lower, row].append(upper)
            self.lowers[upper, row].append(lower)
        self.leaves = {}
        for upper, row in self.lowers:
            self.leave(upper, row)
        self.track, self.tracks = {}, defaultdict(int)
        """Which track lines have, and how many there are above a row."""
        for row in {row: None for *_, row in rows.lines}:
            self.lay(row)

    def arrival(self, lower, row):
        """Where lines come in from above: straight down into a box where a run stands over it, otherwise in the middle."""
        middle = self.place[lower]
        runs = [self.place[upper] for upper in self.uppers[lower, row] if isinstance(upper, Run)]
        return min([place for place in runs if abs(place - middle) <= reach(lower)] or [middle], key=lambda place: abs(place - middle))

    def leave(self, upper, row):
        """Where lines leave: over their end where they can, each beside the other."""
        lowers = sorted(self.lowers[upper, row], key=lambda lower: self.arrival(lower, row))
        left, right = self.place[upper] - reach(upper), self.place[upper] + reach(upper)
        for at, lower in enumerate(lowers):
            room_behind = (len(lowers) - at - 1) * BETWEEN_PORTS
            self.leaves[upper, lower, row] = max(left, min(right - room_behind, self.arrival(lower, row)))
            left = self.leaves[upper, lower, row] + BETWEEN_PORTS

    def bundle(self, lower, row):
        return Bundle(self.arrival(lower, row), tuple(self.leaves[upper, lower, row] for upper in self.uppers[lower, row]))

    def lay(self, row):
        """Tracks from above: next comes the bundle that crosses the others least by being above them."""
        bundles = {lower: self.bundle(lower, row) for lower, at in self.uppers if at == row}
        waiting = [bundle for bundle in bundles.values() if {bundle.arrives} != set(bundle.leaves)]
        laid = {}
        while waiting:
            bundle = min(waiting, key=lambda each: sum(each.price_above(other) - other.price_above(each) for other in waiting))
            waiting.remove(bundle)
            laid[bundle] = 1 + max((track for other, track in laid.items() if other.meets(bundle)), default=-1)
        self.track.update({(lower, row): laid.get(bundle, 0) for lower, bundle in bundles.items()})
        self.tracks[row] = 1 + max(laid.values(), default=-1)
