"""What stands in which row: crates by name, columns by their heading, and runs, where lines go straight down past rows."""
from dataclasses import dataclass
from typing import NamedTuple


@dataclass(eq=False)
class Section:
    """A band, or a column within one: its crates but for those of its columns, and its columns."""

    title: str
    crates: tuple
    columns: tuple = ()

    @property
    def all_crates(self):
        return self.crates + tuple(crate for column in self.columns for crate in column.crates)


class Run(NamedTuple):
    """The lines to one crate, which go together past rows of a section: within a column those of that column, otherwise all."""

    needed: str
    section: Section


class Rows:
    def __init__(self, bands, needs):
        """`needs` has what each crate needs directly; `bands` come from the bottom up, and no crate needs one of a band above its own."""
        self.bands, self.needs = bands, needs
        self.of, self.span, self.home = {}, {}, {}
        """The rows of everything, counted from the bottom up; those of a section, with its heading's; and in which section everything stands."""
        self.lines = {}
        """From what to what lines go down, and to which row, each once."""
        for band in bands:
            self.add(band)
        for crate in self.crates():
            for needed in needs[crate]:
                self.lead(crate, needed)

    def crates(self):
        return [crate for band in self.bands for crate in band.all_crates]

    def links(self):
        """From what to what else lines go."""
        return dict.fromkeys((upper, lower) for upper, lower, _ in self.lines if upper != lower)

    def row(self, each):
        return min(self.of[each])

    def band(self, each):
        home = self.home[each]
        return self.home.get(home, home)

    def add(self, band):
        """A band stands on the one before, and a crate on those of its band that it needs."""
        first = max((span.stop for span in self.span.values()), default=0)
        for crate in band.all_crates:
            self.stand(crate, band, first)
        for column in band.columns:
            rows = [self.row(crate) for crate in column.crates]
            self.span[column] = range(min(rows), max(rows) + 2)
            self.of[column] = {max(rows) + 1}
            self.home.update({column: band, **dict.fromkeys(column.crates, column)})
        self.span[band] = range(first, max(self.row(each) for each in band.all_crates + band.columns) + 1)

    def stand(self, crate, band, first):
        if crate not in self.of:
            below = [self.stand(needed, band, first) for needed in self.needs[crate] if needed in band.all_crates]
            self.of[crate], self.home[crate] = {max(below, default=first - 1) + 1}, band
        return self.row(crate)

    def lead(self, crate, needed):
        """A line from a crate down to one that it needs, over a run in each row between them."""
        upper = crate
        for row in reversed(range(self.row(needed), self.row(crate))):
            lower = needed if row == self.row(needed) else self.run(crate, needed, row)
            self.of.setdefault(lower, set()).add(row)
            self.lines[upper, lower, row] = None
            upper = lower

    def run(self, crate, needed, row):
        columns = [home for home in (self.home[crate], self.home[needed]) if home not in self.bands]
        run = Run(needed, next(section for section in (*columns, *self.bands) if row in self.span[section]))
        self.home[run] = run.section
        return run
