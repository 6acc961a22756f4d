"""The drawing as SVG, in the look of docs/sign-on.svg: its own paper, so that it is read on a light page and on a dark one."""
from html import escape
from textwrap import wrap

from layering.lines import Lines
from layering.places import BOX_WIDTH, COLUMN_PADDING, STEP, WIDTH, Places, half
from layering.rows import Rows, Run

INK, QUIET, PAPER, EDGE, GROUND, BOX = "#1c2733", "#47535f", "#fbfaf6", "#8a94a0", "#f0eee6", "#ffffff"
PLAIN = "#e4e7e6", EDGE, QUIET
ENDS = {"The card's end": ("#d9e8f7", "#2f6299", "#2f6299"), "The register's end": ("#f8e3c8", "#9a5b12", "#9a5b12")}
"""The colours of a column: its ground, the edges of its boxes, and its heading and the lines to its crates. The two ends have those that the passes
of a sign-on give them."""

MARGIN, LABELS = 12, 135
"""Around all, and for the titles of the bands at the left."""
LETTERS_OF_LABEL, LABEL_LINE = 15, 17
"""How many letters a line of such a title has at most, and how far apart its lines are."""
SMALL = 'font-size="13" font-weight="bold"'
"""Titles and headings."""
BOX_HEIGHT, BOX_FOOT = 26, 18
"""How high a row is, and from its top to the foot of its letters."""
BAND_PADDING, BETWEEN_BANDS, COLUMN_MARGIN = 12, 6, 8
BEFORE_TRACKS, BETWEEN_TRACKS, BEHIND_TRACKS = 14, 7, 16
"""Between two rows: from the upper row to the first track, from track to track, and from the last to the lower row."""
CORNER = 6
HEAD_WIDTH, HEAD_LENGTH = 7, 7


class Drawing:
    def __init__(self, bands, needs):
        self.rows = Rows(bands, needs)
        places = Places(self.rows)
        width = places.width() * STEP
        shift = MARGIN + LABELS + max(WIDTH - width, 0) // 2
        self.width = MARGIN + LABELS + max(WIDTH, width) + 2 * MARGIN
        self.x = {each: shift + step * STEP for each, step in places.steps.items()}
        self.lines = Lines(self.rows, self.x)
        self.top, down = {}, MARGIN + BAND_PADDING
        for row in reversed(range(self.rows.span[bands[-1]].stop)):
            self.top[row] = down
            down += BOX_HEIGHT + BEFORE_TRACKS + max(self.lines.tracks[row - 1] - 1, 0) * BETWEEN_TRACKS + BEHIND_TRACKS
        self.height = self.top[0] + BOX_HEIGHT + BAND_PADDING + MARGIN

    def look(self, section):
        return ENDS.get(section.title, PLAIN)

    def svg(self):
        return "\n".join([*self.head(), *self.bands(), *self.arrows(), *self.boxes(), "</svg>", ""])

    def head(self):
        size = f'viewBox="0 0 {self.width} {self.height}" width="{self.width}" height="{self.height}"'
        look = f'font-family="Helvetica, Arial, sans-serif" font-size="14" fill="{INK}"'
        yield f'<svg xmlns="http://www.w3.org/2000/svg" {size} role="img" aria-labelledby="title desc" {look}>'
        yield '<title id="title">The crates in their layers</title>'
        yield f'<desc id="desc">{text(" ".join(self.told()))}</desc>'
        yield f'<rect x="0.5" y="0.5" width="{self.width - 1}" height="{self.height - 1}" rx="10" fill="{PAPER}" stroke="{EDGE}"/>'

    def told(self):
        """The drawing in words."""
        yield "Bands from the bottom up, with what each crate needs directly."
        for band in self.rows.bands:
            needs = {crate: ", ".join(self.rows.needs[crate]) for crate in band.all_crates}
            yield f"{band.title}: {'; '.join(f'{crate} needs {named}' if named else crate for crate, named in needs.items())}."

    def bands(self):
        for band in self.rows.bands:
            rows = self.rows.span[band]
            top = self.top[rows[-1]] - BAND_PADDING
            bottom = self.top[rows[0] - 1] - BAND_PADDING - BETWEEN_BANDS if rows[0] else self.height - MARGIN
            yield f'<rect x="{MARGIN}" y="{top}" width="{self.width - 2 * MARGIN}" height="{bottom - top}" rx="8" fill="{GROUND}"/>'
            for line, words in enumerate(wrap(band.title, LETTERS_OF_LABEL)):
                yield f'<text x="{2 * MARGIN}" y="{top + BAND_PADDING + BOX_FOOT + line * LABEL_LINE}" {SMALL}>{text(words)}</text>'
            for column in band.columns:
                yield from self.column(column)

    def column(self, column):
        members = [each for each, home in self.rows.home.items() if column in (each, home)]
        left = min(self.x[each] - half(each) * STEP for each in members) - COLUMN_PADDING * STEP
        right = max(self.x[each] + half(each) * STEP for each in members) + COLUMN_PADDING * STEP
        rows, (ground, _, ink) = self.rows.span[column], self.look(column)
        top, bottom = self.top[rows[-1]] - COLUMN_MARGIN, self.top[rows[0]] + BOX_HEIGHT + COLUMN_MARGIN
        yield f'<rect x="{left}" y="{top}" width="{right - left}" height="{bottom - top}" rx="8" fill="{ground}"/>'
        yield f'<text x="{left + COLUMN_PADDING * STEP}" y="{self.top[rows[-1]] + BOX_FOOT}" {SMALL} fill="{ink}">{text(column.title)}</text>'

    def arrows(self):
        """For each crate that is needed the lines to it, and their head."""
        for needed in sorted({needed for named in self.rows.needs.values() for needed in named}):
            _, _, ink = self.look(self.rows.home[needed])
            lines = "".join(self.line(*line) for line in self.rows.lines if end_of(line[1]) == needed)
            yield f'<path d="{lines}" fill="none" stroke="{ink}" stroke-width="1.2"/>'
            row = self.rows.row(needed)
            tip = f"{self.lines.arrival(needed, row)} {self.top[row]}"
            yield f'<path d="M{tip}l{-HEAD_WIDTH / 2} {-HEAD_LENGTH}h{HEAD_WIDTH}z" fill="{ink}"/>'

    def line(self, upper, lower, row):
        """Down to its track, along it and down again, round its corners; past the row where it has a run, and otherwise into the head."""
        start, end = self.lines.leaves[upper, lower, row], self.lines.arrival(lower, row)
        above, foot = self.top[row + 1] + BOX_HEIGHT, self.top[row] + BOX_HEIGHT if isinstance(lower, Run) else self.top[row] - HEAD_LENGTH + 1
        if start == end:
            return f"M{start} {above}V{foot}"
        along = above + BEFORE_TRACKS + self.lines.track[lower, row] * BETWEEN_TRACKS
        corner = min(CORNER, abs(end - start) / 2)
        aside = corner if end > start else -corner
        return f"M{start} {above}V{along - corner:g}q0 {corner:g} {aside:g} {corner:g}H{end - aside:g}q{aside:g} 0 {aside:g} {corner:g}V{foot}"

    def boxes(self):
        for crate in self.rows.crates():
            x, top, (_, edge, _) = self.x[crate], self.top[self.rows.row(crate)], self.look(self.rows.home[crate])
            yield f'<rect x="{x - BOX_WIDTH // 2}" y="{top}" width="{BOX_WIDTH}" height="{BOX_HEIGHT}" rx="5" fill="{BOX}" stroke="{edge}"/>'
            yield f'<text x="{x}" y="{top + BOX_FOOT}" text-anchor="middle">{crate}</text>'


def end_of(lower):
    return lower.needed if isinstance(lower, Run) else lower


def text(words):
    return escape(words, quote=False)
