"""Squares of cells: what the sections "The cells" and "The canonical file" of docs/FORMATS.md speak of."""

TOP = 62
FIRST = -(2**(TOP - 1))
END = 2**(TOP - 1)


class Square:
    """A square of a level: one state at level 0, else the quarters north-west, north-east, south-west and south-east, one level lower."""

    def __init__(self, level, quarters, state=0):
        self.level, self.quarters, self.state = level, quarters, state
        self.population = sum(it.population for it in quarters) if quarters else int(state != 0)

    @property
    def is_blank(self):
        return self.population == 0


# The square of each state, and the blank square of each level.
CELLS = [Square(0, (), state) for state in range(256)]
BLANK = [CELLS[0]]
for _ in range(TOP):
    BLANK.append(Square(len(BLANK), (BLANK[-1],) * 4))


class Squares:
    """Keeps each square once, so that two squares with the same cells are one object."""

    def __init__(self):
        self.known = {square.quarters: square for square in BLANK[1:]}

    def join(self, *quarters):
        if quarters not in self.known:
            self.known[quarters] = Square(quarters[0].level + 1, quarters)
        return self.known[quarters]

    def of_rows(self, rows):
        """The square with these rows of states: as many rows as each has states, a power of two."""
        half = len(rows) // 2
        if half == 0:
            return CELLS[rows[0][0]]
        return self.join(*(self.of_rows([row[west:west + half] for row in rows[north:north + half]]) for north in (0, half) for west in (0, half)))

    def of_runs(self, runs):
        """The whole plane with these runs: column, row, length and state of each. The least square in its middle that holds them is made first."""
        level = 1
        while not all(is_within(run, 2**(level - 1)) for run in runs):
            level += 1
        side = 2**(level - 1)
        return self.on_plane(self.clipped(tuple((column + side, row + side, length, state) for column, row, length, state in runs), level, {}))

    def clipped(self, runs, level, done):
        """The square of this level with these runs, which are told from its north-west corner and lie in it. `done` has those that are made."""
        if not runs:
            return BLANK[level]
        if level == 0:
            return CELLS[runs[-1][3]]
        if (level, runs) not in done:
            half = 2**(level - 1)
            quarters = (self.clipped(part_of(runs, west, north, half), level - 1, done) for north in (0, half) for west in (0, half))
            done[level, runs] = self.join(*quarters)
        return done[level, runs]

    def grown(self, square):
        """The square one level higher with this one in its middle."""
        blank = BLANK[square.level - 1]
        north_west, north_east, south_west, south_east = square.quarters
        return self.join(
            self.join(blank, blank, blank, north_west),
            self.join(blank, blank, north_east, blank),
            self.join(blank, south_west, blank, blank),
            self.join(south_east, blank, blank, blank),
        )

    def on_plane(self, square):
        """The whole plane with a square of level 1 or more in its middle."""
        while square.level < TOP:
            square = self.grown(square)
        return square

    def trimmed(self, square, least):
        """The square without its blank borders, of the least level or above."""
        while square.level > least:
            inner = tuple(quarter.quarters[3 - place] for place, quarter in enumerate(square.quarters))
            if sum(it.population for it in inner) < square.population:
                break
            square = self.join(*inner)
        return square


def is_within(run, side):
    """Whether a run lies in the columns and rows from -side to side - 1."""
    column, row, length, _ = run
    return -side <= column <= side - length and -side <= row < side


def part_of(runs, west, north, side):
    """The parts of runs that lie in a square, told from its corner."""
    found = []
    for column, row, length, state in runs:
        if north <= row < north + side and column < west + side and column + length > west:
            first, behind = max(column, west), min(column + length, west + side)
            found.append((first - west, row - north, behind - first, state))
    return tuple(found)


def rows_of(square):
    """The states of a square, row by row."""
    if square.level == 0:
        return [[square.state]]
    north_west, north_east, south_west, south_east = map(rows_of, square.quarters)
    return [west + east for west, east in zip(north_west + south_west, north_east + south_east)]


def corners_of(square):
    """The corners of the quarters of a square, told from its own corner."""
    half = 2**(square.level - 1)
    return [(west, north) for north in (0, half) for west in (0, half)]


def cells_of(square, west=FIRST, north=FIRST):
    """The nonzero cells of a square whose corner is at a place: column, row and state of each."""
    if square.is_blank:
        return []
    if square.level == 0:
        return [(west, north, square.state)]
    return [cell for quarter, (x, y) in zip(square.quarters, corners_of(square)) for cell in cells_of(quarter, west + x, north + y)]


def box_of(square, done):
    """The least box around the nonzero cells of a square that isn't blank, told from its corner: the first column and row, and the last ones.
    `done` has the boxes that are known."""
    if square.level == 0:
        return 0, 0, 0, 0
    if square not in done:
        parts = [(box_of(quarter, done), x, y) for quarter, (x, y) in zip(square.quarters, corners_of(square)) if not quarter.is_blank]
        done[square] = (
            min(x + box[0] for box, x, y in parts),
            min(y + box[1] for box, x, y in parts),
            max(x + box[2] for box, x, y in parts),
            max(y + box[3] for box, x, y in parts),
        )
    return done[square]
