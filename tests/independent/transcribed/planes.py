"""Whole planes. The definitions speak of the state of each cell, and of all cells at once: a pattern is drawn here as squares of squares, each of
which is kept once, so that two patterns have the same cells exactly if they have one root. No definition stands here: that a drawing has the
states of `cell` is seen at single cells."""

from .macrocell import Leaf, Macrocell, leaf_state
from .rle import RowEnds

# The level of the plane's square.
TOP = 62


class Planes:
    """Squares by number: 0 is the empty one of each level, and at level 0 the number is the state."""

    def __init__(self):
        self.numbers = {}
        self.quarters = [None]
        self.drawn = {}
        self.known = {}

    def square(self, level, *quarters):
        if not any(quarters):
            return 0
        key = (level, *quarters)
        number = self.numbers.get(key)
        if number is None:
            number = self.numbers[key] = len(self.quarters)
            self.quarters.append(quarters)
        return number

    def grown(self, level, number):
        """The plane's square around a square of this level in its middle."""
        while level < TOP:
            nw, ne, sw, se = self.quarters[number] if number else (0, 0, 0, 0)
            inner = self.square(level, 0, 0, 0, nw), self.square(level, 0, 0, ne, 0), self.square(level, 0, sw, 0, 0), self.square(level, se, 0, 0, 0)
            level += 1
            number = self.square(level, *inner)
        return number

    # ---- Drawing

    def leaf(self, rows, level=3, column=0, row=0):
        if level == 0:
            return leaf_state(rows, column, row)
        side = 2 ** (level - 1)
        corners = (column, row), (column + side, row), (column, row + side), (column + side, row + side)
        return self.square(level, *(self.leaf(rows, level - 1, *corner) for corner in corners))

    def of_macrocell(self, nodes):
        numbers, level, number = [0], 1, 0
        for node in nodes:
            if isinstance(node, Leaf):
                level, number = 3, self.leaf(node.rows)
            else:
                level, *quarters = node
                number = self.square(level, *(quarters if level == 1 else (numbers[it] for it in quarters)))
            numbers.append(number)
        return self.grown(level, number)

    def of_runs(self, runs):
        """By runs of cells: column, row, length and state."""
        runs = [run for run in runs if run[3]]
        farthest = max((max(-x, x + count, -y, y + 1) for x, y, count, _ in runs), default=1)
        level = (farthest - 1).bit_length() + 1
        half = 2 ** (level - 1)
        return self.grown(level, self.of_runs_in(level, tuple((x + half, y + half, count, state) for x, y, count, state in runs)))

    def of_runs_in(self, level, runs):
        if not runs:
            return 0
        if level == 0:
            return runs[0][3]
        number = self.drawn.get((level, runs))
        if number is not None:
            return number
        side = 2 ** (level - 1)
        quarters = [[], [], [], []]
        for x, y, count, state in runs:
            south, row = (2, y - side) if y >= side else (0, y)
            if x < side:
                quarters[south].append((x, row, min(count, side - x), state))
            if x + count > side:
                begin = max(x, side)
                quarters[south + 1].append((begin - side, row, x + count - begin, state))
        number = self.square(level, *(self.of_runs_in(level - 1, tuple(it)) for it in quarters))
        self.drawn[level, runs] = number
        return number

    def of(self, pattern):
        said = pattern.said
        return self.of_macrocell(said.nodes) if isinstance(said, Macrocell) else self.of_runs(runs_of(said))

    # ---- Reading

    def state(self, root, x, y):
        """The state of a cell of the plane."""
        half = 2 ** (TOP - 1)
        if not (-half <= x < half and -half <= y < half):
            return 0
        number, x, y = root, x + half, y + half
        for level in range(TOP - 1, -1, -1):
            if number == 0:
                return 0
            number = self.quarters[number][2 * (y >> level & 1) + (x >> level & 1)]
        return number

    def middle(self, root, level):
        """The square of a level, above 0, about the middle of the plane."""
        for lower in range(TOP - 1, level - 1, -1):
            nw, ne, sw, se = (self.quarters[it] if it else (0, 0, 0, 0) for it in (self.quarters[root] if root else (0, 0, 0, 0)))
            root = self.square(lower, nw[3], ne[2], sw[1], se[0])
        return root

    def square_of(self, made, number, level):
        """A square as `made`, the `Squares` of `canonical.py`, makes it."""
        if level == 0:
            return made.point(number)
        key = ("square", made, number, level)
        if key not in self.known:
            quarters = self.quarters[number] if number else (0, 0, 0, 0)
            self.known[key] = made.quarters(*(self.square_of(made, it, level - 1) for it in quarters))
        return self.known[key]

    def population(self, number, level=TOP):
        if level == 0 or number == 0:
            return int(number != 0)
        key = ("population", number)
        if key not in self.known:
            self.known[key] = sum(self.population(it, level - 1) for it in self.quarters[number])
        return self.known[key]

    def box(self, root):
        """The first column and row and the last ones that have a cell, or None."""
        found, half = self.box_in(root, TOP), 2 ** (TOP - 1)
        return found and tuple(it - half for it in found)

    def box_in(self, number, level):
        if number == 0:
            return None
        if level == 0:
            return 0, 0, 0, 0
        key = ("box", number)
        if key not in self.known:
            side = 2 ** (level - 1)
            boxes = []
            for place, quarter in enumerate(self.quarters[number]):
                inner = self.box_in(quarter, level - 1)
                if inner:
                    dx, dy = side * (place % 2), side * (place // 2)
                    boxes.append((inner[0] + dx, inner[1] + dy, inner[2] + dx, inner[3] + dy))
            lefts, tops, rights, bottoms = zip(*boxes)
            self.known[key] = min(lefts), min(tops), max(rights), max(bottoms)
        return self.known[key]

    def some_cell(self, source, root):
        """The place of some cell that isn't 0, or None."""
        if root == 0:
            return None
        number, x, y = root, -(2 ** (TOP - 1)), -(2 ** (TOP - 1))
        for level in range(TOP - 1, -1, -1):
            place = source.choice([it for it, quarter in enumerate(self.quarters[number]) if quarter])
            number, x, y = self.quarters[number][place], x + (place % 2 << level), y + (place // 2 << level)
        return x, y

    def cells(self, number, level=TOP, left=-(2 ** (TOP - 1)), top=-(2 ** (TOP - 1))):
        """Each cell that isn't 0, with its state, as pairs of a place and a state."""
        if number == 0:
            return
        if level == 0:
            yield (left, top), number
            return
        side = 2 ** (level - 1)
        for place, quarter in enumerate(self.quarters[number]):
            yield from self.cells(quarter, level - 1, left + side * (place % 2), top + side * (place // 2))


def runs_of(file):
    """The runs of cells that items write."""
    rows, columns = 0, 0
    for item in file.items:
        if isinstance(item, RowEnds):
            rows, columns = rows + item.count, 0
        else:
            yield file.position.x + columns, file.position.y + rows, item.count, item.state
            columns += item.count
