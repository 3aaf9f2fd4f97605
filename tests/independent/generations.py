"""One generation, and many: the sections "One generation" and "Many generations" of docs/FORMATS.md."""

from collections import Counter

from .lines import Fault
from .patterns import Pattern
from .squares import END, FIRST, cells_of

MOST_CELLS = 2**20
LAST_GENERATION = 2**64 - 1
# The neighbours north, north-east and so on clockwise.
MOORE = ((0, -1), (1, -1), (1, 0), (1, 1), (0, 1), (-1, 1), (-1, 0), (-1, -1))
VON_NEUMANN = MOORE[::2]


def check_cells(pattern):
    """The refusals that need no look at a cell, the rule's aside."""
    if pattern.generation == LAST_GENERATION:
        raise Fault("GenerationTooLarge")
    if pattern.plane.population > MOST_CELLS:
        raise Fault("TooManyCells")


def check_places(places):
    """No cell outside the plane may have a state other than 0."""
    if not all(FIRST <= x < END and FIRST <= y < END for x, y in places):
        raise Fault("OutOfPlane")


def next_of(squares, pattern, states):
    """The next pattern, where these places have states other than 0."""
    check_places(states)
    plane = squares.of_runs([(x, y, 1, state) for (x, y), state in states.items()])
    return Pattern(pattern.rule, pattern.generation + 1, plane)


def next_alive(rule, alive):
    """The places of the live cells of the next generation under a B/S rule."""
    around = MOORE if rule.neighbours == 8 else VON_NEUMANN
    counts = Counter((x + right, y + down) for x, y in alive for right, down in around)
    born = {place for place, count in counts.items() if place not in alive and count in rule.births}
    staying = {place for place in alive if counts[place] in rule.survivals}
    return born | staying


def step_by_rule(squares, pattern):
    """The next generation under a B/S rule."""
    if not pattern.rule.is_life:
        raise Fault("NeedsTable")
    check_cells(pattern)
    alive = next_alive(pattern.rule, {(x, y) for x, y, _ in cells_of(pattern.plane)})
    return next_of(squares, pattern, dict.fromkeys(alive, 1))


def later_by_rule(squares, pattern, generations):
    """The pattern so many generations later under a B/S rule, generation by generation."""
    if generations == 0:
        return pattern
    if not pattern.rule.is_life:
        raise Fault("NeedsTable")
    if pattern.generation + generations > LAST_GENERATION:
        raise Fault("GenerationTooLarge")
    alive = {(x, y) for x, y, _ in cells_of(pattern.plane)}
    for _ in range(generations):
        alive = next_alive(pattern.rule, alive)
        check_places(alive)
    return Pattern(pattern.rule, pattern.generation + generations, squares.of_runs([(x, y, 1, 1) for x, y in alive]))


def step_by_table(squares, pattern, table):
    """The next generation by a rule table."""
    if pattern.rule.text != table.name:
        raise Fault("RuleMismatch")
    check_cells(pattern)
    states = {(x, y): state for x, y, state in cells_of(pattern.plane)}
    if any(state >= table.states for state in states.values()):
        raise Fault("StateBeyondTable")
    around = MOORE if table.neighbours == 8 else VON_NEUMANN
    # A neighbour's neighbour is told by the same list: it holds the opposite of each of its places.
    places = set(states) | {(x + right, y + down) for x, y in states for right, down in around}
    found, known = {}, {}
    for x, y in sorted(places, key=lambda place: (place[1], place[0])):
        seen = states.get((x, y), 0), tuple(states.get((x + right, y + down), 0) for right, down in around)
        if seen not in known:
            known[seen] = table.decided(*seen)
        if known[seen]:
            found[x, y] = known[seen]
    return next_of(squares, pattern, found)
