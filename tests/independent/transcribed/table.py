"""Rule tables: what each line says, what a file says, and which state a table gives a cell."""

from typing import NamedTuple, Optional, Union

from .files import on_line
from .library import Err, after_first, before_first, byte, codes, drop, is_ascii_digit, is_ascii_graphic, list_all, list_any, position
from .library import slice_get, slice_index, slice_split, take, unwrap_or
from .macrocell import is_command
from .rules import Named, has, rule_of
from .text import begins_with, is_blank, is_digit_text, is_empty, is_too_long, is_whitespace, lines_of, trim, value_of


class Fixed(NamedTuple):
    state: int


class VariableEntry(NamedTuple):
    """An entry `variable number`."""

    number: int


class Variable(NamedTuple):
    name: bytes
    states: tuple


class Transition(NamedTuple):
    line: int
    inputs: tuple
    output: Union[Fixed, VariableEntry]


class Table(NamedTuple):
    name: bytes
    n_states: Optional[int]
    neighbours: Optional[int]
    symmetry: Optional[bytes]
    variables: tuple
    transitions: tuple


class Ahead(NamedTuple):
    pass


class NamedRule(NamedTuple):
    name: bytes


class InTable(NamedTuple):
    table: Table


class Behind(NamedTuple):
    table: Table


# ---- Descriptors


def is_complete(table):
    return table.n_states is not None and table.neighbours is not None and table.symmetry is not None


EVERY_SYMMETRY = [codes("none"), codes("rotate4"), codes("rotate4reflect"), codes("reflect_horizontal"), codes("permute")]


def symmetries_of(neighbours):
    return [*EVERY_SYMMETRY, codes("rotate8"), codes("rotate8reflect")] if neighbours == 8 else EVERY_SYMMETRY


def agree(neighbours, word):
    if neighbours is not None and word is not None:
        return list_any(lambda it: it == word, symmetries_of(neighbours))
    return True


def with_neighbours(table, n):
    if n is None:
        raise Err("UnsupportedNeighborhood")
    if not agree(n, table.symmetry):
        raise Err("UnsupportedSymmetry")
    return table._replace(neighbours=n)


def neighbours_named(word):
    if word == codes("vonNeumann"):
        return 4
    return 8 if word == codes("Moore") else None


def with_descriptor(table, key, value):
    if key == codes("n_states") and table.n_states is None:
        if not (is_digit_text(value) and 2 <= value_of(value) and value_of(value) <= 256):
            raise Err("BadDescriptor")
        return table._replace(n_states=value_of(value))
    if key in (codes("neighborhood"), codes("neighbourhood")) and table.neighbours is None:
        return with_neighbours(table, neighbours_named(value))
    if key == codes("symmetries") and table.symmetry is None:
        if not (list_any(lambda it: it == value, symmetries_of(8)) and agree(table.neighbours, value)):
            raise Err("UnsupportedSymmetry")
        return table._replace(symmetry=value)
    raise Err("BadDescriptor")


# ---- Entries


def entry_of(table, text):
    if is_digit_text(text):
        return Fixed(value_of(text)) if value_of(text) < unwrap_or(table.n_states, 0) else None
    number = position(lambda v: v.name == text, table.variables)
    return None if number is None else VariableEntry(number)


def entries_of(table, texts):
    """The entries of texts, or None where one of them is none."""
    entries = []
    for text in texts:
        entry = entry_of(table, text)
        if entry is None:
            return None
        entries.append(entry)
    return tuple(entries)


def states_of(variables, entry):
    if isinstance(entry, Fixed):
        return (entry.state,)
    v = slice_get(variables, entry.number)
    return () if v is None else v.states


def parts_of(text):
    return [trim(part) for part in slice_split(lambda b: b == byte(","), text)]


# ---- Variables and transitions


def is_name(name):
    return (
        not is_empty(name) and list_all(lambda b: is_ascii_graphic(b) and not has(codes(",={}:#@"), b), name)
        and not is_ascii_digit(slice_index(name, 0))
    )


def with_variable(table, text):
    name = trim(before_first(lambda b: b == byte("="), text))
    listed = trim(after_first(lambda b: b == byte("="), text))
    inner = take(max(len(listed) - 2, 0), drop(1, listed))
    braces = 2 <= len(listed) and begins_with(listed, codes("{")) and drop(len(listed) - 1, listed) == codes("}")
    if not (is_name(name) and not list_any(lambda v: v.name == name, table.variables) and braces):
        raise Err("BadVariable")
    entries = entries_of(table, parts_of(inner))
    if entries is None:
        raise Err("BadVariable")
    states = tuple(state for entry in entries for state in states_of(table.variables, entry))
    return table._replace(variables=(*table.variables, Variable(name, states)))


def transition_texts(text):
    if has(text, byte(",")):
        return parts_of(text)
    return [bytes([b]) for b in text if not is_whitespace(b)]


def is_bound(inputs, entry):
    if isinstance(entry, Fixed):
        return True
    return list_any(lambda e: isinstance(e, VariableEntry) and e.number == entry.number, inputs)


def fits_zero(variables, line):
    return list_all(lambda entry: list_any(lambda s: s == 0, states_of(variables, entry)), line.inputs)


def leaves_zero(entry):
    return isinstance(entry, Fixed) and not entry.state == 0


def with_entries(table, number, inputs, output):
    line = Transition(number, inputs, output)
    if not is_bound(inputs, output):
        raise Err("UnboundOutput")
    if fits_zero(table.variables, line) and leaves_zero(output) and not list_any(lambda it: fits_zero(table.variables, it), table.transitions):
        raise Err("NotQuiet")
    return table._replace(transitions=(*table.transitions, line))


def with_transition(table, number, text):
    texts = transition_texts(text)
    inputs = unwrap_or(table.neighbours, 0) + 1
    if not len(texts) == inputs + 1:
        raise Err("BadTransition")
    entries = entries_of(table, take(inputs, texts))
    if entries is None:
        raise Err("BadTransition")
    output = entry_of(table, unwrap_or(slice_get(texts, inputs), b""))
    if output is None:
        raise Err("BadTransition")
    return with_entries(table, number, entries, output)


# ---- The lines


def with_text(table, number, text):
    if is_empty(text):
        return table
    if has(text, byte(":")):
        return with_descriptor(table, trim(before_first(lambda b: b == byte(":"), text)), trim(after_first(lambda b: b == byte(":"), text)))
    if not is_complete(table):
        raise Err("BadDescriptor")
    if is_command(codes("var"), text) and 3 < len(text):
        return with_variable(table, drop(3, text))
    return with_transition(table, number, text)


def rule_line(line):
    try:
        rule = rule_of(drop(5, line))
    except Err:
        raise Err("NoRuleLine") from None
    if not (isinstance(rule, Named) and is_command(codes("@RULE"), line)):
        raise Err("NoRuleLine")
    return NamedRule(rule.name)


def new_table(name):
    return Table(name, None, None, None, (), ())


def with_line(section, number, line):
    if is_too_long(line):
        raise Err("LineTooLong")
    if isinstance(section, Ahead):
        return section if is_blank(line) or begins_with(line, codes("#")) else rule_line(line)
    if isinstance(section, NamedRule):
        return InTable(new_table(section.name)) if is_command(codes("@TABLE"), line) else section
    if isinstance(section, Behind):
        return section
    if begins_with(line, codes("@")):
        if not is_complete(section.table):
            raise Err("BadDescriptor")
        return Behind(section.table)
    return InTable(with_text(section.table, number, trim(before_first(lambda b: b == byte("#"), line))))


def end_of_table(section):
    if isinstance(section, Ahead):
        raise Err("NoRuleLine")
    if isinstance(section, NamedRule):
        raise Err("NoTable")
    if isinstance(section, InTable) and not is_complete(section.table):
        raise Err("BadDescriptor")
    return section.table


def read_table_lines(number, section, lines):
    for line in lines:
        section = on_line(number, with_line, section, number, line)
        number += 1
    return on_line(number, end_of_table, section)


def table_of(data):
    return read_table_lines(1, Ahead(), lines_of(data))


# ---- What a table gives


def turn(v, r):
    return tuple(v[(i + r) % len(v)] for i in range(len(v)))


def reflected(v, r):
    return tuple(v[(len(v) - i + r) % len(v)] for i in range(len(v)))


def turns(by, v, count, step):
    return [by(v, k * step) for k in range(count)]


def insertions(x, items):
    if not items:
        return [(x,)]
    y, *ys = items
    return [(x, *items), *((y, *zs) for zs in insertions(x, tuple(ys)))]


def orders(items):
    """Every order of a list, but each of them once: equal orders give a cell the same."""
    if not items:
        return [()]
    x, *xs = items
    return list(dict.fromkeys(order for found in orders(tuple(xs)) for order in insertions(x, found)))


def images(word, v):
    quarter = len(v) // 4
    if word == codes("rotate4"):
        return turns(turn, v, 4, quarter)
    if word == codes("rotate4reflect"):
        return turns(turn, v, 4, quarter) + turns(reflected, v, 4, quarter)
    if word == codes("reflect_horizontal"):
        return [turn(v, 0), reflected(v, 0)]
    if word == codes("permute"):
        return orders(v)
    if word == codes("rotate8"):
        return turns(turn, v, 8, 1)
    if word == codes("rotate8reflect"):
        return turns(turn, v, 8, 1) + turns(reflected, v, 8, 1)
    return [v]


def taken(entries, states, n):
    """The state that a variable takes: that of its first place."""
    for entry, state in zip(entries, states):
        if isinstance(entry, VariableEntry) and entry.number == n:
            return state
    return 0


def allows(variables, value, entry, state):
    if isinstance(entry, Fixed):
        return entry.state == state
    return value(entry.number) == state and list_any(lambda s: s == state, states_of(variables, entry))


def given(variables, line, states):
    """The state that a line gives a cell for one order of its neighbours, or None where it doesn't fit them."""
    def value(n):
        return taken(line.inputs, states, n)

    if not all(allows(variables, value, entry, state) for entry, state in zip(line.inputs, states)):
        return None
    return line.output.state if isinstance(line.output, Fixed) else value(line.output.number)


def gives(table, centre, around, line):
    found = (given(table.variables, line, (centre, *image)) for image in images(unwrap_or(table.symmetry, b""), around))
    return [state for state in found if state is not None]


class Becomes(NamedTuple):
    state: int


class Ambiguous(NamedTuple):
    line: int


def decided(table, centre, around, lines, giving=gives):
    """What the first of these lines that gives anything decides. `giving` is `gives`, or a quicker way to the same."""
    for line in lines:
        states = giving(table, centre, around, line)
        if states:
            state, *others = states
            return Becomes(state) if list_all(lambda s: s == state, others) else Ambiguous(line.line)
    return Becomes(centre)
