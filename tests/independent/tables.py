"""Rule tables: the section "Rule tables" of docs/FORMATS.md."""

import re
from typing import NamedTuple, Union

from .lines import Broken, Fault, bare, check_length, is_blank, is_number, is_word_line, lines_of, value
from .rules import rule_of

NEIGHBOURS = {b"vonNeumann": 4, b"Moore": 8}
NAME = rb"[!-~]+"
NOT_IN_NAMES = b",={}:#@"
VARIABLE = re.compile(rb"var[ \t\r]+([^ \t\r=]*)[ \t\r]*=[ \t\r]*\{(.*)\}", re.DOTALL)


def turns(count, steps):
    return [tuple((place + step) % count for place in range(count)) for step in steps]


def reflected_turns(count, steps):
    return [tuple((count - place + step) % count for place in range(count)) for step in steps]


def symmetries_of(count):
    """The symmetries that are listed for so many neighbours: of each its orders, as the places that the neighbours come from. For `permute`
    every order, for which stands None."""
    quarters = range(0, count, count // 4)
    found = {
        b"none": turns(count, [0]),
        b"rotate4": turns(count, quarters),
        b"rotate4reflect": turns(count, quarters) + reflected_turns(count, quarters),
        b"reflect_horizontal": turns(count, [0]) + reflected_turns(count, [0]),
        b"permute": None,
    }
    if count == 8:
        found[b"rotate8"] = turns(count, range(8))
        found[b"rotate8reflect"] = turns(count, range(8)) + reflected_turns(count, range(8))
    return found


SYMMETRIES = {word: symmetries_of(count) for word, count in NEIGHBOURS.items()}

# An entry of a transition: a state, or the name of a variable.
Entry = Union[int, bytes]


class Transition(NamedTuple):
    """A line of a table: the entries of the centre and its neighbours, and that of the output."""

    line: int
    inputs: list
    output: Entry


class Table:
    """What the lines of a rule table say so far."""

    def __init__(self):
        self.name = None
        self.section = "before"
        self.descriptors = {}
        self.variables = {}
        self.transitions = []
        self.is_quiet = False

    @property
    def states(self):
        return self.descriptors[b"n_states"]

    @property
    def neighbours(self):
        return NEIGHBOURS[self.descriptors[b"neighborhood"]]

    @property
    def orders(self):
        return SYMMETRIES[self.descriptors[b"neighborhood"]][self.descriptors[b"symmetries"]]

    @property
    def is_described(self):
        return len(self.descriptors) == 3

    # ---- A line, rule by rule

    def take(self, number, line):
        """Takes the next line, or tells the first rule that it breaks."""
        check_length(line)
        if self.name is None:
            self.take_front(line)
        elif self.section == "before":
            self.section = "table" if is_word_line(line, b"@TABLE") else "before"
        elif self.section == "table" and line.startswith(b"@"):
            self.check_described()
            self.section = "behind"
        elif self.section == "table":
            self.take_text(number, bare(line.split(b"#")[0]))

    def take_front(self, line):
        """Takes a line before the rule line, or the rule line."""
        if is_blank(line) or line.startswith(b"#"):
            return
        try:
            rule = rule_of(line[5:])
        except Broken:
            rule = None
        if not is_word_line(line, b"@RULE") or rule is None or rule.is_life:
            raise Broken("NoRuleLine")
        self.name = rule.text

    def check_described(self):
        if not self.is_described:
            raise Broken("BadDescriptor")

    def take_text(self, number, text):
        """Takes the text of a line of the table."""
        if not text:
            return
        if b":" in text:
            key, _, setting = text.partition(b":")
            self.take_descriptor(bare(key), bare(setting))
            return
        self.check_described()
        if re.match(rb"var[ \t\r]", text):
            self.take_variable(text)
        else:
            self.take_transition(number, text)

    # ---- Descriptors

    def take_descriptor(self, key, setting):
        if key == b"neighbourhood":
            key = b"neighborhood"
        judges = {b"n_states": self.states_of, b"neighborhood": self.neighborhood_of, b"symmetries": self.symmetries_word_of}
        if key not in judges or key in self.descriptors:
            raise Broken("BadDescriptor")
        self.descriptors[key] = judges[key](setting)

    def states_of(self, setting):
        if not is_number(setting) or not 2 <= value(setting) <= 256:
            raise Broken("BadDescriptor")
        return value(setting)

    def neighborhood_of(self, setting):
        if setting not in NEIGHBOURS:
            raise Broken("UnsupportedNeighborhood")
        if self.descriptors.get(b"symmetries", b"none") not in SYMMETRIES[setting]:
            raise Broken("UnsupportedSymmetry")
        return setting

    def symmetries_word_of(self, setting):
        listing = SYMMETRIES[self.descriptors.get(b"neighborhood", b"Moore")]
        if setting not in listing:
            raise Broken("UnsupportedSymmetry")
        return setting

    # ---- Variables and transitions

    def entry_of(self, text, kind):
        """The entry that a text says: a state below the number of states, or an earlier variable."""
        if is_number(text) and value(text) < self.states:
            return value(text)
        if text not in self.variables:
            raise Broken(kind)
        return text

    def take_variable(self, text):
        match = VARIABLE.fullmatch(text)
        if not match or not is_name(match[1]) or match[1] in self.variables:
            raise Broken("BadVariable")
        entries = [self.entry_of(bare(it), "BadVariable") for it in match[2].split(b",")]
        self.variables[match[1]] = frozenset().union(*map(self.choices, entries))

    def choices(self, entry):
        """The states that an entry may stand for."""
        return frozenset([entry]) if isinstance(entry, int) else self.variables[entry]

    def take_transition(self, number, text):
        texts = [bare(it) for it in text.split(b",")] if b"," in text else [bytes([it]) for it in text if not is_blank(bytes([it]))]
        if len(texts) != self.neighbours + 2:
            raise Broken("BadTransition")
        *inputs, output = [self.entry_of(it, "BadTransition") for it in texts]
        if isinstance(output, bytes) and output not in inputs:
            raise Broken("UnboundOutput")
        fits_zeros = all(0 in self.choices(it) for it in inputs)
        if fits_zeros and not self.is_quiet and isinstance(output, int) and output != 0:
            raise Broken("NotQuiet")
        self.is_quiet = self.is_quiet or fits_zeros
        self.transitions.append(Transition(number, inputs, output))

    # ---- Meaning

    def decided(self, centre, neighbours):
        """The next state of a cell: of the first line that gives anything."""
        for transition in self.transitions:
            given = self.given(transition, centre, neighbours)
            if len(given) > 1:
                raise Fault("Ambiguous", transition.line, in_table=True)
            if given:
                return min(given)
        return centre

    def given(self, transition, centre, neighbours):
        """The states that a line gives for a cell and its neighbours."""
        found = set()
        if self.orders is None:
            self.try_all_orders(transition, [centre], list(neighbours), {}, found)
        else:
            for order in self.orders:
                self.try_order(transition, [centre, *(neighbours[place] for place in order)], found)
        return found

    def bind(self, entry, state, values):
        """The values of variables with an entry being a state, or None where it can't be."""
        if isinstance(entry, int):
            return values if entry == state else None
        if values.get(entry, state) != state or state not in self.variables[entry]:
            return None
        return {**values, entry: state}

    def try_order(self, transition, states, found):
        values = {}
        for entry, state in zip(transition.inputs, states):
            values = self.bind(entry, state, values)
            if values is None:
                return
        found.add(values.get(transition.output, transition.output))

    def try_all_orders(self, transition, chosen, left, values, found):
        """Puts the states that are left behind those that were chosen, in every order that fits. Equal states are tried once at a place, and
        nothing is tried any more where the output is settled."""
        if transition.output in found or len(found) > 1:
            return
        values = self.bind(transition.inputs[len(chosen) - 1], chosen[-1], values)
        if values is None:
            return
        if not left:
            found.add(values.get(transition.output, transition.output))
            return
        for state in sorted(set(left)):
            rest = left.copy()
            rest.remove(state)
            self.try_all_orders(transition, [*chosen, state], rest, values, found)


def is_name(text):
    """The name of a variable."""
    return re.fullmatch(NAME, text) is not None and not any(byte in text for byte in NOT_IN_NAMES) and not is_number(text[:1])


def read_table(data):
    """The table that a `.rule` file says."""
    table = Table()
    lines = lines_of(data)
    for number, line in enumerate(lines, 1):
        try:
            table.take(number, line)
        except Broken as broken:
            raise Fault(str(broken), number, in_table=True) from None
    lacking = "NoRuleLine" if table.name is None else "NoTable" if table.section == "before" else "BadDescriptor"
    if table.name is None or table.section == "before" or not table.is_described:
        raise Fault(lacking, len(lines) + 1, in_table=True)
    return table
