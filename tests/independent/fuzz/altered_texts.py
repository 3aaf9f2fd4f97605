"""Texts that are nearly a canonical text or the text in extended RLE that the program writes: each has one alteration by a seed. Many of them are files
of the same pattern. An alteration takes the source of chance and the text's parts, and gives the altered bytes, or None where the text has nothing that
it could alter."""

import re
from typing import NamedTuple, Optional

from . import random_files

HEADERS = [b"[M2]", b"[M2] (golly 4.2)", b"[M2] (canonical 2)", b"[M2] (canonical 1) ", b"[M2](canonical 1)", b"[m2] (canonical 1)"]
COMMENTS = [b"#C a comment", b"#", b"#N name", b"#Rule", b"", b" ", b"\t\r"]


class Parts(NamedTuple):
    """A canonical text: its first line, its rule, its generation if it has a line, and its nodes. A node is the bytes of a leaf line, or a tuple of its
    level and what represents its quarters."""

    head: bytes
    rule: bytes
    generation: Optional[bytes]
    nodes: tuple

    @property
    def is_counting(self):
        """Whether the rule is a B/S rule. No name has this form."""
        return re.fullmatch(rb"B[0-8]*/S[0-8]*V?", self.rule) is not None


def parts_of(text):
    head, rule, *rest = text.split(b"\n")[:-1]
    generation = rest.pop(0)[3:] if rest and rest[0].startswith(b"#G ") else None
    return Parts(head, rule[3:], generation, tuple(tuple(map(int, it.split())) if it[:1].isdigit() else it for it in rest))


def lines_of(parts):
    generation = [] if parts.generation is None else [b"#G " + parts.generation]
    return [parts.head, b"#R " + parts.rule, *generation, *map(node_line, parts.nodes)]


def node_line(node):
    return node if isinstance(node, bytes) else b" ".join(b"%d" % it for it in node)


def joined(lines):
    return b"".join(line + b"\n" for line in lines)


def with_nodes(parts, nodes):
    return joined(lines_of(parts._replace(nodes=tuple(nodes))))


def level_of(node):
    return 3 if isinstance(node, bytes) else node[0]


def renumbered(node, number_of):
    """A node whose quarters have the numbers that a function gives for theirs."""
    if isinstance(node, bytes) or node[0] == 1:
        return node
    return (node[0], *(it and number_of(it) for it in node[1:]))


def inserted(nodes, at, *more):
    """Nodes with some more put in, whose quarters are numbered already."""
    def number_of(number):
        return number if number <= at else number + len(more)

    moved = [renumbered(node, number_of) for node in nodes]
    return [*moved[:at], *more, *moved[at:]]


def in_order(nodes, order):
    """Nodes in another order of their places, each with its quarters."""
    numbers = {place + 1: number for number, place in enumerate(order, 1)}
    return [renumbered(nodes[place], numbers.get) for place in order]


def with_quarter(node, at, number):
    return (*node[:at + 1], number, *node[at + 2:])


def places_where(test, nodes):
    return [at for at, node in enumerate(nodes) if test(node)]


def is_leaf(node):
    return isinstance(node, bytes)


def is_upper(node):
    """Whether a node's quarters are numbers of nodes."""
    return not is_leaf(node) and node[0] > 1


# ---- Lines that aren't nodes


def of_lines(change):
    """An alteration that changes the list of lines of any text."""
    def altered(random, parts):
        lines = lines_of(parts)
        return joined(change(random, lines))
    return altered


def line_put_in(lines_to_choose):
    def change(random, lines):
        at = random.randint(1, len(lines))
        return [*lines[:at], random.choice(lines_to_choose), *lines[at:]]
    return of_lines(change)


def line_ends(_, parts):
    return joined(lines_of(parts)).replace(b"\n", b"\r\n")


def one_line_end(random, parts):
    lines = lines_of(parts)
    at = random.randrange(len(lines))
    lines[at] += random.choice([b"\r", b" ", b"\t"])
    return joined(lines)


def no_last_line_end(_, parts):
    return joined(lines_of(parts))[:-1]


def trailing_blank_line(_, parts):
    return joined(lines_of(parts)) + b"\n"


def leading_blank_line(_, parts):
    return b"\n" + joined(lines_of(parts))


def another_header(random, parts):
    return joined(lines_of(parts._replace(head=random.choice(HEADERS))))


def rule_in_another_case(_, parts):
    return joined(lines_of(parts._replace(rule=parts.rule.swapcase())))


def spellings_of(rule):
    """Other texts of a B/S rule. The last letter `V` has its meaning after a form that begins with `B`."""
    letter = rule[-1:] if rule.endswith(b"V") else b""
    births, survivals = rule[1:len(rule) - len(letter)].split(b"/S")
    found = [b"B" + births[::-1] + b"/S" + survivals[::-1], b"B" + births * 2 + b"/S" + survivals * 2, b"B" + births + b"S" + survivals]
    found = [it + letter for it in found]
    return found if letter else [*found, b"S" + survivals + b"/B" + births, b"S" + survivals + b"B" + births, survivals + b"/" + births]


def rule_spelled_otherwise(random, parts):
    if not parts.is_counting:
        return None
    return joined(lines_of(parts._replace(rule=random.choice(spellings_of(parts.rule)))))


def another_rule(random, parts):
    return joined(lines_of(parts._replace(rule=random.choice([b"B36/S23", b"B3/S23", b"B3/S23V", b"Foo", b"Life", parts.rule + b"x"]))))


def spaces_around_rule(random, parts):
    lines = lines_of(parts)
    lines[1] = random.choice([b"#R  " + parts.rule, b"#R\t" + parts.rule, b"#R " + parts.rule + b" "])
    return joined(lines)


def rule_twice(random, parts):
    lines = lines_of(parts)
    return joined([lines[0], random.choice([b"#R " + parts.rule, b"#R Foo", b"#R B/S"]), *lines[1:]])


def no_rule_line(_, parts):
    lines = lines_of(parts)
    return joined([lines[0], *lines[2:]])


def generation_line_of_0(_, parts):
    lines = lines_of(parts)
    return None if parts.generation is not None else joined([*lines[:2], b"#G 0", *lines[2:]])


def generation_before_rule(_, parts):
    lines = lines_of(parts)
    generation = lines[2] if parts.generation is not None else b"#G 0"
    return joined([lines[0], generation, lines[1], *lines[2 + (parts.generation is not None):]])


def generation_written_otherwise(random, parts):
    generation = parts.generation or b"0"
    generation = random.choice([b"0" + generation, b" " + generation, generation + b" ", generation + b"\n#G " + generation])
    return joined(lines_of(parts._replace(generation=generation)))


def another_generation(_, parts):
    return joined(lines_of(parts._replace(generation=b"%d" % (int(parts.generation or 0) + 1))))


def no_generation(_, parts):
    return None if parts.generation is None else joined(lines_of(parts._replace(generation=None)))


def lines_twice(_, parts):
    nodes = parts.nodes
    return with_nodes(parts, [*nodes, *(renumbered(node, lambda it: it + len(nodes)) for node in nodes)])


# ---- The order of nodes, and nodes too many


def nodes_exchanged(random, parts):
    """Two nodes change places, and the numbers stay."""
    nodes = list(parts.nodes)
    if len(nodes) < 2:
        return None
    one, other = random.sample(range(len(nodes)), 2)
    nodes[one], nodes[other] = nodes[other], nodes[one]
    return with_nodes(parts, nodes)


def another_order(random, parts):
    """The nodes in a random order in which quarters come before their squares, and the root last, with their new numbers."""
    nodes = parts.nodes
    left, order = set(range(len(nodes) - 1)), []
    while left:
        ready = [at for at in sorted(left) if is_leaf(nodes[at]) or nodes[at][0] == 1 or not left & {it - 1 for it in nodes[at][1:]}]
        order.append(random.choice(ready))
        left.remove(order[-1])
    return with_nodes(parts, in_order(nodes, [*order, len(nodes) - 1])) if nodes else None


def order_of_walk(quarters):
    """The nodes in the order of a walk that takes the quarters in another order."""
    def altered(_, parts):
        nodes, order = parts.nodes, {}

        def visit(at):
            if at not in order:
                if is_upper(nodes[at]):
                    for quarter in quarters:
                        if nodes[at][quarter]:
                            visit(nodes[at][quarter] - 1)
                order[at] = True

        if not nodes:
            return None
        visit(len(nodes) - 1)
        return with_nodes(parts, in_order(nodes, list(order)))
    return altered


def order_of_levels(_, parts):
    return with_nodes(parts, in_order(parts.nodes, sorted(range(len(parts.nodes)), key=lambda at: level_of(parts.nodes[at])))) if parts.nodes else None


def unused_blank_leaf(random, parts):
    return with_nodes(parts, inserted(parts.nodes, random.randint(0, max(len(parts.nodes) - 1, 0)), b"$$$$$$$$"))


def blank_root(_, parts):
    """A blank pattern with a line, or a pattern whose last line is blank."""
    return with_nodes(parts, [*parts.nodes, b"$$$$$$$$" if parts.is_counting else (1, 0, 0, 0, 0)])


def blank_square_used(random, parts):
    """A line for a blank square, and its number in place of a 0."""
    with_zero = [(at, place) for at, node in enumerate(parts.nodes) if is_upper(node) for place in range(4) if node[place + 1] == 0]
    if not with_zero:
        return None
    at, place = random.choice(with_zero)
    level = parts.nodes[at][0] - 1
    nodes = inserted(parts.nodes, 0, b"$$$$$$$$" if level == 3 and random.random() < 0.7 else (level, 0, 0, 0, 0))
    nodes[at + 1] = with_quarter(nodes[at + 1], place, 1)
    return with_nodes(parts, nodes)


def repeated_line(random, parts):
    """A line twice, the second time unused."""
    if not parts.nodes:
        return None
    at = random.randrange(len(parts.nodes))
    return with_nodes(parts, inserted(parts.nodes, at + 1, parts.nodes[at]) if at + 1 < len(parts.nodes) else [*parts.nodes, parts.nodes[at]])


def repeated_line_used(random, parts):
    """A line twice, and one of the quarters that it represents is the second one."""
    used = [(at, place) for at, node in enumerate(parts.nodes) if is_upper(node) for place in range(4) if node[place + 1]]
    if not used:
        return None
    at, place = random.choice(used)
    number = parts.nodes[at][place + 1]
    nodes = inserted(parts.nodes, number, parts.nodes[number - 1])
    nodes[at + 1] = with_quarter(nodes[at + 1], place, number + 1)
    return with_nodes(parts, nodes)


def unreached_line(random, parts):
    node = random.choice([b"*$$$$$$$$", b".*$*$$$$$$$"]) if parts.is_counting else random.choice([(1, 1, 0, 0, 1), (1, 0, 1, 1, 1), (5, 0, 0, 0, 0)])
    return with_nodes(parts, inserted(parts.nodes, random.randint(0, max(len(parts.nodes) - 1, 0)), node))


def higher_root(random, parts):
    """The root's square in the middle of one that is twice or four times as wide."""
    nodes = list(parts.nodes)
    if not nodes or is_leaf(nodes[-1]) or nodes[-1][0] == 1:
        return None
    for _ in range(random.choice([1, 1, 2])):
        level, *quarters = nodes.pop()
        numbers = []
        for place, quarter in enumerate(quarters):
            if quarter:
                nodes.append(with_quarter((level, 0, 0, 0, 0), 3 - place, quarter))
            numbers.append(len(nodes) if quarter else 0)
        nodes.append((level + 1, *numbers))
    return with_nodes(parts, nodes)


def line_left_out(random, parts):
    nodes = list(parts.nodes)
    if not nodes:
        return None
    del nodes[random.choice([-1, random.randrange(len(nodes))])]
    return with_nodes(parts, nodes)


# ---- One node


def of_leaf(change):
    """An alteration of one leaf line."""
    def altered(random, parts):
        places = places_where(is_leaf, parts.nodes)
        if not places:
            return None
        nodes, at = list(parts.nodes), random.choice(places)
        nodes[at] = change(random, nodes[at])
        return with_nodes(parts, nodes)
    return altered


@of_leaf
def trailing_dot(random, line):
    rows = line.split(b"$")
    at = random.choice([it for it in range(8) if len(rows[it]) < 8] or [0])
    rows[at] += b"."
    return b"$".join(rows)


@of_leaf
def full_rows(_, line):
    return b"$".join([row.ljust(8, b".") for row in line.split(b"$")[:8]] + [b""])


@of_leaf
def missing_ends(random, line):
    return line[:-1] if random.random() < 0.5 else line.rstrip(b"$") + random.choice([b"", b"$"])


@of_leaf
def another_end(_, line):
    return line + b"$"


@of_leaf
def another_cell(random, line):
    rows = [row.ljust(8, b".") for row in line.split(b"$")[:8]]
    row, column = random.randrange(8), random.randrange(8)
    rows[row] = rows[row][:column] + (b"." if rows[row][column:column + 1] == b"*" else b"*") + rows[row][column + 1:]
    return b"".join(it.rstrip(b".") + b"$" for it in rows)


def small_squares(cells, nodes):
    """The number of a square of cells in rows, whose lines of the levels from 1 on are put behind nodes, each once."""
    if len(cells) == 1:
        return cells[0][0]
    half = len(cells) // 2
    quarters = [small_squares([row[x:x + half] for row in cells[y:y + half]], nodes) for y in (0, half) for x in (0, half)]
    if not any(quarters):
        return 0
    node = (len(cells).bit_length() - 1, *quarters)
    if node not in nodes:
        nodes.append(node)
    return nodes.index(node) + 1


def levels_below_leaf(random, parts):
    """Lines of levels 1, 2 and 3 in place of a leaf line."""
    places = places_where(is_leaf, parts.nodes)
    if not places:
        return None
    at, below = random.choice(places), []
    rows = [row.ljust(8, b".") for row in parts.nodes[at].split(b"$")[:8]]
    small_squares([[int(it == ord("*")) for it in row] for row in rows], below)
    more = [renumbered(node, lambda it: it + at) for node in below[:-1]]
    nodes = inserted(parts.nodes, at, *more)
    nodes[at + len(more)] = renumbered(below[-1], lambda it: it + at)
    return with_nodes(parts, nodes)


def cells_in(nodes, level, number):
    """The rows of the states of a square."""
    if level == 0:
        return [[number]]
    quarters = nodes[number - 1][1:] if number else (0, 0, 0, 0)
    nw, ne, sw, se = (cells_in(nodes, level - 1, it) for it in quarters)
    return [west + east for west, east in [*zip(nw, ne), *zip(sw, se)]]


def leaf_under_name(random, parts):
    """A leaf line in place of a line of level 3. The lines below it stay."""
    places = places_where(lambda node: not is_leaf(node) and node[0] == 3, parts.nodes)
    if not places:
        return None
    nodes, at = list(parts.nodes), random.choice(places)
    rows = cells_in(nodes, 3, at + 1)
    nodes[at] = b"".join(bytes(b".*"[state > 0] for state in row).rstrip(b".") + b"$" for row in rows)
    return with_nodes(parts, nodes)


def of_numbers(change):
    """An alteration of one line of numbers, as bytes or as a node."""
    def altered(random, parts):
        places = places_where(lambda node: not is_leaf(node), parts.nodes)
        if not places:
            return None
        nodes, at = list(parts.nodes), random.choice(places)
        nodes[at] = change(random, nodes[at], len(nodes))
        return with_nodes(parts, nodes)
    return altered


@of_numbers
def quarters_exchanged(random, node, _):
    one, other = random.sample(range(4), 2)
    return with_quarter(with_quarter(node, one, node[other + 1]), other, node[one + 1])


@of_numbers
def another_number(random, node, count):
    return with_quarter(node, random.randrange(4), random.choice([0, 1, random.randint(0, count), 255 if node[0] == 1 else count]))


@of_numbers
def another_level(random, node, _):
    return (node[0] + random.choice([-1, 1]), *node[1:])


@of_numbers
def spaces_between(random, node, _):
    words = [b"%d" % it for it in node]
    at = random.randrange(1, 5)
    return b" ".join(words[:at]) + random.choice([b"  ", b"\t", b" \r "]) + b" ".join(words[at:])


@of_numbers
def leading_zero(random, node, _):
    words = [b"%d" % it for it in node]
    words[random.randrange(5)] = b"0" + random.choice(words)
    return b" ".join(words)


@of_numbers
def leading_zero_of_level(random, node, _):
    return b"0" * random.choice([1, 2, 40]) + node_line(node)


def space_before_line(random, parts):
    if not parts.nodes:
        return None
    nodes, at = list(parts.nodes), random.randrange(len(parts.nodes))
    nodes[at] = random.choice([b" ", b"\t"]) + node_line(nodes[at])
    return with_nodes(parts, nodes)


def changed_at_random(change):
    return lambda random, parts: change(random, joined(lines_of(parts)))


CANONICAL = {
    "line ends are CR LF": line_ends,
    "whitespace at the end of a line": one_line_end,
    "no last line feed": no_last_line_end,
    "a trailing blank line": trailing_blank_line,
    "a leading blank line": leading_blank_line,
    "a comment or blank line": line_put_in(COMMENTS),
    "another header": another_header,
    "the rule in another case": rule_in_another_case,
    "the rule written otherwise": rule_spelled_otherwise,
    "another rule": another_rule,
    "spaces around the rule": spaces_around_rule,
    "two rule lines": rule_twice,
    "no rule line": no_rule_line,
    "#G 0": generation_line_of_0,
    "the generation before the rule": generation_before_rule,
    "the generation written otherwise": generation_written_otherwise,
    "another generation": another_generation,
    "no generation": no_generation,
    "all nodes twice": lines_twice,
    "two lines exchanged": nodes_exchanged,
    "another order with other numbers": another_order,
    "quarters visited from the last one on": order_of_walk((4, 3, 2, 1)),
    "quarters visited by columns": order_of_walk((1, 3, 2, 4)),
    "nodes in the order of levels": order_of_levels,
    "an unused blank leaf": unused_blank_leaf,
    "a blank line at the end": blank_root,
    "a line for a blank quarter": blank_square_used,
    "a repeated line": repeated_line,
    "a repeated line that is used": repeated_line_used,
    "an unreached line": unreached_line,
    "a higher root": higher_root,
    "a line left out": line_left_out,
    "a `.` at the end of a row": trailing_dot,
    "rows of eight cells": full_rows,
    "missing `$`": missing_ends,
    "one `$` more": another_end,
    "another cell": another_cell,
    "levels 1 and 2 in place of a leaf": levels_below_leaf,
    "a leaf under a name": leaf_under_name,
    "two quarters exchanged": quarters_exchanged,
    "another number": another_number,
    "another level": another_level,
    "other spaces between numbers": spaces_between,
    "a leading zero": leading_zero,
    "leading zeros of the level": leading_zero_of_level,
    "a space before a line": space_before_line,
    "a changed byte": changed_at_random(random_files.changed_byte),
    "a changed line": changed_at_random(random_files.changed_line),
    "a changed number": changed_at_random(random_files.changed_number),
    "a cut": changed_at_random(random_files.cut),
}


# ---- Extended RLE


def rle_lines(text):
    return text.split(b"\n")[:-1]


def items_in(text):
    """The items of a text, and `!`."""
    return re.findall(rb"[0-9]*(?:\$|[p-y]?[A-X]|[bo.])|!", b"".join(rle_lines(text)[2:]))


def with_items(text, items, width=70):
    lines = [b""]
    for item in items:
        if len(lines[-1]) + len(item) > width:
            lines.append(b"")
        lines[-1] += item
    return joined([*rle_lines(text)[:2], *lines])


def of_item(test, change):
    """An alteration of one item that passes a test, by its count and its last part, to a list of items."""
    def altered(random, text):
        items = items_in(text)
        parted = [re.fullmatch(rb"([0-9]*)(.*)", item).groups() for item in items]
        places = [at for at, (count, last) in enumerate(parted) if test(int(count or 1), last)]
        if not places:
            return None
        at = random.choice(places)
        return with_items(text, [*items[:at], *change(random, int(parted[at][0] or 1), parted[at][1]), *items[at + 1:]])
    return altered


def of_rle_lines(change):
    return lambda random, text: joined(change(random, rle_lines(text)))


def replaced(pattern, by):
    """An alteration that replaces the first place at which a regular expression fits."""
    return lambda random, text: re.sub(pattern, by(random) if callable(by) else by, text, count=1)


def rle_rule_spelled_otherwise(random, text):
    rule = rle_lines(text)[1].split(b"rule = ", 1)[1]
    if re.fullmatch(rb"B[0-8]*/S[0-8]*V?", rule) is None:
        return None
    return text.replace(b"rule = " + rule, b"rule = " + random.choice(spellings_of(rule)), 1)


def is_cell(_, last):
    return last not in (b"$", b"!")


RLE = {
    "line ends are CR LF": lambda _, text: text.replace(b"\n", b"\r\n"),
    "no last line feed": lambda _, text: text[:-1],
    "a trailing blank line": lambda _, text: text + b"\n",
    "a comment": lambda random, text: random.choice([b"#C a comment\n", b"\n", b"#\n"]) + text,
    "no position line": of_rle_lines(lambda _, lines: lines[1:]),
    "two position lines": of_rle_lines(lambda _, lines: [lines[0], *lines]),
    "Gen=0": of_rle_lines(lambda _, lines: [lines[0] + b" Gen=0", *lines[1:]]),
    "another field": of_rle_lines(lambda _, lines: [lines[0] + b" Other=1", *lines[1:]]),
    "another corner": replaced(rb"Pos=", b"Pos=1"),
    "a leading zero in the position": replaced(rb"Pos=(-?)", rb"Pos=\g<1>0"),
    "another width": replaced(rb"\nx = ", lambda random: random.choice([b"\nx = 0", b"\nx = 1"])),
    "another height": replaced(rb", y = ", lambda random: random.choice([b", y = 0", b", y = 1"])),
    "other spaces in the header": replaced(rb"\nx = ", b"\nx="),
    "the rule written otherwise": rle_rule_spelled_otherwise,
    "a count of 1": of_item(lambda count, last: count == 1 and last != b"!", lambda _, count, last: [b"1" + last]),
    "a leading zero in a count": of_item(lambda count, last: count > 1, lambda _, count, last: [b"0%d" % count + last]),
    "a run in two": of_item(lambda count, last: count > 1, lambda _, count, last: [last, b"%d" % (count - 1) + last if count > 2 else last]),
    "cells of state 0 at the end of a row": of_item(lambda _, last: last == b"$", lambda _, count, last: [b"b", b"%d$" % count if count > 1 else b"$"]),
    "cells of state 0 at the end": of_item(lambda _, last: last == b"!", lambda random, *_: [random.choice([b"b", b"3b", b"."]), b"!"]),
    "ends of rows at the end": of_item(lambda _, last: last == b"!", lambda *_: [b"$", b"!"]),
    "a state written otherwise": of_item(lambda _, last: last in (b"b", b"o", b".", b"A"), lambda _, count, last: [
        (b"%d" % count if count > 1 else b"") + last.translate(bytes.maketrans(b"bo.A", b".Abo"))]),
    "a cell more": of_item(is_cell, lambda _, count, last: [b"%d" % (count + 1) + last]),
    "an item left out": of_item(lambda _, last: last != b"!", lambda *_: []),
    "short lines": lambda random, text: with_items(text, items_in(text), random.choice([1, 20, 60, 69])),
    "long lines": lambda random, text: with_items(text, items_in(text), random.choice([71, 80, 10**6])),
    "a space between items": lambda random, text: joined([*rle_lines(text)[:2], b" ".join(items_in(text))]),
    "no `!`": lambda _, text: text.replace(b"!\n", b"\n"),
    "text after `!`": lambda random, text: text[:-1] + random.choice([b" ", b"x", b"\nx"]) + b"\n",
    "a changed byte": random_files.changed_byte,
    "a changed line": random_files.changed_line,
    "a changed number": random_files.changed_number,
}


def altered(random, alterations, text):
    """The name and the bytes of each alteration of a text, where these are other bytes than the text's, and each of them once."""
    seen = {text}
    for name, alteration in alterations.items():
        found = alteration(random, text)
        if found is not None and found not in seen:
            seen.add(found)
            yield name, found


def canonical_texts(random, text):
    return altered(random, {name: lambda source, data, it=it: it(source, parts_of(data)) for name, it in CANONICAL.items()}, text)


def rle_texts(random, text):
    return altered(random, RLE, text)
