"""Random pattern files and rule tables. Most are right, or right but for one or two changes. Each function takes the source of chance first, so
that one seed gives one file."""

LONGEST_LINE = 2**20
NAMES = [b"Life", b"Foo", b"WireWorld", b"W110", b"B3", b"B2-aS12", b"~!$", b"b", b"x", b"S"]
# Numbers at which something ends: states, machine words, the plane, counts, generations.
EDGES = [2**power + more for power in (0, 1, 3, 8, 20, 31, 32, 59, 60, 61, 62, 63, 64, 65, 128) for more in (-1, 0, 1)] + [10**20, 10**60]
COMMENTS = [b"#C a comment", b"#", b"#N name", b"#P 1 1", b"#CXRLEfoo", b"#Rule", b"#Go", b"#r B3/S23", b"#O \xe9\x00", b"", b" \t \r"]
SPECIAL = [
    b"#R B36/S23", b"#R", b"#R Foo", b"#R B0/S", b"#R a:b", b"#G 5", b"#G", b"#G x", b"#FRAMES 10 0 1", b"#FRAME", b"#CXRLE Pos=1,2", b"#CXRLE",
    b"#CXRLE\tGen=4", b"x = 1, y = 1", b"x=0,y=0,rule=Foo", b"x y", b"x\t", b"xA", b"[M2]", b" [M2]", b"$", b"*$", b"$$$$$$$$", b"$$$$$$$$$", b".",
    b"62 0 0 0 0", b"63 0 0 0 0", b"0 0 0 0 0", b"1 0 0 0 1", b"4 0 0 0 0", b"2 0 0 0", b"o!", b"0o", b"3", b"2$", b"!", b"@TABLE", b"@TABLE x",
    b"@RULE Foo", b"@RULE", b"@COLORS", b"n_states:3", b"n_states:1", b"n_states:257", b"neighborhood:hexagonal", b"neighborhood:Moore",
    b"symmetries:none", b"symmetries:rotate8", b"symmetries:all", b"states:2", b":", b"var z={0,1}", b"var z={}", b"var", b"var 1={0}",
    b"0,0,0,0,0,0", b"0,0,0,0,0,1", b"0000000000", b"0,0,0,0,0,z",
]
BYTES = b"\0\n\r\t\v\f $9o!,.#*bBxA0123458-=:/@{}\x7f\x80\xa0\xff"


def chance(random, share):
    return random.random() < share


def space(random):
    """Whitespace, often none."""
    return random.choice([b"", b"", b"", b" ", b" ", b"\t", b"  ", b"\r"])


def gap(random):
    """Whitespace, at least one byte."""
    return random.choice([b" ", b" ", b" ", b"  ", b"\t", b" \r "])


def number(random, value):
    """The digit text of a number, or of another one at an edge."""
    if chance(random, 0.01):
        value = random.choice(EDGES)
    zeros = b"0" * random.choice([1, 3, 40]) if chance(random, 0.04) else b""
    return zeros + b"%d" % value


def with_comments(random, lines, share=0.12):
    """Lines with comments and blank lines between them, not before the first."""
    found = lines[:1]
    for line in lines[1:]:
        if chance(random, share):
            found.append(random.choice(COMMENTS))
        found.append(line)
    return found


def joined(random, lines):
    """Lines with their ends: LF or CR LF, and the last one with its end or without."""
    end = random.choice([b"\n", b"\n", b"\n", b"\r\n"])
    return end.join(lines) + (end if chance(random, 0.8) else b"")


# ---- Rule texts


def four_text(random, least=1):
    """A B/S rule of four neighbours in one of its forms."""
    births, survivals = (bytes(random.choices(digits, k=random.choice([0, 1, 1, 2, 3, 10]))) for digits in (b"01234"[least:], b"01234"))
    b, s, slash, v = random.choice([b"B", b"b"]), random.choice([b"S", b"s"]), random.choice([b"/", b""]), random.choice([b"V", b"v"])
    return b + births + slash + s + survivals + v


def life_text(random, least=1):
    """A B/S rule in one of its forms."""
    if chance(random, 0.25):
        return four_text(random, least)
    births, survivals = (bytes(random.choices(digits, k=random.choice([0, 1, 1, 2, 3, 10]))) for digits in (b"012345678"[least:], b"012345678"))
    b, s, slash = random.choice([b"B", b"b"]), random.choice([b"S", b"s"]), random.choice([b"/", b""])
    forms = [b + births + slash + s + survivals, s + survivals + slash + b + births, survivals + b"/" + births]
    return random.choice(forms)


def name_text(random):
    if chance(random, 0.1):
        return bytes(random.choices(range(0x21, 0x7F), k=random.choice([1, 3, 20, 255])))
    return random.choice(NAMES)


def refused_rule(random):
    """A text that is no rule, or seldom one after all."""
    forms = [
        life_text(random, least=0), life_text(random, least=0),
        *(life_text(random) + it for it in (b"V", b"v", b"H", b"h", b"x", b"9", b":T30,20")),
        b"345/2/4", b"B2-a/S12", b"B2/", b"", b"two words", b"N\xe4me", b"n" * 256, b"Foo\x7f", b"B3\0S23", b"a/b:c",
    ]
    return random.choice(forms)


def rule_text(random):
    """A rule text, and the greatest state of a pattern under it."""
    share = random.random()
    if share < 0.6:
        return life_text(random), 1
    if share < 0.95:
        return name_text(random), 255
    return refused_rule(random), random.choice([1, 255])


# ---- Extended RLE


def place(random):
    """A column or a row, often at an edge of the plane or of a large square."""
    if chance(random, 0.7):
        return random.randint(-20, 20)
    if chance(random, 0.05):
        return random.choice([-1, 1]) * random.choice(EDGES)
    if chance(random, 0.7):
        return random.choice([-(2**61), -(2**61) + random.randint(0, 9), 2**61 - random.randint(1, 9), 2**61 - random.randint(1, 70)])
    return random.choice([-1, 1]) * 2**random.choice([3, 8, 20, 31, 32, 60]) + random.randint(-9, 9)


def position_line(random):
    fields = []
    if chance(random, 0.8):
        corner = b"%d,%d" % (place(random), place(random))
        others = [b"", b",", b"1", b"1,", b"-,1", b"-0,00", b"1,2,3", b"+1,2", b"1,x"]
        fields.append(b"Pos=" + (corner if chance(random, 0.98) else random.choice(others)))
    if chance(random, 0.5):
        generation = number(random, random.choice([0, 7, 2**32, 2**64 - 1, random.randrange(2**64)]))
        fields.append(b"Gen=" + (generation if chance(random, 0.98) else random.choice([b"", b"-1", b"x", b"%d" % 2**64])))
    if chance(random, 0.2):
        fields.append(random.choice([b"Other=9", b"pos=z", b"Pos", b"Gen", b"\0\xff", b"Pos=3,4", b"Gen=2"]))
    random.shuffle(fields)
    return b"#CXRLE" + b"".join(gap(random) + it for it in fields) + space(random)


def header_line(random, rule):
    """The header, of `rule` or without a rule."""
    tokens = [b"x", b"=", number(random, random.randint(0, 99)), b",", b"y", b"=", number(random, random.randint(0, 99))]
    if rule is not None:
        tokens += [b",", b"rule", b"=", rule]
    if chance(random, 0.7):
        return b"".join(tokens).replace(b",", b", ").replace(b"=", b" = ") if rule is None or not set(rule) & set(b",=") else b" ".join(tokens)
    return b"".join(it + space(random) for it in tokens)


def state_text(random, greatest):
    """The text of a state up to a greatest one."""
    if greatest == 1:
        return random.choice([b"b", b"o", b"b", b"o", b"o", b".", b"A"])
    state = random.choice([0, 0, 0, 1, 1, 2, random.randint(0, greatest), min(greatest, random.choice([24, 25, 48, 49, 240, 241, 254, 255]))])
    if state == 0:
        return random.choice([b".", b".", b"b"])
    if state == 1:
        return random.choice([b"A", b"o"])
    prefix, letter = divmod(state - 1, 24)
    return (bytes([ord("p") + prefix - 1]) if prefix else b"") + bytes([ord("A") + letter])


def count_text(random):
    share = random.random()
    if share < 0.6:
        return b""
    if share < 0.985:
        return number(random, random.choice([2, 3, 4, 7, 8, 9, 17, 64]))
    return b"%d" % random.choice([*EDGES, 1000, 2**20 + 1, 2**30, 2**40, 2**61])


def data_lines(random, greatest):
    """Items on lines, with `!` or without."""
    lines = [b""]
    for _ in range(random.choice([0, 1, 2, 2, 5, 5, 10, 20, 40, 60])):
        item = count_text(random) + (b"$" if chance(random, 0.2) else state_text(random, greatest))
        if chance(random, 0.08):
            lines.append(b"")
        lines[-1] += item + (space(random) if chance(random, 0.2) else b"")
    if chance(random, 0.85):
        lines[-1] += b"!" + (random.choice([b" behind it", b"\0", b"!", b"\n#CXRLE\nx=\nq"]) if chance(random, 0.2) else b"")
    return lines


def rle_file(random, rule, greatest):
    front = [position_line(random) for _ in range(random.choice([0, 0, 1, 1, 1, 2]))]
    front = with_comments(random, [b"", *front], 0.1)[1:]
    header = header_line(random, None if rule == b"B3/S23" and chance(random, 0.5) else rule)
    lines = [*front, header, *data_lines(random, greatest)]
    return joined(random, with_comments(random, [b"#C", *lines], 0.06)[chance(random, 0.8):])


# ---- Macrocell


def leaf_line(random):
    rows = [bytes(random.choices(b".*", k=random.choice([0, 0, 1, 2, 3, 5, 8, 8]))) for _ in range(random.choice([1, 2, 3, 8, 8]))]
    line = b"$".join(rows) + (b"$" if chance(random, 0.8) or not rows[0] else b"")
    if chance(random, 0.015):
        line += random.choice([b"$", b"*", b"$$$$$$$$$", b".........", b"x", b"o", b"\0"])
    return line


def child(random, levels, level):
    """The number of a line of a level, or 0; seldom of a line of another level, or of none."""
    if chance(random, 0.004):
        return random.choice([*EDGES, *range(len(levels) + 2)])
    numbers = [number for number, it in enumerate(levels, 1) if it == level]
    return random.choice(numbers) if numbers and chance(random, 0.7) else 0


def quarter_line(random, levels, level, greatest):
    """A quarter line behind lines of these levels."""
    if level == 1:
        quarters = [random.choice([0, 0, 1, random.randint(0, greatest), greatest]) for _ in range(4)]
    else:
        quarters = [child(random, levels, level - 1) for _ in range(4)]
    texts = [number(random, it) if chance(random, 0.1) else b"%d" % it for it in (level, *quarters)]
    return gap(random).join(texts) if chance(random, 0.2) else b" ".join(texts)


def node_lines(random, greatest):
    """Node lines, now and then with a chain up to a high level behind them."""
    lines, levels = [], []
    for _ in range(random.choice([0, 1, 2, 3, 4, 8, 14, 14])):
        is_low = not levels or chance(random, 0.4)
        is_leaf = is_low and chance(random, 0.7 if greatest == 1 else 0.2)
        level = 3 if is_leaf else 1 if is_low else min(random.choice(levels) + 1, 62)
        lines.append(leaf_line(random) if is_leaf else quarter_line(random, levels, level, greatest))
        levels.append(level)
    top = random.choice([62, 62, 62, 63, 20, 9, 6]) if levels and chance(random, 0.3) else 0
    corner, is_straight = random.randrange(4), chance(random, 0.7)
    while levels and levels[-1] < top:
        quarters = [0] * 4
        quarters[corner if is_straight else random.randrange(4)] = len(levels)
        levels.append(levels[-1] + 1)
        lines.append(b"%d %d %d %d %d" % (levels[-1], *quarters))
    return [space(random) + it + space(random) if chance(random, 0.05) else it for it in lines]


def macrocell_file(random, rule, greatest):
    notes = []
    if rule != b"B3/S23" or chance(random, 0.5):
        notes.append(b"#R" + gap(random) + rule)
    if chance(random, 0.3):
        notes.append(b"#G" + gap(random) + number(random, random.choice([0, 5, 2**63, 2**64 - 1, random.randrange(2**64)])))
    if chance(random, 0.01):
        notes.append(b"#FRAMES 10 0 1")
    random.shuffle(notes)
    first = random.choice([b"[M2]", b"[M2] (golly 4.2)", b"[M2]#R Foo"])
    return joined(random, with_comments(random, [first, *notes, *node_lines(random, greatest)], 0.06))


def pattern_file(random, rule, greatest):
    return random.choice([rle_file, macrocell_file])(random, rule, greatest)


# ---- Rule tables


def variables_of(random, states):
    """Variable lines, and the names of the variables."""
    names = random.sample([b"a", b"b", b"c", b"z", b"ab", b"var", b"n_states", b"~"], random.choice([0, 1, 2, 2, 3]))
    lines = []
    for place, name in enumerate(names):
        entries = [b"%d" % (random.randrange(states) or random.randrange(states)) for _ in range(random.choice([1, 2, 2, 3, 5]))]
        if place and chance(random, 0.3):
            entries.append(random.choice(names[:place]))
        entries = b",".join(space(random) + it + space(random) if chance(random, 0.1) else it for it in entries)
        lines.append(b"var" + gap(random) + name + space(random) + b"=" + space(random) + b"{" + entries + b"}")
    return lines, names


def wide_variables(random, states):
    """Nine variables of one range, and their names."""
    names = [b"%c" % letter for letter in b"abcdefghi"]
    ranges = [b",".join(b"%d" % state for state in range(min(states, random.choice([2, 3, 5]))))] + [b"a"] * 8
    return [b"var %s={%s}" % it for it in zip(names, ranges)], names


def wide_inputs(random, names, neighbours):
    """Inputs that fit many neighbourhoods: different variables, and a few states."""
    inputs = random.sample(names, neighbours + 1)
    for place in random.sample(range(neighbours + 1), random.choice([0, 1, 2])):
        inputs[place] = random.choice([b"0", b"1", b"2"])
    return inputs


def transition_line(random, states, names, neighbours):
    """A transition, mostly of zeros and variables."""
    entries = [b"0"] * random.choice([2, 6, 20]) + [b"1", b"%d" % random.randrange(states), *names, *names]
    inputs = random.choices(entries, k=neighbours + 1)
    if len(names) == 9 and chance(random, 0.5):
        inputs = wide_inputs(random, names, neighbours)
    elif names and chance(random, 0.3):
        inputs = [b"0"] * (neighbours - 1) + random.choices(names, k=2)
        random.shuffle(inputs)
    bound = [it for it in inputs if it in names]
    output = random.choice(bound) if bound and chance(random, 0.6) else b"%d" % random.randrange(states)
    if b"1" not in inputs and not (bound and output in names) and chance(random, 0.9):
        output = b"0"
    if names and chance(random, 0.05):
        output = random.choice(names)
    entries = [*inputs, output]
    if all(len(it) == 1 for it in entries) and chance(random, 0.4):
        return b"".join(it + (space(random) if chance(random, 0.1) else b"") for it in entries)
    return b",".join(space(random) + it + space(random) if chance(random, 0.05) else it for it in entries)


def table_file(random, name):
    """A table of a name, and the number of its states."""
    states = random.choice([2, 3, 3, 4, 4, 8, 256])
    neighborhood, neighbours = random.choice([(b"vonNeumann", 4), (b"Moore", 8)])
    words = [b"none", b"rotate4", b"rotate4reflect", b"reflect_horizontal", b"permute", b"permute"]
    if neighbours == 8 or chance(random, 0.05):
        words += [b"rotate8", b"rotate8reflect"]
    if chance(random, 0.02):
        neighborhood = random.choice([b"hexagonal", b"oneDimensional", b"moore", b""])
    described = [
        b"n_states:" + number(random, states),
        random.choice([b"neighborhood:", b"neighbourhood : "]) + neighborhood,
        b"symmetries:" + space(random) + random.choice(words),
    ]
    random.shuffle(described)
    variables, names = (wide_variables if chance(random, 0.3) else variables_of)(random, states)
    transitions = [transition_line(random, states, names, neighbours) for _ in range(random.choice([0, 1, 2, 3, 6]))]
    front = random.choice([[], [], [b"# a table"], [b"", b"#"]]) + [b"@RULE" + gap(random) + name]
    front += random.choice([[], [], [b"by a stranger"], [b"@COLORS", b"1 2 3"]])
    behind = random.choice([[], [], [b"@ICONS", b"x:"], [b"@TABLE", b"n_states:9"]])
    body = with_comments(random, [b"@TABLE", *described, *variables, *transitions], 0.06)
    body = [it + b" # note" if chance(random, 0.05) else it for it in body]
    return joined(random, [*front, *body, *behind]), states


# ---- Changes


def changed_byte(random, data):
    """A byte that is replaced, taken away or put in."""
    at = random.randrange(len(data) + 1)
    return data[:at] + random.choice([b"", bytes([random.choice(BYTES)])]) + data[at + random.choice([0, 1]):]


def changed_line(random, data):
    """A line that is doubled, taken away, moved, or put in."""
    lines = data.split(b"\n")
    line = lines[random.randrange(len(lines))]
    change = random.randrange(4)
    if change in (1, 2):
        lines.remove(line)
    if change != 1:
        lines.insert(random.randrange(len(lines) + 1), random.choice(SPECIAL) if change == 3 else line)
    return b"\n".join(lines)


def changed_number(random, data):
    """A digit that gives way to a number at an edge, or to some zeros."""
    places = [at for at, byte in enumerate(data) if byte in b"0123456789"]
    if not places:
        return data
    at = random.choice(places)
    return data[:at] + random.choice([b"%d" % random.choice(EDGES), b"0", b"000%c" % data[at]]) + data[at + 1:]


def cut(random, data):
    return data[:random.randrange(len(data) + 1)]


def mutated(random, data, shares=(0.5, 0.35, 0.12, 0.03)):
    """A file with no change, or with one, two or three; of `shares` each number of changes has its own."""
    for _ in range(random.choices(range(len(shares)), shares)[0]):
        data = random.choice([changed_byte, changed_byte, changed_line, changed_line, changed_number, cut])(random, data)
    return data


def lengthened(random, data):
    """A file with one line of about 2^20 bytes: by whitespace at its end, by zeros before its first digit, or by its last byte."""
    lines = data.split(b"\n")
    at = random.randrange(len(lines))
    line = lines[at]
    more = LONGEST_LINE + random.choice([-1, 0, 0, 1, 1, 2]) - len(line)
    digits = [place for place, byte in enumerate(line) if byte in b"0123456789"]
    if digits and chance(random, 0.6):
        lines[at] = line[:digits[0]] + b"0" * more + line[digits[0]:]
    else:
        lines[at] = line + random.choice([b" ", b"\r", line[-1:] or b" "]) * more
    return b"\n".join(lines)


def shifted(random, data):
    """A file with a comment put in, so that one of its bytes stands at a power of two: there a reader that takes pieces may cut it."""
    front = data[:data.find(b"\n") + 1] if data.startswith(b"[M2]") else b""
    rest = data[len(front):]
    more = 2**random.choice([12, 13, 14, 15, 16, 17]) - len(front) - random.randrange(len(rest) + 1)
    return front + b"#" + b"C" * (more - 2) + b"\n" + rest


def respelled(random, data):
    """The same pattern by other bytes, where the bytes are a file: other line ends, comments and blank lines, and in a macrocell file the root
    once more."""
    lines = data.split(b"\n")
    if lines[-1] == b"":
        lines.pop()
    if data.startswith(b"[M2]"):
        root = next((line for line in reversed(lines[1:]) if line.strip(b" \t\r") and not line.startswith(b"#")), b"")
        lines = [lines[0], *random.choice([[b""], [b"#C"], [b"\t"]]), *lines[1:], root]
    else:
        lines = [*random.choice([[b"#C other"], [b""], [b"#CXRLE Pos=0,0 Gen=0"]]), *lines]
    return b"".join(line + random.choice([b"\n", b"\r\n", b" \t\n"]) for line in lines)
