#!/usr/bin/env python3
"""Calls the shared library by ctypes, beside the program, on each file of a folder and on files that are refused, by each limit of a store in turn
beside the independent reader, many generations too, with the limit that suffices for the bytes of a file, and from two threads at once; streams, fed in
random pieces, beside the calls on whole files, with their keys; the sentence of each kind of fault, beside the man page; and the forms of small and random
files, their keys too, beside the independent reader. The last line is 'N passed, M failed'.

usage: tests/library/library.py PROGRAM FOLDER"""

import ctypes
import hashlib
import importlib.machinery
import importlib.util
import os
import pathlib
import random
import sys
import threading
from typing import NamedTuple

TOP = os.path.dirname(os.path.dirname(os.path.dirname(os.path.abspath(__file__))))
sys.path.insert(0, os.path.join(TOP, "tests"))

from independent import commands, forms, rle, rules  # noqa: E402
from independent.fuzz import random_files, small_files  # noqa: E402
from shared import c_interface, hints, processes  # noqa: E402
from shared.c_interface import FULL, LINE_TOO_LONG, NO_ROOM, SPENT, SQUARES, Stream  # noqa: E402
from shared.counting import check, ended  # noqa: E402

library = c_interface.loaded()

# The greatest limit of a store that is tried.
MOST_LIMIT = 4096
RANDOM_FILES = 300
IN_PIECES = " in pieces"


class Limits(NamedTuple):
    """The least limits of a store for a file, counted with the squares of the independent reader and found again by trying each limit: to read the file,
    which every text of its pattern takes; to step it under its own rule; and to compare it with the file after it here. So many different squares that
    aren't blank are stored: of an RLE file those of the least square about (0, 0) that has every cell, and of one with a cell above row 0 those of the
    plane; of a macrocell file those of its node lines with the parts of leaves, and the root of the canonical file; then those of the next generation,
    and its root."""

    read: int
    step: int
    same: int


# Files of both formats, with their least limits.
WORKED = {
    "a blank plane": (b"x = 0, y = 0, rule = 23/3\n!\n", Limits(0, 0, 0)),
    "a blank plane of node lines": (b"[M2]\n#R B3/S23\n$\n4 0 0 1 0\n", Limits(0, 0, 6)),
    "a glider": (small_files.LIFE_FILES["a glider"], Limits(6, 11, 9)),
    "lines that end by CR LF": (small_files.LIFE_FILES["lines that end by CR LF"], Limits(4, 4, 9)),
    "a rule of four neighbours": (small_files.LIFE_FILES["a rule of four neighbours"], Limits(5, 21, 66)),
    "a row as wide as the plane": (small_files.LIFE_FILES["a row as wide as the plane"], Limits(62, 62, 72)),
    "a root above its pattern": (small_files.LIFE_FILES["a root above its pattern"], Limits(10, 10, 10)),
    "squares below the leaves": (small_files.LIFE_FILES["squares below the leaves"], Limits(4, 4, 6)),
    "a line twice and one that is not reached": (small_files.LIFE_FILES["a line twice and one that is not reached"], Limits(5, 5, 11)),
    "the example glider.mc": (small_files.LIFE_FILES["the example glider.mc"], Limits(6, 14, 130)),
    "two states at the corner": (small_files.NAMED_FILES["two states at the corner"][0], Limits(124, 124, 131)),
    "levels and leaves under a name": (small_files.NAMED_FILES["levels and leaves under a name"][0], Limits(7, 7, 10)),
    "a quarter that is no earlier line": (small_files.LIFE_FILES["a quarter that is no earlier line"], Limits(3, 3, 3)),
    "no header": (b"o!\n", Limits(0, 0, 0)),
}

# Files that are stepped by a table, with the least limit for that.
STEPPED = {
    "the example wire.rle": (*small_files.NAMED_FILES["the example wire.rle"], 69),
    "a state that spreads": (*small_files.NAMED_FILES["a state that spreads"], 189),
    "levels and leaves under a name": (*small_files.NAMED_FILES["levels and leaves under a name"], 200),
    "no header": (b"o!\n", small_files.SPREAD_TABLE, 0),
}

# Files with their least limits for a moved text, and for a comparison with the first of them, moved, counted with the squares of the independent reader:
# of each file what reading it takes, or, if that is more, the root of its moved pattern with its parts, because a form has a store of its own; of two
# files what reading both takes, because their forms have no more.
MOVED = {
    "a glider": (small_files.LIFE_FILES["a glider"], 6, 6),
    "a glider far away": (b"#CXRLE Pos=-12345,777\nx = 3, y = 3\nbo$2bo$3o!\n", 19, 24),
    "the example glider.mc": (small_files.LIFE_FILES["the example glider.mc"], 6, 10),
    "a blank plane": (b"x = 0, y = 0, rule = 23/3\n!\n", 0, 6),
    "two states at the corner": (small_files.NAMED_FILES["two states at the corner"][0], 124, 130),
    "cells at the ends of the plane": (b"#CXRLE Pos=-2305843009213693952,777\nx = 1, y = 1\no4611686018427387902bo!\n", 123, 128),
    "no header": (b"o!\n", 0, 6),
}

# Oscillators and spaceships, of periods from 2 to 15, and their rules.
REPEATING = (("3o", "B3/S23"), ("b3o$3o", "B3/S23"), ("2o$2o$2b2o$2b2o", "B3/S23"), ("bo$2bo$3o", "B36/S23"), ("bo2bo$o$o3bo$4o", "B3/S23"),
             ("3b2o$bo4bo$o$o5bo$6o", "B3/S23"), ("2bo4bo$2ob4ob2o$2bo4bo", "B3/S23"), ("bo$o$o$bo", "B2/S"),
             ("2b3o3b3o2$o4bobo4bo$o4bobo4bo$o4bobo4bo$2b3o3b3o2$2b3o3b3o$o4bobo4bo$o4bobo4bo$o4bobo4bo2$2b3o3b3o", "B3/S23"))

# How many generations further the worked files are taken within each limit, and the most cells with which the independent reader can do that.
LATER = (0, 1, 6)
MOST_CELLS = 4096

# The number of each form. The form for all phases has one for each greatest period that is sought.
PHASES = 2**31
NUMBERS = {"placed": 0, "moved": 1, "turned": 2, **{f"phases up to {most}": PHASES + most for most in (0, 3, 4, 12)}}

# How many random files of each kind are read with the room that suffices for their bytes.
ROOM_FILES = 200

# Each call on a whole file, and what opens a stream that ends with its answer.
CALLS = {
    "canon": (library.golly_canon_canon, library.golly_canon_open_canon),
    "show": (library.golly_canon_show, library.golly_canon_open_show),
    "to_rle": (library.golly_canon_to_rle, library.golly_canon_open_to_rle),
    "step": (library.golly_canon_step, library.golly_canon_open_step),
}


def name_of(status):
    return c_interface.name_of(library, status)


def text_of(call, file, limit=SQUARES, room=64):
    """Returns the text that a call gives, and what it tells where it refuses."""
    out, needed, line = ctypes.create_string_buffer(b"\xaa" * room, room), ctypes.c_size_t(7), ctypes.c_uint64(7)
    numbers = ctypes.c_size_t(room), ctypes.byref(needed), ctypes.byref(line)
    status = call(file, ctypes.c_size_t(len(file)), ctypes.c_uint64(limit), c_interface.seed(), out, *numbers)
    if status == NO_ROOM:
        assert out.raw == b"\xaa" * room and needed.value > room
        return text_of(call, file, limit, needed.value)
    if status:
        assert out.raw == b"\xaa" * room and needed.value == 0
        return b"", f"line {line.value}: {name_of(status)}\n" if line.value else f"{name_of(status)}\n"
    return out.raw[: needed.value], ""


def stepped_by(table):
    """The call that steps by this table, with the arguments of the others."""
    def call(file, length, *others):
        in_table = ctypes.c_uint32()
        return library.golly_canon_step_by_table(file, length, table, ctypes.c_size_t(len(table)), *others, ctypes.byref(in_table))
    return call


def compared_with(other, same=library.golly_canon_same):
    """The call that compares with another file, with the arguments of the others. It writes the line of the program."""
    def call(file, length, limit, seed, out, room, needed, line):
        is_same = ctypes.c_uint32()
        status = same(file, length, other, ctypes.c_size_t(len(other)), limit, seed, ctypes.byref(is_same), line)
        text = b"" if status else (b"same\n" if is_same.value else b"different\n")
        ctypes.memmove(out, text, len(text))
        needed._obj.value = len(text)
        return status
    return call


def in_form(call, form):
    """A call in a form, with the arguments of the others."""
    return lambda file, length, *others: call(file, length, ctypes.c_uint32(NUMBERS[form]), *others)


def compared_in(other, form):
    """The call that compares with another file in a form, with the arguments of the others, as `compared_with`."""
    def call(first, length, second, other_length, *others):
        return library.golly_canon_same_form(first, length, second, other_length, ctypes.c_uint32(NUMBERS[form]), *others)
    return compared_with(other, call)


def opened_in(form):
    """The call that opens a stream for a text in a form, with the arguments of the others."""
    return lambda stream, *others: library.golly_canon_open_canon_form(stream, ctypes.c_uint32(NUMBERS[form]), *others)


def later_by(generations):
    """The call that takes a pattern so many generations further, with the arguments of the others."""
    return lambda file, length, *others: library.golly_canon_step_generations(file, length, ctypes.c_uint64(generations), *others)


def opened_later(generations):
    """The call that opens a stream for a text so many generations later, with the arguments of the others."""
    return lambda stream, *others: library.golly_canon_open_step_generations(stream, ctypes.c_uint64(generations), *others)


def pieces_of(file, cutting):
    """The file in random pieces, small and large, some of them empty."""
    cuts, at = random.Random(cutting), 0
    while at < len(file):
        size = cuts.randrange(cuts.choice((1, 2, 4, 16, 256, 65536)))
        yield file[at : at + size]
        at += size


def keyed(stream):
    """The key that a stream gives at its end, or no bytes, with the status and the line."""
    out, needed, line = ctypes.create_string_buffer(b"\xaa" * 64, 64), ctypes.c_size_t(7), ctypes.c_uint64(7)
    status = library.golly_canon_finish_key(stream, out, ctypes.c_size_t(64), ctypes.byref(needed), ctypes.byref(line))
    assert needed.value == (0 if status else 64) and (status == 0 or out.raw == b"\xaa" * 64)
    return out.raw[: needed.value], status, line.value


def by_stream(open_stream, cutting):
    """The call that feeds a stream a file in random pieces, with the arguments of the others. The fault of a line comes with its line feed, or at
    the end where it has none, and then again and again. The key is that of the text, also where it is asked for first."""
    def call(file, _, limit, seed, out, room, needed, line):
        stream = Stream()
        it, told, at = ctypes.byref(stream), (0, 0), 0
        assert open_stream(it, limit, seed) == 0
        for piece in pieces_of(file, cutting):
            answer = library.golly_canon_feed(it, piece, ctypes.c_size_t(len(piece)), line), line._obj.value
            before, at = file[:at].count(b"\n"), at + len(piece)
            if told != (0, 0):
                assert answer == told
            elif answer[1] == 0:
                assert answer[0] in (0, FULL)
            else:
                assert answer[0] == LINE_TOO_LONG or before < answer[1] <= file[:at].count(b"\n")
            told = answer
        key = keyed(it) if cutting % 2 else None
        for _ in range(2):
            status = library.golly_canon_finish(it, out, room, needed, line)
            assert told == (status, line._obj.value) if told != (0, 0) else line._obj.value == 0 or line._obj.value > file.count(b"\n")
            told = status, line._obj.value
        assert key in (None, keyed(it))
        key = keyed(it)
        assert key[1:] == ((0, 0) if status == NO_ROOM else told)
        assert status or key[0] == hashlib.sha256(out.raw[: needed._obj.value]).hexdigest().encode()
        if status in (0, NO_ROOM):
            assert library.golly_canon_feed(it, b"x", ctypes.c_size_t(1), line) == SPENT
        library.golly_canon_close(it)
        return status
    return call


def outcome_of(call, *arguments):
    """What a call gives or tells, or that it breaks a promise."""
    try:
        return text_of(call, *arguments)
    except AssertionError:
        return None


def check_streams(files):
    """Each file, a random front of it, and it with a random byte in place of another, in random pieces: what the call on a whole file answers."""
    chosen = random.Random(31)
    files = {**files, **small_files.LIFE_FILES, **{name: file for name, (file, _) in small_files.NAMED_FILES.items()}}
    for name, file in files.items():
        for word, (call, open_stream) in CALLS.items():
            wrong = []
            for seed in range(12):
                at = chosen.randrange(len(file) + 1)
                for other in (file, file[:at], file[:at] + chosen.choice((b"\n", b"!", b"0", b"$", b"\xff")) + file[at + 1 :]):
                    if outcome_of(by_stream(open_stream, seed), other) != text_of(call, other):
                        wrong.append(other)
            check(not wrong, f"{word} of {name}{IN_PIECES}: {wrong[:1]}")


def first_limit(call, file, wanted):
    """The first limit of a store that suffices. Below it the call answers Full, and from it on, up to 4096, what is wanted: a text and what is told.
    None where it answers otherwise."""
    first = None
    for limit in range(MOST_LIMIT + 1):
        answer = outcome_of(call, file, limit, max(64, len(wanted[0])))
        if first is None and answer != (b"", "Full\n"):
            first = limit
        if first is not None and answer != wanted:
            return None
    return first


def rows_of_limits():
    """Each call on each worked file, with what the independent reader says and the least limit."""
    readers = {"canon": commands.canon, "show": commands.show, "to_rle": commands.convert_to_rle, "step": commands.step}
    names = list(WORKED)
    for (name, (file, limits)), behind in zip(WORKED.items(), names[1:] + names[:1]):
        for word, (call, open_stream) in CALLS.items():
            answer, least = readers[word](commands.File(file)), limits.step if word == "step" else limits.read
            yield f"{word} of {name}", call, file, answer, least
            yield f"{word} of {name}{IN_PIECES}", by_stream(open_stream, 1), file, answer, least
        other = WORKED[behind][0]
        answer = commands.same(commands.File(file), commands.File(other))
        yield f"same of {name} and {behind}", compared_with(other), file, answer, limits.same
    for name, (file, table, least) in STEPPED.items():
        yield f"step_by_table of {name}", stepped_by(table), file, commands.step(commands.File(file), commands.File(table)), least


def check_limits():
    """Every limit from 0 on, by every call, over worked files of both formats: Full below the least limit, and from it on what the independent reader
    says, a fault too. A blank pattern wants no room, and a file that is refused none behind its fault."""
    for what, call, file, answer, least in rows_of_limits():
        if "TooManyCells" in answer.fault:
            continue  # It counts 2^20 cells at each limit.
        first = first_limit(call, file, (answer.output, answer.fault))
        check(first == least, f"each limit: {what}: {first} and not {least}")


def check_limits_later():
    """Every limit from 0 on, of worked files that are taken further: what the independent reader says, a fault too, or Full, and the first where there is
    most room."""
    for name, (file, _) in WORKED.items():
        reading = commands.File(file).reading
        is_large = not isinstance(reading, commands.Fault) and reading.plane.population > MOST_CELLS
        for generations in LATER[:1] if is_large else LATER:
            answer = commands.step(commands.File(file), generations=generations)
            wanted = answer.output, answer.fault
            for how, call in (("", later_by(generations)), (IN_PIECES, by_stream(opened_later(generations), 1))):
                found = [outcome_of(call, file, limit, max(64, len(answer.output))) for limit in range(MOST_LIMIT + 1)]
                others = [limit for limit, it in enumerate(found) if it not in (wanted, (b"", "Full\n"))]
                check(found[-1] == wanted and not others, f"each limit: {name}, {generations} generations later{how}: {others[:5]}, {found[-1]}")


def room_for(*files):
    """A limit that suffices to read files, as the header says."""
    return sum(14 * len(file) + 264 for file in files)


def pairs_of_rows(level):
    """An RLE file of pairs of rows, the one above and the other below each multiple of 2^level, of two cells about column 0 each, of one state that no
    other pair has. No files are known that need more squares for their bytes: for some 26 of them four on each level up to this one."""
    row, body = -(2**61), b""
    for state, multiple in enumerate(range(-(2**61) + 2**level, 2**61, 2**level), 1):
        prefix, letter = divmod(state - 1, 24)
        two = b"2" + (b"%c" % (ord("o") + prefix) if prefix else b"") + b"%c" % (ord("A") + letter)
        body += b"%d$%b$%b" % (multiple - 1 - row, two, two)
        row = multiple
    return b"#CXRLE Pos=-1,%d\nx = 0, y = 0, rule = F\n%b!\n" % (-(2**61), body)


def files_of_a_kind(make, is_named):
    """Random files of a format, under names or B/S rules."""
    source = random.Random(f"{make.__name__} {is_named}")
    found = []
    while len(found) < ROOM_FILES:
        rule, greatest = random_files.rule_text(source)
        if (greatest > 1) == is_named:
            found.append(make(source, rule, greatest))
    return found


def check_room():
    """A limit of 14 squares for each byte and 264 is never Full, in each call that only reads, nor for two files the sum of both. Eight squares for
    each byte don't suffice: the pairs of rows show it."""
    reading = {word: CALLS[word] for word in ("canon", "show", "to_rle")}
    kinds = {f"{make.__name__}, {'names' if is_named else 'B/S rules'}": files_of_a_kind(make, is_named)
             for make in (random_files.rle_file, random_files.macrocell_file) for is_named in (False, True)}
    kinds["the worked files"] = [file for file, _ in WORKED.values()]
    for kind, files in kinds.items():
        full = []
        for at, file in enumerate(files):
            calls = [call for whole, opened in reading.values() for call in (whole, by_stream(opened, at))]
            full += [file for call in calls if outcome_of(call, file, room_for(file)) in (None, (b"", "Full\n"))]
            both = outcome_of(compared_with(files[at - 1]), file, room_for(file, files[at - 1]))
            full += [file] if both in (None, (b"", "Full\n")) else []
        check(not full, f"room for {kind}: {full[:1]}")
        some = sum(outcome_of(library.golly_canon_canon, file, 0) == (b"", "Full\n") for file in files)
        check(some * 4 > len(files), f"of {len(files)} files ({kind}) only {some} need room")
    for level in (55, 56, 57):
        file = pairs_of_rows(level)
        for word, (whole, opened) in reading.items():
            for call in (whole, by_stream(opened, level)):
                enough, too_few = (outcome_of(call, file, limit) for limit in (room_for(file), 8 * len(file)))
                check(enough and enough[1] == "" and too_few == (b"", "Full\n"), f"room for pairs of rows about multiples of 2^{level}: {word}")


def text_in(data, form):
    """The text of a file in a form, as the independent reader has it."""
    file = commands.File(data)
    return forms.text_in(file.squares, file.pattern, form)


def words_of(form):
    """What the independent reader is told of a form."""
    return (form,) if NUMBERS[form] < PHASES else ("phases", NUMBERS[form] - PHASES)


def formed(data, form):
    """The text of a file in a form, as the independent reader has it, and what it tells where it refuses."""
    answer = commands.canon(commands.File(data), *words_of(form))
    return answer.output, answer.fault


def compared_by_texts(first, second):
    """What the comparison of two files tells whose texts these are."""
    if first[1] or second[1]:
        return b"", first[1] or second[1]
    return (b"same\n" if first[0] == second[0] else b"different\n"), ""


def compared_by_cells(first, second, form):
    """The same by the independent reader, which looks at the cells of the two files. It refuses a pattern that leaves the plane after both files are read."""
    answer = commands.same(commands.File(first), commands.File(second), *words_of(form))
    return answer.output, answer.fault


def key_of(answer):
    """The key of a text, and what is told where there is none."""
    return (hashlib.sha256(answer[0]).digest() if answer[0] else b""), answer[1]


def wrong_forms(files):
    """The files whose text or key in a form is another one than the independent reader's, or that aren't compared by those texts, or for all phases by the
    cells: each with the file before it, and the first with the last."""
    for form, number in NUMBERS.items():
        answers = [formed(file, form) for file in files]
        for at, (file, answer) in enumerate(zip(files, answers)):
            same = compared_by_texts(answers[at - 1], answer) if number < PHASES else compared_by_cells(files[at - 1], file, form)
            if outcome_of(in_form(library.golly_canon_canon_form, form), file) != answer:
                yield f"{form}: {file!r}"
            if outcome_of(by_stream(opened_in(form), at), file) != answer:
                yield f"{form} in pieces: {file!r}"
            if outcome_of(in_form(library.golly_canon_key, form), file) != key_of(answer):
                yield f"the key of {form}: {file!r}"
            if outcome_of(compared_in(file, form), files[at - 1]) != same:
                yield f"{form} beside the file before: {file!r}"


def random_file(number):
    """A file of few cells, right or nearly so."""
    source = random.Random(f"form {number}")
    rule, greatest = random_files.rule_text(source)
    return random_files.mutated(source, random_files.pattern_file(source, rule, greatest))


def random_phase(number):
    """A file of an oscillator or a spaceship after some generations; or of random cells at two edges of the plane, which they may leave."""
    source = random.Random(f"phase {number}")
    north, generation = source.randrange(-50, 50), source.choice((0, 7))
    if number % 3:
        cells, rule = source.choice(REPEATING)
        file = f"#CXRLE Pos={source.choice((0, -12345, 2**61 - 99))},{north} Gen={generation}\nx = 0, y = 0, rule = {rule}\n{cells}!\n"
        return commands.step(commands.File(file.encode()), generations=source.randrange(30)).output
    rows = "$".join("".join(source.choice("bo") for _ in range(4)) + f"{2**62 - 8}b" + "".join(source.choice("bo") for _ in range(4)) for _ in range(4))
    return f"#CXRLE Pos={-(2**61)},{north} Gen={generation}\nx = 0, y = 0, rule = {source.choice(('B3/S23', 'B2/S013V'))}\n{rows}!\n".encode()


def has_few_cells(data):
    answer = commands.show(commands.File(data))
    return answer.fault != "" or int(answer.output.split(b"\n")[2].split()[1]) < 3000


def check_forms():
    """The texts, keys and comparisons of small files, of gliders in every place and orientation, and of random files, as the independent reader has them.
    Then each limit of a store."""
    glider = [(1, 0), (2, 1), (0, 2), (1, 2), (2, 2)]
    gliders = [rle.rle_text(rules.CONWAY, 0, sorted(((x + west, y + north, 1) for x, y, _ in image), key=lambda cell: (cell[1], cell[0])))
               for image in forms.images([(x, y, 1) for x, y in glider]) for west, north in ((0, 0), (-12345, 777), (2**61 - 3, -(2**61) + 3))]
    small = [*small_files.LIFE_FILES.values(), *(file for file, _ in small_files.NAMED_FILES.values()), *(file for file, _, _ in MOVED.values())]
    small = [file for file in small if has_few_cells(file)]
    chosen = [file for file in map(random_file, range(RANDOM_FILES)) if has_few_cells(file)]
    phases = list(map(random_phase, range(RANDOM_FILES // 3)))
    texts = [[formed(file, form)[0] for file in phases] for form in ("phases up to 0", "phases up to 12")]
    left = texts[1].count(b"")
    others = sum(one != other for one, other in zip(*texts)) - left
    check(left > 9 and others > 9, f"of {len(phases)} random patterns {left} leave the plane, and {others} have the text of another phase")
    for what, files in (("gliders", gliders), ("small files", small), ("random files", chosen), ("random phases", phases)):
        wrong = list(wrong_forms(files))
        check(not wrong and len(files) > 20, f"{len(files)} {what} in forms: {wrong[:2]}")
    check(len({text_of(in_form(library.golly_canon_key, "turned"), file) for file in gliders}) == 1, "one key of all turned gliders")
    check(len({text_of(in_form(library.golly_canon_key, "moved"), file) for file in gliders}) == 8, "eight keys of all moved gliders")
    check(len({text_of(in_form(library.golly_canon_key, "placed"), file) for file in gliders}) == 24, "24 keys of all placed gliders")
    later = [commands.step(commands.File(file), generations=number).output for file in gliders for number in range(4)]
    later = [file for file in later if file]  # without those that would leave the plane
    for form, count in (("turned", 4), ("phases up to 3", 2), ("phases up to 4", 1)):
        found = {text_of(in_form(library.golly_canon_key, form), file) for file in later}
        check(len(found) == count and len(later) > 64, f"{len(found)} keys of {len(later)} phases of gliders, {form}")
    first = MOVED["a glider"][0]
    for name, (file, least, least_both) in MOVED.items():
        answer, both = formed(file, "moved"), commands.answer_of(lambda: same_in_form(first, file, "moved"))
        for what, call, wanted in (("text", library.golly_canon_canon_form, answer), ("key", library.golly_canon_key, key_of(answer))):
            found = first_limit(in_form(call, "moved"), file, wanted)
            check(found == least, f"each limit: moved {what} of {name}: {found} and not {least}")
        found = first_limit(by_stream(opened_in("moved"), 1), file, answer)
        check(found == least, f"each limit: moved text of {name}{IN_PIECES}: {found} and not {least}")
        found = first_limit(compared_in(file, "moved"), first, (both.output, both.fault))
        check(found == least_both, f"each limit: a glider and {name}, moved: {found} and not {least_both}")
        if name in WORKED:
            found = first_limit(in_form(library.golly_canon_canon_form, "turned"), file, formed(file, "turned"))
            check(found == WORKED[name][1].read, f"each limit: turned text of {name}: {found}")


def same_in_form(first, second, form):
    one, other = (text_in(data, form) for data in (first, second))
    return (0, b"same\n") if one == other else (1, b"different\n")


def kinds_script():
    """scripts/kinds as a module."""
    loader = importlib.machinery.SourceFileLoader("kinds_script", os.path.join(TOP, "scripts", "kinds"))
    module = importlib.util.module_from_spec(importlib.util.spec_from_loader("kinds_script", loader))
    loader.exec_module(module)
    return module


def check_sentences():
    """The sentence of each kind is that of the man page."""
    kinds = kinds_script()
    page = kinds.sentences_of_page()
    check(len(page) >= 40, f"the man page has {len(page)} sentences")
    for it in kinds.ALL:
        found = c_interface.sentence_of(library, it.number)
        check(found == page.get(it.name, found) and found != "", f"the sentence of {it.name}: {found}")


def fed(file, cutting):
    """A stream that a file was fed to in random pieces, and has not ended."""
    stream, line = Stream(), ctypes.c_uint64()
    assert library.golly_canon_open_canon(ctypes.byref(stream), ctypes.c_uint64(SQUARES), c_interface.seed()) == 0
    for piece in pieces_of(file, cutting):
        library.golly_canon_feed(ctypes.byref(stream), piece, ctypes.c_size_t(len(piece)), ctypes.byref(line))
    return stream


def check_hints(program):
    """The warning of each file, whole and in pieces, and what a refused file is: what the program says of it. A stream has its warning after the end, and keeps
    it."""
    warned = {**hints.WARNED, **{name: (data, "") for name, data in hints.NOT_WARNED.items()}}
    for name, (data, words) in warned.items():
        said = hints.said_by(program, data)
        check(words in said and bool(words) == bool(said), f"the program on {name}: {said!r}")
        check(c_interface.warning_of(library, data) == said, f"the warning of {name}")
        for cutting in range(4):
            stream = fed(data, cutting)
            before = c_interface.warning_of_stream(library, stream)
            keys = [keyed(ctypes.byref(stream)) for _ in range(2)]
            after = [c_interface.warning_of_stream(library, stream) for _ in range(2)]
            library.golly_canon_close(ctypes.byref(stream))
            closed = c_interface.warning_of_stream(library, stream)
            check((before, after, closed) == ("", [said] * 2, "") and keys[0] == keys[1] and keys[0][1] == 0, f"the warning of {name}{IN_PIECES}: {after}")
    for name, (data, words) in hints.FOREIGN.items():
        said = hints.said_by(program, data)
        stream = fed(data, 1)
        _, status, _ = keyed(ctypes.byref(stream))
        advice = c_interface.advice_of(library, status, data)
        check(status and advice.startswith(words) and bool(words) == bool(advice), f"what {name} is: {advice!r}")
        check(" ".join(filter(None, (c_interface.sentence_of(library, status), advice))) == said, f"the program on {name}: {said!r}")
        check(c_interface.advice_of(library, status, data + b"\0" * 600) == c_interface.advice_of(library, status, (data + b"\0" * 600)[:512]),
              f"no more than 512 bytes of {name} count")
        check(c_interface.warning_of_stream(library, stream) == "", f"no warning of {name}, which is refused")
        library.golly_canon_close(ctypes.byref(stream))
        quiet = [0, FULL, c_interface.MEMORY, SPENT, NO_ROOM, 65, 999]
        check([c_interface.advice_of(library, it, data) for it in quiet] == [""] * len(quiet), f"statuses without advice, {name}")
    table = hints.FOREIGN["spread.rule"][0]
    check(c_interface.advice_of(library, 32, table, True) == "" and c_interface.advice_of(library, 31, b"\x1f\x8b", True).startswith("This is a gzip"),
          "what is wanted as a rule table")


def of_program(program, words, file):
    run = processes.run([program, *words], file)
    return run.output, run.error.decode()


def main(program, folder):
    files = {it.name: it.read_bytes() for it in sorted(pathlib.Path(folder).iterdir()) if it.is_file()}
    files["child"] = b"[M2]\n#R B3/S23\n....*$$$$$$$$\n4 0 0 0 9\n"
    files["count"] = b"x = 1, y = 1\n\n0o!\n"
    files["nothing"] = b""
    words_of = {"canon": ("canon", "-"), "show": ("show", "-"), "to_rle": ("convert", "-", "--to", "rle"), "step": ("step", "-")}
    for name, file in files.items():
        for word, (call, open_stream) in CALLS.items():
            answer = of_program(program, words_of[word], file)
            check(text_of(call, file) == answer, f"{word} of {name}")
            check(outcome_of(by_stream(open_stream, 0), file) == answer, f"{word} of {name}{IN_PIECES}")
    check(text_of(library.golly_canon_canon, files["child"])[1] == "line 4: BadChild\n", "the line of a refusal")
    check(text_of(library.golly_canon_canon, files["glider.mc"], 0)[1] == "Full\n", "a limit of 0")
    check(text_of(library.golly_canon_canon, files["glider.mc"], 2**64 - 1)[0] != b"", "the greatest limit")

    check_sentences()
    check_hints(program)
    check_streams(files)
    check_limits()
    check_limits_later()
    check_room()
    check_forms()

    # Two threads at once: ctypes lets go of the interpreter while a call runs. Each stream stays with its thread.
    wanted = {name: text_of(library.golly_canon_canon, file) for name, file in files.items()}
    wrong = []

    def work():
        for turn in range(50):
            call = by_stream(library.golly_canon_open_canon, turn) if turn % 5 == 0 else library.golly_canon_canon
            wrong.extend(name for name, file in files.items() if outcome_of(call, file) != wanted[name])

    threads = [threading.Thread(target=work) for _ in range(2)]
    for it in threads:
        it.start()
    for it in threads:
        it.join()
    check(not wrong, f"two threads at once: {wrong[:3]}")
    return ended()


if __name__ == "__main__":
    sys.exit(main(*sys.argv[1:]))
