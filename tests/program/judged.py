"""What `compare.py` compares with the independent reader: the built program, or the shared library, which starts no process."""

import ctypes

from independent import commands, forms, phases
from shared import c_interface, processes
from shared.c_interface import AMBIGUOUS, FULL, MEMORY, NO_ROOM, SQUARES, Stream

# The statuses of the program.
SAME, DIFFERENT, REFUSED, WANTS = 0, 1, 2, 4
# The number of the form `phases` without a greatest period, as include/golly_canon.h has it, and what the name of a call ends in that takes the value of an option.
PHASES = 1 << 31
MORE = {"--form": "_form", "--generations": "_generations"}
CALLS = {"canon": "canon", "show": "show", "step": "step", "rle": "to_rle", "mc": "canon"}


class Program:
    """The program. Its files stand in the folder of the cases."""

    def __init__(self, path):
        self.path = path

    def put(self, name, data):
        with open(name, "wb") as it:
            it.write(data)

    def knows(self, words):
        return True

    def limits(self, words):
        """Whether these words can be answered within a limit of squares."""
        return False

    def answer(self, words, given):
        """Runs it on these words."""
        found = processes.spawned([self.path, *words], given)
        return commands.Answer(found.status, found.output, found.error.decode("latin-1"))


def store(limit):
    """The limit of a call's store, and a seed."""
    return ctypes.c_uint64(limit), c_interface.seed()


def numbers_of(words):
    """The number of a form as a call in a form takes it, or that of generations, and nothing for a call with neither."""
    if words[-2] == "--generations":
        return [ctypes.c_uint64(int(words[-1]))]
    if words[-2] != "--form":
        return []
    if words[-1] == "phases":
        most = int(words[words.index("--within") + 1]) if "--within" in words else phases.MOST
        return [ctypes.c_uint32(PHASES + most)]
    return [ctypes.c_uint32(forms.FORMS.index(words[-1]))]


class Library:
    """The calls of the shared library for the words of the program. What the program would read from a pipe comes in pieces by a stream."""

    def __init__(self, path):
        self.path = path
        self.files = {}
        self.room = 1 << 16
        self.calls = None
        self.limit = SQUARES

    def put(self, name, data):
        self.files[name] = data

    def knows(self, words):
        """Whether there is a call for these words: there is none for a period, and by a table none for many generations."""
        return "--period" not in words and ("--table" not in words or "--generations" not in words)

    def limits(self, words):
        """Whether these words are compared within a limit of squares too: other calls at each limit are in tests/library/library.py."""
        return "--generations" in words

    def loaded(self):
        """The library, loaded at the first call in each process, and the memory for its answers."""
        if self.calls is None:
            self.calls = c_interface.loaded(self.path)
            self.out = ctypes.create_string_buffer(self.room)
            self.needed, self.line, self.flag = ctypes.c_size_t(), ctypes.c_uint64(), ctypes.c_uint32()
        return self.calls

    def refusal(self, status, in_table):
        """What the program leaves where the library answers this status."""
        place = f"line {self.line.value}: " if self.line.value else ""
        table = "table " if place and (in_table or status == AMBIGUOUS) else ""
        return commands.Answer(WANTS if status in (FULL, MEMORY) else REFUSED, b"", f"{table}{place}{c_interface.name_of(self.calls, status)}\n")

    def asked(self, call):
        """What a call answers, which takes the memory for its answer, and is made again where that lacks room."""
        while True:
            status = call(self.out, ctypes.c_size_t(self.room), ctypes.byref(self.needed), ctypes.byref(self.line))
            if status != NO_ROOM:
                return status
            self.room = 2 * self.needed.value
            self.out = ctypes.create_string_buffer(self.room)

    def by_call(self, name, data, numbers):
        call = getattr(self.calls, f"golly_canon_{name}")
        return self.asked(lambda *out: call(data, ctypes.c_size_t(len(data)), *numbers, *store(self.limit), *out))

    def by_stream(self, name, data, numbers):
        """The same with the file in some eight pieces. A refused piece ends it, as the stream tells the fault again at its end."""
        stream = Stream()
        status = getattr(self.calls, f"golly_canon_open_{name}")(ctypes.byref(stream), *numbers, *store(self.limit))
        size = len(data) // 8 + 1
        for at in range(0, len(data), size):
            piece = data[at: at + size]
            if status == 0:
                status = self.calls.golly_canon_feed(ctypes.byref(stream), piece, ctypes.c_size_t(len(piece)), ctypes.byref(self.line))
        ended = self.asked(lambda *out: self.calls.golly_canon_finish(ctypes.byref(stream), *out))
        self.calls.golly_canon_close(ctypes.byref(stream))
        return ended if status in (0, ended) else status

    def by_table(self, data, table):
        call = self.calls.golly_canon_step_by_table
        lengths = ctypes.c_size_t(len(data)), ctypes.c_size_t(len(table))
        return self.asked(lambda *out: call(data, lengths[0], table, lengths[1], *store(self.limit), *out, ctypes.byref(self.flag)))

    def compared(self, one, other, numbers):
        call = self.calls.golly_canon_same_form if numbers else self.calls.golly_canon_same
        sizes = ctypes.c_size_t(len(one)), ctypes.c_size_t(len(other))
        answered = ctypes.byref(self.flag), ctypes.byref(self.line)
        status = call(one, sizes[0], other, sizes[1], *numbers, *store(self.limit), *answered)
        if status:
            return self.refusal(status, False)
        return commands.Answer(SAME, b"same\n") if self.flag.value else commands.Answer(DIFFERENT, b"different\n")

    def answer(self, words, given, limit=SQUARES):
        """Calls the library as these words of the program say, within so many squares. `-` is the file whose name is given."""
        self.loaded()
        self.limit = limit
        numbers = numbers_of(words)
        first = self.files[given if words[1] == "-" else words[1]]
        if words[0] == "same":
            return self.compared(first, self.files[given if words[2] == "-" else words[2]], numbers)
        self.flag.value = 0
        if words[-2] == "--table":
            status = self.by_table(first, self.files[words[-1]])
        else:
            name = CALLS[words[-1] if words[0] == "convert" else words[0]]
            name = f"{name}{MORE.get(words[-2], '')}"
            status = (self.by_stream if words[1] == "-" else self.by_call)(name, first, numbers)
        if status:
            return self.refusal(status, self.flag.value)
        return commands.Answer(0, self.out[: self.needed.value])
