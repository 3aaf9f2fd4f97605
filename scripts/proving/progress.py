"""How far a run is: a line for each crate that is proved and for its edits, with about how long the rest takes."""

import os
import re
import threading
import time

# What is guessed before this machine's speed is known: bytes of source, definitions and proofs that a processor of 2.5 GHz checks in a second, the seconds
# to load what a crate stands on, and those that an edit takes.
SPEED, LOAD, EDIT = 2000, 10, 10


def size_of(folder):
    """The bytes of a crate's source, definitions and proofs."""
    return sum(os.path.getsize(f"{at}/{it}") for part in ("src", "specs", "proofs") for at, _, names in os.walk(f"{folder}/{part}") for it in names)


class Progress:
    """The tasks of a run, each a crate's name and a kind (`proof`, `tests`, `edits`), with the seconds that it is likely to take."""

    def __init__(self, say, lanes):
        self.say, self.lanes, self.lock = say, lanes, threading.Lock()
        self.guesses, self.began, self.seconds = {}, {}, {}
        self.functions, self.refused, self.edits = 0, 0, 0

    def watch(self, tasks, guess, ended):
        """Wraps the tasks of `rt`, so that each is timed, and `ended` is called with its key and what it returned. A task is what it waits for, its lines, its
        memory, and a call."""

        def timed(key, call, given, jobs):
            with self.lock:
                self.began[key] = time.time()
            result = call(given, jobs)
            with self.lock:
                self.seconds[key] = time.time() - self.began.pop(key)
            ended(key, result)
            return result

        watched = {}
        for key, (waits, lines, needs, call) in tasks.items():
            self.guesses[key] = guess(key)
            watched[key] = waits, lines, needs, lambda given, jobs, key=key, call=call: timed(key, call, given, jobs)
        return watched

    def left(self):
        """About how many minutes the tasks take that haven't ended, by the speed of those that have."""
        guessed = sum(self.guesses[it] for it in self.seconds)
        factor = sum(self.seconds.values()) / guessed if guessed > 100 else 1.0
        rest = sum(guess for it, guess in self.guesses.items() if it not in self.seconds) * factor
        rest -= sum(min(time.time() - it, 60) for it in self.began.values())
        return max(round(rest / self.lanes / 60), 1)

    def line(self, ended, what):
        """Says what has just come about, and how far the run is. The work on the crate `ended` is about to end."""
        with self.lock:
            proofs = [it for it in self.guesses if it[1] == "proof"]
            done = sum(it in self.seconds for it in proofs)
            now = sorted({it for it, _ in self.began if it != ended})
            self.say(f"{what} ({time.strftime('%H:%M:%S')}); {done} of {len(proofs)} crates, {self.refused} of {self.edits} edits; "
                     f"about {self.left()} min left{'; now ' + ', '.join(now) if now else ''}")


def functions_of(folder):
    """How many functions the verdict of a checked crate names."""
    try:
        with open(f"{folder}/out/checked/verdict", encoding="utf-8") as it:
            found = re.search(r"^logic=proved functions=(\d+)", it.read(), re.M)
    except OSError:
        return 0
    return int(found[1]) if found else 0
