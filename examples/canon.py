"""The canonical text of standard input, by the library. usage: canon.py < FILE
A fault goes to standard error, and ends it with status 1."""
import signal
import sys

for it in (signal.SIGINT, signal.SIGPIPE):
    signal.signal(it, signal.SIG_DFL)  # so that Ctrl-C, or a reader who leaves, ends it without a word

import golly_canon  # noqa: E402

try:
    with open(0, "rb", closefd=False) as file, open(1, "wb", closefd=False) as output:
        output.write(golly_canon.stream(file))
except golly_canon.Refused as why:
    sys.exit(str(why))
except OSError as why:
    sys.exit(f"canon.py: {why.strerror}")
