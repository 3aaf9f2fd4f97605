"""A terminal for a test: what a program writes there, and the keys that are pressed."""

import fcntl
import os
import pty
import subprocess
import termios
import tty


class Terminal:
    """A terminal, which controls what is started on it, so that a key there is a signal."""

    def __init__(self):
        self.end, self.own = pty.openpty()
        tty.setraw(self.own)  # no end of a line is turned into two bytes
        mode = termios.tcgetattr(self.own)
        mode[3] |= termios.ISIG
        termios.tcsetattr(self.own, termios.TCSANOW, mode)

    def start(self, words, **streams):
        """Starts a program whose standard error is this terminal, in a session of its own."""
        def control():
            os.setsid()
            fcntl.ioctl(self.own, termios.TIOCSCTTY, 0)
        run = subprocess.Popen(words, stderr=self.own, preexec_fn=control, **streams)
        os.close(self.own)
        return run

    def read(self, wanted=None):
        """What comes out of the terminal until that has something, or else until nobody writes to it."""
        found = b""
        while wanted is None or wanted not in found:
            try:
                data = os.read(self.end, 1 << 16)
            except OSError:  # so ends a terminal
                return found
            found += data
        return found
