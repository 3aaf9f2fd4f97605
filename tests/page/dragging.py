"""Drags files and folders with the pointer onto a place of the display, as a file manager does: a window of GTK offers them, and the pointer is moved by the
extension XTEST of the display. It calls the libraries in C, so that no package for Python is needed. `browser.py` runs it in a process of its own."""

import ctypes
import os
import sys
import urllib.parse

GTK, GOBJECT, GLIB, X11, XTEST = "libgtk-3.so.0", "libgobject-2.0.so.0", "libglib-2.0.so.0", "libX11.so.6", "libXtst.so.6"
NUMBER, POINTER = ctypes.c_int, ctypes.c_void_p
# The kind of a window that no window manager places, its place and its size, all in pixels.
POPUP, LEFT, TOP, SIZE = 1, 1100, 800, 60
FIRST_BUTTON, COPY = 1 << 8, 1 << 1
# The pointer goes in so many steps, each after so many milliseconds; and the most milliseconds until all is done.
STEPS, PAUSE, LONGEST = 20, 40, 20_000


def called(library, name, result, *kinds):
    """A function of a library in C, with the kinds of its result and of its arguments."""
    function = getattr(library, name)
    function.restype, function.argtypes = result, kinds
    return function


class Dragging:
    """A window whose files are dragged onto a place."""

    def __init__(self, to, paths):
        self.gtk, self.gobject, self.glib, self.x11, self.xtest = map(ctypes.CDLL, (GTK, GOBJECT, GLIB, X11, XTEST))
        addresses = [b"file://" + urllib.parse.quote(os.fsencode(os.path.abspath(it))).encode() for it in paths]
        self.addresses = (ctypes.c_char_p * (len(paths) + 1))(*addresses, None)
        self.moves = iter(self.all_moves(to))
        self.kept, self.is_taken = [], False  # what C calls has to be kept
        if not called(self.gtk, "gtk_init_check", NUMBER, POINTER, POINTER)(None, None):
            sys.exit("there is no display")
        self.display = called(self.x11, "XOpenDisplay", POINTER, ctypes.c_char_p)(None)
        self.window()
        self.every(PAUSE, self.move)
        self.every(LONGEST, self.quit)

    def window(self):
        window = called(self.gtk, "gtk_window_new", POINTER, NUMBER)(POPUP)
        called(self.gtk, "gtk_window_set_default_size", None, POINTER, NUMBER, NUMBER)(window, SIZE, SIZE)
        called(self.gtk, "gtk_window_move", None, POINTER, NUMBER, NUMBER)(window, LEFT, TOP)
        called(self.gtk, "gtk_drag_source_set", None, POINTER, NUMBER, POINTER, NUMBER, NUMBER)(window, FIRST_BUTTON, None, 0, COPY)
        called(self.gtk, "gtk_drag_source_add_uri_targets", None, POINTER)(window)
        self.connect(window, "drag-data-get", ctypes.CFUNCTYPE(None, POINTER, POINTER, POINTER, NUMBER, NUMBER, POINTER)(self.give))
        self.connect(window, "drag-failed", ctypes.CFUNCTYPE(NUMBER, POINTER, POINTER, NUMBER, POINTER)(self.fail))
        self.connect(window, "drag-end", ctypes.CFUNCTYPE(None, POINTER, POINTER, POINTER)(self.quit))
        called(self.gtk, "gtk_widget_show_all", None, POINTER)(window)

    def connect(self, window, name, function):
        self.kept.append(function)
        words = POINTER, ctypes.c_char_p, POINTER, POINTER, POINTER, NUMBER
        called(self.gobject, "g_signal_connect_data", ctypes.c_ulong, *words)(window, name.encode(), ctypes.cast(function, POINTER), None, None, 0)

    def every(self, milliseconds, function):
        self.kept.append(ctypes.CFUNCTYPE(NUMBER, POINTER)(function))
        called(self.glib, "g_timeout_add", NUMBER, NUMBER, POINTER, POINTER)(milliseconds, ctypes.cast(self.kept[-1], POINTER), None)

    def all_moves(self, to):
        """The moves of the pointer, one after the other: each is a place, or whether the button is down."""
        begin = LEFT + SIZE // 2, TOP + SIZE // 2
        yield from [begin, begin, True]
        for step in range(1, STEPS + 1):
            yield tuple(one + (other - one) * step // STEPS for one, other in zip(begin, to))
        # The window under the pointer answers to a move whether it takes what is dragged.
        yield from [(to[0] + step % 2, to[1]) for step in range(STEPS)]
        yield False

    def move(self, _):
        move = next(self.moves, None)
        if isinstance(move, tuple):
            called(self.xtest, "XTestFakeMotionEvent", NUMBER, POINTER, NUMBER, NUMBER, NUMBER, ctypes.c_ulong)(self.display, -1, *move, 0)
        elif move is not None:
            called(self.xtest, "XTestFakeButtonEvent", NUMBER, POINTER, ctypes.c_uint, NUMBER, ctypes.c_ulong)(self.display, 1, move, 0)
        called(self.x11, "XFlush", NUMBER, POINTER)(self.display)
        return move is not None

    def give(self, _window, _context, data, *_):
        self.is_taken = True
        called(self.gtk, "gtk_selection_data_set_uris", NUMBER, POINTER, POINTER)(data, ctypes.cast(self.addresses, POINTER))

    def fail(self, *_):
        self.is_taken = False
        return 0

    def quit(self, *_):
        self.gtk.gtk_main_quit()
        return 0

    def run(self):
        self.gtk.gtk_main()
        return 0 if self.is_taken else 1


def main(words):
    """Drags the files of these paths onto a place, whose column and row come first. Returns 0 if the window there took them, and otherwise 1."""
    return Dragging((int(words[0]), int(words[1])), words[2:]).run()
