"""A line of progress for what takes long."""

import sys
import threading


def on_terminal():
    return sys.stderr is not None and sys.stderr.isatty()


class Progress:
    """On a terminal, and after a second, a line on standard error that says how far it is; it is wiped at the end."""

    def __init__(self, text):
        self.text, self.over, self.width = text, threading.Event(), 0
        self.thread = threading.Thread(target=self.run, daemon=True)

    def __enter__(self):
        if on_terminal():
            self.thread.start()
        return self

    def __exit__(self, *_):
        self.over.set()
        if self.thread.is_alive():
            self.thread.join()

    def run(self):
        try:
            self.say_on()
        except OSError:
            pass  # the terminal is gone

    def say_on(self):
        pause = 1.0
        while not self.over.wait(pause):
            self.say(self.text())
            pause = 0.5
        if self.width:
            self.say("")
            self.say("")

    def say(self, text):
        line = text.ljust(self.width)
        self.width = len(text)
        sys.stderr.write("\r" + line)
        sys.stderr.flush()
