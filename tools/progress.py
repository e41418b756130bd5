"""What a tool tells on standard error while it works: one line on a terminal, drawn again and again, and elsewhere nothing but what is done."""
import shutil
import sys
import time


class Progress:
    def __init__(self, name):
        self.name, self.began, self.is_terminal, self.shown = name, time.monotonic(), sys.stderr.isatty(), False

    def time(self):
        seconds = int(time.monotonic() - self.began)
        return f"{seconds // 60} min {seconds % 60} s"

    def draw(self, text):
        """Shows how far the work is, where somebody looks on."""
        if self.is_terminal:
            width = shutil.get_terminal_size().columns - 1
            print(f"\r\033[K{self.name}: {text}"[: width + 4], end="", file=sys.stderr, flush=True)
            self.shown = True

    def clear(self):
        if self.shown:
            print("\r\033[K", end="", file=sys.stderr, flush=True)
            self.shown = False

    def say(self, text):
        """Tells what stays."""
        self.clear()
        print(f"{self.name}: {text}", file=sys.stderr, flush=True)

    def note(self, text):
        """Tells what is done, where no line shows it."""
        if not self.is_terminal:
            self.say(text)
