"""Shows how far a run has come: a bar on a terminal, or a line for each texture."""
import os
import sys
import time

WIDTH = 24
MIB = 2 ** 20


def time_text(seconds):
    if seconds < 100:
        return f"{max(1, round(seconds))} s"
    return f"{round(seconds / 60)} min" if seconds < 6000 else f"{seconds / 3600:.1f} h"


def bar(done, count, done_bytes, all_bytes, seconds):
    """The text of the bar: files done, MB, and the time that is left if the rest goes on as fast."""
    part = done_bytes / all_bytes if all_bytes else done / max(1, count)
    filled = "#" * int(WIDTH * part)
    left = f", {time_text(seconds * (1 - part) / part)} left" if part > 0 and done < count else ""
    return (f"[{filled:<{WIDTH}}] {done} of {count} files, {done_bytes / MIB:.0f} of {all_bytes / MIB:.0f} MB{left}")


class Progress:
    def __init__(self, images, out=sys.stdout, terminal=sys.stderr):
        self.count, self.all_bytes = len(images), sum(it.size for it in images)
        self.done, self.done_bytes, self.began = 0, 0, time.monotonic()
        self.out, self.terminal, self.is_bar = out, terminal, terminal.isatty() and len(images) > 1
        self.show()

    def show(self):
        if not self.is_bar:
            return
        text = bar(self.done, self.count, self.done_bytes, self.all_bytes, time.monotonic() - self.began)
        columns = os.get_terminal_size(self.terminal.fileno()).columns or 80
        self.terminal.write(f"\r{text[:columns - 1]}\x1b[K")
        self.terminal.flush()

    def step(self, image, line):
        self.done, self.done_bytes = self.done + 1, self.done_bytes + image.size
        if line and not self.is_bar:
            print(line, file=self.out, flush=True)
        self.show()

    def close(self):
        if self.is_bar:
            self.terminal.write("\r\x1b[K")
            self.terminal.flush()
