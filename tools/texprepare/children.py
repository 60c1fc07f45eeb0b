"""Runs programs from several threads, all of which can be stopped at once."""
import os
import signal
import subprocess
import threading


class Interrupted(Exception):
    """The run was stopped, as by Ctrl-C."""


class Children:
    def __init__(self):
        self.lock, self.alive, self.is_stopped = threading.RLock(), set(), False

    def run(self, words, out=None):
        """The status of a program, and what it said on its error output, and on the other one if `out` is not the
        file for it."""
        with self.lock:
            if self.is_stopped:
                raise Interrupted
            # a session of its own: Ctrl-C on the terminal reaches this script alone, which stops the others in order
            child = subprocess.Popen([os.fspath(it) for it in words], stdin=subprocess.DEVNULL,
                                     stdout=out or subprocess.PIPE, stderr=subprocess.PIPE if out else subprocess.STDOUT,
                                     start_new_session=True)
            self.alive.add(child)
        try:
            said = child.communicate()[1 if out else 0]
        finally:
            with self.lock:
                self.alive.discard(child)
        if self.is_stopped:
            raise Interrupted
        return child.returncode, said.decode(errors="replace")

    def stop(self):
        with self.lock:
            self.is_stopped = True
            for child in self.alive:
                try:
                    os.killpg(child.pid, signal.SIGKILL)
                except ProcessLookupError:
                    pass
