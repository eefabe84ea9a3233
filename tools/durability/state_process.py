"""Runs the program with a folder for its state: gives it lines, and collects what it prints."""

import os
import re
import subprocess
import tempfile
import threading

from .load import PLANT

SECONDS = 60
FIRST = re.compile(rb"S line (\d+)(?: frame (\d+))?\n")


class StateProcess:
    """A process of `serve --state`, which has got its plant file."""

    def __init__(self, program, folder, every=None, environment=None, before=None, plant=PLANT):
        words = [*program, "serve", "--state", str(folder), *(["--snapshot-every", str(every)] if every else [])]
        self.errors = tempfile.TemporaryFile()
        self.process = subprocess.Popen(words, stdin=subprocess.PIPE, stdout=subprocess.PIPE, stderr=self.errors, bufsize=0,
                                        env={**os.environ, **(environment or {})}, preexec_fn=before)
        self.output, self.changed, self.is_open = b"", threading.Condition(), True
        self.reader = threading.Thread(target=self.read, daemon=True)
        self.reader.start()
        self.give(plant + b"---\n")

    def read(self):
        """Collects the output, up to its end."""
        while data := os.read(self.process.stdout.fileno(), 65_536):
            with self.changed:
                self.output += data
                self.changed.notify_all()
        with self.changed:
            self.is_open = False
            self.changed.notify_all()

    def give(self, data):
        """Writes to standard input, and returns whether the process took it all."""
        while data:
            try:
                data = data[os.write(self.process.stdin.fileno(), data):]
            except BrokenPipeError:
                return False
        return True

    def wait_until(self, holds, seconds=SECONDS):
        """Waits until the output meets a condition or has ended, and returns whether it meets it."""
        with self.changed:
            self.changed.wait_for(lambda: holds(self.output) or not self.is_open, seconds)
            return bool(holds(self.output))

    def first_line(self):
        """Waits for the first line, and returns its two numbers, or None if the process has ended without it."""
        self.wait_until(FIRST.match)
        found = FIRST.match(self.output)
        return found and (int(found[1]), int(found[2]) if found[2] else None)

    def answers(self):
        """Returns the output after the first line, without an error line that ended the service."""
        found = FIRST.match(self.output)
        text = self.output[found.end():] if found else b""
        return re.sub(rb"fault: (io|memory|state)\n\Z", b"", text)

    def last_line(self):
        return self.output.rstrip(b"\n").rpartition(b"\n")[2].decode(errors="replace")

    def wait(self):
        """Waits for the end of the process, and returns its status. One that does not end is killed."""
        try:
            status = self.process.wait(SECONDS)
        except subprocess.TimeoutExpired:
            self.process.kill()
            status = f"none in {SECONDS} seconds"
            self.process.wait()
        self.reader.join(SECONDS)
        self.process.stdin.close()
        self.process.stdout.close()
        self.errors.seek(0)
        self.reason = self.errors.read().decode(errors="replace")
        self.errors.close()
        return status

    def end(self):
        """Ends the input, and returns the exit status."""
        self.process.stdin.close()
        return self.wait()

    def kill(self):
        self.process.kill()
        return self.wait()
