"""Runs the built program on an input, and returns its exit status and the bytes of standard output."""

import os
import signal
import subprocess

from service import BUILT
from service.reference.traces import fixed
from tools import ROOT

PROGRAM = str(ROOT / BUILT)
SECONDS = 120


def program_answer(program, words, data):
    done = subprocess.run([program, *words], input=data, stdout=subprocess.PIPE, stderr=subprocess.DEVNULL, timeout=SECONDS)
    return done.returncode, done.stdout


class Started:
    """A program that is started for many inputs, one after the other. It costs less processor time than `program_answer`.

    The input is a file in memory, and the environment is empty. A process that does not end in time is killed.
    """

    def __init__(self, program, seconds=SECONDS):
        self.program, self.seconds, self.process = str(program), seconds, None
        self.input, self.null = os.memfd_create("input"), os.open(os.devnull, os.O_WRONLY)
        signal.signal(signal.SIGALRM, lambda *_: os.kill(self.process, signal.SIGKILL))

    def answer(self, words, data):
        """Returns the exit status, and the bytes of standard output. After a signal, the status is less than 0."""
        os.ftruncate(self.input, 0)
        os.pwrite(self.input, data, 0)
        os.lseek(self.input, 0, os.SEEK_SET)
        output, end = os.pipe()
        files = [(os.POSIX_SPAWN_DUP2, file, place) for place, file in enumerate((self.input, end, self.null))]
        self.process = os.posix_spawn(self.program, [self.program, *words], {}, file_actions=files)
        os.close(end)
        signal.setitimer(signal.ITIMER_REAL, self.seconds)
        with open(output, "rb") as pipe:
            data = pipe.read()
        _, status = os.waitpid(self.process, 0)
        signal.setitimer(signal.ITIMER_REAL, 0)
        return os.waitstatus_to_exitcode(status), data

    def close(self):
        os.close(self.input)
        os.close(self.null)


def fixed_answer(words, answer):
    """Returns an answer of the program without what is not compared: of `trace`, all but the lines of checks and faults."""
    return (answer[0], fixed(answer[1])) if words == ["trace"] else answer
