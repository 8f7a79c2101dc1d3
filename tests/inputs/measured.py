"""Runs of the program with the memory that they used at most and the seconds that they lasted."""

import os
import subprocess
import threading
import time
from dataclasses import dataclass

from program.bench import PROGRAM, SECONDS, TESTS, Done, beside

# The most megabytes of a run over a small office, and over one at its limits.
SMALL, LARGE = 32, 256


@dataclass(frozen=True)
class Measured:
    """What a run printed and its status, the most kilobytes that it used, its seconds, and how many bytes it read."""

    done: Done
    kilobytes: int
    seconds: float
    given: int

    def text(self):
        """The figures as a text."""
        return f"{self.kilobytes / 1_024:.1f} MB, {self.seconds:.2f} s, {self.given:,} bytes read"


class Feeder(threading.Thread):
    """Writes pieces into a stream until it accepts no more, and counts the bytes."""

    def __init__(self, stream, pieces):
        super().__init__()
        self.stream = stream
        self.pieces = pieces
        self.count = 0

    def run(self):
        try:
            for piece in self.pieces:
                self.count += self.stream.write(piece)
            self.stream.close()
        except BrokenPipeError:
            pass


class Meter:
    """Runs the program by measure.c, which is built beside the folder of a bench."""

    def __init__(self, bench):
        self.bench = bench
        self.program = beside(bench, "measure")
        self.file = beside(bench, "kilobytes")
        command = ["cc", "-O1", "-Wall", "-Wextra", "-Werror", "-o", self.program]
        subprocess.run([*command, str(TESTS / "inputs/measure.c")], check=True)

    def run(self, words, pieces=()):
        """Runs the program with these arguments, and with an input that arrives in pieces."""
        start = time.monotonic()
        with subprocess.Popen(
            [self.program, self.file, PROGRAM, *words],
            stdin=subprocess.PIPE,
            stdout=subprocess.PIPE,
            stderr=subprocess.PIPE,
            cwd=self.bench.folder,
            bufsize=0,
        ) as process:
            feeder, said = Feeder(process.stdin, pieces), []
            reader = threading.Thread(target=lambda: said.append(process.stderr.read()))
            feeder.start()
            reader.start()
            out = process.stdout.read()
            reader.join(SECONDS)
            feeder.join(SECONDS)
            status = process.wait(SECONDS)
        with open(self.file, encoding="utf-8") as file:
            kilobytes = int(file.read())
        return Measured(Done(out, said[0], status), kilobytes, time.monotonic() - start, feeder.count)


def kilobytes_of(process):
    """Returns the most kilobytes that a running process has used."""
    with open(f"/proc/{process.pid}/status", encoding="utf-8") as file:
        for line in file:
            if line.startswith("VmHWM:"):
                return int(line.split()[1])
    raise AssertionError("the system does not report the memory of a process")


def is_within(bench, what, kilobytes, megabytes):
    """Counts whether the memory is within its bound, and prints how much it was."""
    print(f"{kilobytes / 1_024:9.1f} MB  {what}", flush=True)
    bench.same(f"{what}: at most {megabytes} MB ({kilobytes} kB)", kilobytes <= megabytes * 1_024, True)


def size_of(path):
    """The length of a file."""
    return os.stat(path).st_size
