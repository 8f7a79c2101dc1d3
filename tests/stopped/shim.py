"""Shims in C that are loaded into the program, and runs of the program under one of them."""

import atexit
import functools
import os
import shutil
import subprocess
import tempfile

from program.bench import PROGRAM, SECONDS, TESTS, Done, beside


# The status by which stop.c ends a process.
ENDED = 99


def run_program(bench, words, given=b"", **more):
    """Runs the program. `more` is passed to `subprocess`."""
    done = subprocess.run(
        [PROGRAM, *words], input=given, cwd=bench.folder, capture_output=True, timeout=SECONDS, check=False, **more
    )
    return Done(done.stdout, done.stderr, done.returncode)


@functools.cache
def built(source):
    """The path of a shim, which is built once in this process."""
    folder = tempfile.mkdtemp(prefix="shim-")
    atexit.register(shutil.rmtree, folder, ignore_errors=True)
    os.chmod(folder, 0o755)
    library = f"{folder}/shim.so"
    command = ["cc", "-O1", "-Wall", "-Wextra", "-Werror", "-shared", "-fPIC", "-o", library]
    subprocess.run([*command, str(TESTS / source)], check=True)
    return library


class Shim:
    """A shim, and a bench whose runs are under it. `report` is what it wrote about the call that it stopped."""

    def __init__(self, bench, source):
        self.bench = bench
        self.library = built(source)
        self.file = beside(bench, "report")
        self.report = None

    def environment(self, settings):
        """Returns the variables that load it with these settings."""
        return {**os.environ, "LD_PRELOAD": self.library, **{key: str(value) for key, value in settings.items()}}

    def forget(self):
        """Removes what it wrote in an earlier run."""
        if os.path.exists(self.file):
            os.remove(self.file)

    def ask(self):
        """Reads what it wrote about the call that it stopped: None if there were fewer calls."""
        self.report = None
        if os.path.exists(self.file):
            with open(self.file, encoding="utf-8") as file:
                self.report = file.read()
        return self.report

    def run(self, words, given=b"", **settings):
        """Runs the program under it, and keeps what it writes."""
        self.forget()
        done = run_program(self.bench, words, given, env=self.environment(settings))
        self.ask()
        return done


class Stopper(Shim):
    """The shim that stops a call on the files in the folder of a bench."""

    def __init__(self, bench):
        super().__init__(bench, "stopped/stop.c")

    def settings(self, at, like, calls="changes", ever=False):
        """Returns the settings that stop the call of this number like this."""
        found = {"STOP_UNDER": self.bench.folder, "STOPPED": self.file, "STOP_AT": at, "STOP_LIKE": like}
        found["STOP_CALLS"] = calls
        return {**found, "STOP_EVER": 1} if ever else found

    @property
    def answers(self):
        """How many answers there were when the call was stopped."""
        return int(self.report.split()[0])

    @property
    def call(self):
        """Which call was stopped, and on which file."""
        return " ".join(self.report.split()[1:])
