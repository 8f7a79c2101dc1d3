"""A shell that runs the commands of a page as a reader types them."""

import os
import re
import select
import signal
import subprocess
import time

from program.bench import PROGRAM, SECONDS
from program.web import free_port

# The port that the pages name. A free one replaces it.
PORT = "8080"

# The shell prints this byte when what was typed has ended.
END = b"\0"


class Shell:
    """A shell in the folder of a check. `rbac` and `bin/rbac` are the program there. All that it started is killed at the end."""

    def __init__(self, bench):
        self.bench = bench
        self.port = str(free_port())
        programs = bench.folder / "bin"
        programs.mkdir()
        (programs / "rbac").symlink_to(PROGRAM)
        # On a terminal curl shows no progress of itself.
        (bench.folder / ".curlrc").write_text("silent\n", encoding="ascii")
        self.process = subprocess.Popen(
            ["sh"],
            stdin=subprocess.PIPE,
            stdout=subprocess.PIPE,
            stderr=subprocess.STDOUT,
            cwd=bench.folder,
            env={
                **os.environ,
                "PATH": f"{programs}:{os.environ['PATH']}",
                "CURL_HOME": str(bench.folder),
                "NO_PROXY": "*",
            },
            start_new_session=True,
        )

    def __enter__(self):
        return self

    def __exit__(self, *_):
        os.killpg(self.process.pid, signal.SIGKILL)
        self.process.wait()
        self.process.stdin.close()
        self.process.stdout.close()

    def here(self, text):
        """A text of a page with the free port in place of its own."""
        return text.replace(PORT, self.port)

    def type(self, text, lines=0, seconds=SECONDS):
        """Returns what the shell prints until what is typed has ended, and until it has printed this many lines."""
        self.process.stdin.write(f"{self.here(text)}\nprintf '\\0'\n".encode())
        self.process.stdin.flush()
        said, deadline = b"", time.monotonic() + seconds
        while END not in said or said.count(b"\n") < lines:
            if not select.select([self.process.stdout], [], [], deadline - time.monotonic())[0]:
                raise TimeoutError(f"{text} has printed {said} in {seconds} seconds")
            piece = os.read(self.process.stdout.fileno(), 65_536)
            if not piece:
                raise EOFError(f"the shell has ended with {text}")
            said += piece
        return said.replace(END, b"").replace(b"\r\n", b"\n").decode()

    def shows(self, text, shown):
        """Counts whether what is typed prints what the page shows."""
        wanted = self.here(shown)
        lines = wanted.count("\n") if re.search(r"&(?: \w+=\$!)?$", text) else 0
        self.bench.same(f"what {text} prints", self.type(text, lines), wanted)

    def waits(self):
        """Counts whether what runs in the background ends, and prints nothing more."""
        self.shows("wait", "")

    def console(self, lines):
        """Counts whether each command of a block prints the lines below it, and what runs in the background ends."""
        for command, shown in runs(lines):
            self.shows(command, shown)
        self.waits()


def runs(lines):
    """The commands of a block, which begin with `$ `, each with the lines that it prints."""
    text = "".join(f"{line}\n" for line in lines)
    return [run.partition("\n")[::2] for run in re.split(r"^\$ ", text, flags=re.M)[1:]]
