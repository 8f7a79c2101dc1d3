"""The answers to the lines of an input."""

from .commands import COMMANDS, apply
from .questions import ask
from .requests import LONGEST_LINE, read_request
from .state import Refused, State
from .texts import DONE, refused, answer_with


class Replay:
    """A replay: the state so far, and the number of the line that stopped it, or None."""

    def __init__(self, version=2):
        self.state = State(version=version)
        self.stop = None
        self.answered = 0

    def answer(self, line):
        """The answer to a line, without LF. An accepted command changes the state."""
        try:
            function, arguments = read_request(line)
            if function not in COMMANDS:
                return answer_with(ask(self.state, function, arguments))
            self.state, tally = apply(self.state, function, arguments)
            return DONE if tally is None else answer_with(tally)
        except Refused as refusal:
            return refused(refusal)

    def answers(self, text):
        """The answers to the lines of an input, each with LF."""
        lines = text.split(b"\n")
        if not lines[-1]:
            lines.pop()
        for number, line in enumerate(lines, 1):
            if len(line) > LONGEST_LINE:
                self.stop = number
                return
            if line.strip(b" \t\r"):
                self.answered += 1
                yield self.answer(line) + b"\n"

    def message(self):
        """What a stop prints on standard error."""
        if self.stop is None:
            return b""
        return f"rbac: stop Line {self.stop} after {self.answered}\n".encode()
