"""Random commands that are evenly spread, from numbers that are the same everywhere: all but the locks, with few names."""

import json

from .commands import COMMANDS
from .replaying import Replay

# The letter and the number of the names at each key.
NAMES = {
    "user": ("u", 6),
    "role": ("r", 6),
    "asc": ("r", 6),
    "desc": ("r", 6),
    "object": ("o", 3),
    "operation": ("p", 2),
    "session": ("s", 4),
    "set": ("t", 2),
}
DRAWN = [function for function in COMMANDS if not function.endswith("Account")]


class Numbers:
    """A sequence of numbers that looks random, the same for each start."""

    def __init__(self, start):
        self.last = start

    def draw(self, count):
        """A number below the count."""
        self.last = (self.last * 1_103_515_245 + 12_345) % 2**31
        return self.last // 65_536 % count

    def draw_name(self, key):
        letter, count = NAMES[key]
        return f"{letter}{self.draw(count)}"

    def draw_value(self, key):
        if key == "cardinality":
            return self.draw(4)
        if key == "roles":
            return [self.draw_name("role") for _ in range(3)]
        if key == "csv":
            records = [f"{self.draw_name('user')},{self.draw_name('role')}\n" for _ in range(3)]
            return "user,role\n" + "".join(records)
        return self.draw_name(key)


def draw_even_script(start, count):
    """Returns this many commands: for each its function, its line, and the model's answer."""
    numbers, replay = Numbers(start), Replay()
    script = []
    for _ in range(count):
        function = DRAWN[numbers.draw(len(DRAWN))]
        keys = COMMANDS[function][1].split()
        line = json.dumps({"fn": function, **{key: numbers.draw_value(key) for key in keys}}).encode()
        script.append((function, line, replay.answer(line)))
    return script
