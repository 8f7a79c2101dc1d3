#!/usr/bin/env python3
"""The plain model of an office in the folder machine, alone.

    machine.py replay [--version-1] <LINES                       writes the answers to the lines of standard input
    machine.py report|export|rows [--version-1] <LINES           writes that of the state after these lines
"""

import sys

from machine.assignments import export
from machine.replaying import Replay
from machine.texts import json_text, report, rows


def write(word, version):
    """Writes the answers to the lines of standard input, or what the state after them is."""
    replay = Replay(version)
    for answer in replay.answers(sys.stdin.buffer.read()):
        if word == "replay":
            sys.stdout.buffer.write(answer)
    if word == "report":
        sys.stdout.buffer.write(report(replay.state))
    elif word == "export":
        sys.stdout.buffer.write(export(replay.state))
    elif word == "rows":
        for table, found in rows(replay.state).items():
            for row in found:
                print(f"{table} {json_text(row)}")
    sys.stderr.buffer.write(replay.message())
    return 1 if replay.stop else 0


def main(words):
    if words and words[0] in ("replay", "report", "export", "rows"):
        return write(words[0], 1 if "--version-1" in words else 2)
    print(__doc__, file=sys.stderr)
    return 2


if __name__ == "__main__":
    sys.exit(main(sys.argv[1:]))
