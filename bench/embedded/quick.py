"""Times decisions and commands from Python, as quick.c does from C: the lines of the office are on standard input."""

import statistics
import sys
import time

from rbac_office import Office

ROUNDS, DECISIONS, COMMANDS = 50, 2048, 256


def per_call(count, work):
    """Returns the median time of a call, in nanoseconds."""
    took = []
    for _ in range(ROUNDS):
        start = time.perf_counter_ns()
        work()
        took.append((time.perf_counter_ns() - start) / count)
    return statistics.median(took)


def main():
    office = Office()
    for line in sys.stdin.buffer:
        assert office.answer(line.strip()) == b'{"ok":true}'
    asked = [(f"s{at * 37 % 1000}", "read", f"o{at * 91 % 1000}") for at in range(DECISIONS)]
    lines = [b'{"fn":"addUser","user":"extra"}', b'{"fn":"deleteUser","user":"extra"}'] * (COMMANDS // 2)

    granted = 0

    def decide():
        nonlocal granted
        granted, check = 0, office.check
        for session, operation, object in asked:
            if check(session, operation, object):
                granted += 1

    def command():
        for line in lines:
            office.answer(line)

    print(f"{per_call(DECISIONS, decide):.0f} {per_call(COMMANDS, command):.0f} {granted}")


if __name__ == "__main__":
    main()
