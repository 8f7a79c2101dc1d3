#!/usr/bin/env python3
"""Prints each invalid name in CSV files of assignments, with the number of its record as `rbac import` counts them.

    names.py FILE..

A name is invalid if it is empty, has more than 64 bytes of UTF-8, or has a control character. The heading is record 0.
"""

import csv
import sys

LONGEST = 64


def is_valid(name):
    """Whether the program accepts a name."""
    is_short = 1 <= len(name.encode()) <= LONGEST
    return is_short and not any(letter < " " or letter == "\x7f" for letter in name)


def main(paths):
    """Prints the invalid names of each file. An empty line is no record."""
    for path in paths:
        with open(path, encoding="utf-8-sig", newline="") as file:
            for number, record in enumerate(filter(None, csv.reader(file))):
                for name in record:
                    if not is_valid(name):
                        print(f"{path}: record {number}: {name!r}")


if __name__ == "__main__":
    main(sys.argv[1:])
