"""How many of each kind an office may have."""

import csv
from importlib import resources


def limits_of(version: int) -> dict[str, int]:
    """The limits of an office of a version by their kinds, from limits.csv, which `bin/limits` of the repository writes."""
    text = resources.files("rbac_policy").joinpath("limits.csv").read_text(encoding="utf-8")
    return {row["kind"]: int(row[str(version)]) for row in csv.DictReader(text.splitlines())}
