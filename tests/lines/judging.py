"""What all random lines have to have met together."""

from collections import Counter

from .drawn import SCRIPTS_OF_LARGE, show_table


def judge_counts(counts):
    """What was never met, and what can't be met and was."""
    met = Counter({tuple(key.split("\t")): count for key, count in counts.items() if "\t" in key})
    return show_table(met, SCRIPTS_OF_LARGE in counts)
