"""What all checks of this folder have to have met together."""

from . import pairs


def judge_counts(counts):
    """What is wrong with the counts of all checks: something that no pair of offices had."""
    return [f"there are no {what}" for what in pairs.MET if not counts[what]]
