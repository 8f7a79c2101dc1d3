"""What all checks of this folder have to have met together."""

from . import offices


def judge_counts(counts):
    """What is wrong with the counts of all checks: something that no office had."""
    return [f"there are no {what}" for what in offices.MET if not counts[what]]
