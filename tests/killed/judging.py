"""What all checks of this folder have to have met together."""

# The least number of replays that are killed, and of those that are killed before they have answered all of their lines.
LEAST, LEAST_AMID = 250, 50


def judge_counts(counts):
    """What is wrong with the counts of all checks: too few kills."""
    found = counts["kill: runs that ended too early"], counts["kill: runs that ended before all lines were answered"]
    enough = found[0] >= LEAST and found[1] >= LEAST_AMID
    return [] if enough else [f"{found[0]} kills of a replay, of which {found[1]} before its last answer"]
