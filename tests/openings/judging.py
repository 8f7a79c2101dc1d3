"""What all checks of this folder have to have met together."""

# The parts of answers that files with random rows have to get.
MET = ["good", "NotAnOffice", "Version", '"kind":"role"', '"kind":"ssdSet"', '"kind":"dsdSet"']
MET += [f'{{"check":{check},' for check in range(1, 12)]


def judge_counts(counts):
    """What is wrong with the counts of all checks: an answer that no file got."""
    return [f"no file with random rows is answered by {one}" for one in MET if not any(one in name for name in counts)]
