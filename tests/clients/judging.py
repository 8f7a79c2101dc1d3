"""What all checks of this folder have to have met together."""

from .driving import CLIENTS
from .fakes import shared


def judge_counts(counts):
    """Which clients haven't met each case of clients/conformance/sessions.json."""
    wanted = len(shared("sessions.json"))
    found = {name: counts[f"sessions.json by {name}"] for name in CLIENTS}
    return [
        f"the client {name} has met {met} of {wanted} cases of sessions.json" for name, met in found.items() if met != wanted
    ]
