"""Which texts are names."""

MOST_BYTES = 64


def is_name(text):
    """Whether the text may be a name: 1 to 64 bytes of UTF-8 without control characters of ASCII."""
    if not 1 <= len(text.encode()) <= MOST_BYTES:
        return False
    return all(sign >= "\x20" and sign != "\x7f" for sign in text)
