"""Assignments as CSV, read and written.

Records are those of the usual reader: fields are between commas, a field may be in double quotes
and then has each of its own twice, and LF, CR or both end a record. Nothing is trimmed, empty lines
are no records, and records may differ in length. One byte order mark at the start is dropped.
"""

from .names import is_name
from .state import LIMITS, Refused, refuse_if

COMMA, QUOTE, CR, LF = b',"\r\n'
MARK = b"\xef\xbb\xbf"
MOST_BYTES = LIMITS["byte"][0]
MOST_RECORDS = LIMITS["record"][0]

# The place of the reader in a record.
BETWEEN, AT_FIELD, IN_FIELD, IN_QUOTES, AFTER_QUOTE = range(5)


def records(text):
    """The records of a text: lists of fields, all of them bytes."""
    found, fields, piece, place = [], [], bytearray(), BETWEEN
    for byte in text.removeprefix(MARK):
        if place == IN_QUOTES:
            if byte == QUOTE:
                place = AFTER_QUOTE
            else:
                piece.append(byte)
        elif byte == QUOTE and place in (BETWEEN, AT_FIELD):
            place = IN_QUOTES
        elif byte == QUOTE and place == AFTER_QUOTE:
            piece.append(byte)
            place = IN_QUOTES
        elif byte == COMMA:
            fields.append(bytes(piece))
            piece.clear()
            place = AT_FIELD
        elif byte in (CR, LF):
            if place != BETWEEN:
                found.append([*fields, bytes(piece)])
                fields.clear()
                piece.clear()
            place = BETWEEN
        else:
            piece.append(byte)
            place = IN_FIELD
    if place != BETWEEN:
        found.append([*fields, bytes(piece)])
    return found


def read_pair(record, fields):
    """The user and the role of the record with this number."""
    refuse_if(record > MOST_RECORDS, 32, kind="record")
    refuse_if(len(fields) != 2, 36, record=record)
    try:
        user, role = (field.decode() for field in fields)
    except UnicodeDecodeError:
        raise Refused(36, record=record) from None
    refuse_if(not is_name(user) or not is_name(role), 1)
    return user, role


def read_assignments(text):
    """The assignments of a text with the header `user,role`; the first error refuses all of it."""
    refuse_if(len(text) > MOST_BYTES, 32, kind="byte")
    found = records(text)
    refuse_if(found[:1] != [[b"user", b"role"]], 36, record=0)
    return [read_pair(record, fields) for record, fields in enumerate(found[1:], 1)]


def write_field(text):
    """The field, in quotes if it has a comma, a quote or an end of line."""
    if any(sign in text for sign in ',"\r\n'):
        return '"' + text.replace('"', '""') + '"'
    return text


def export(state):
    """The assignments of a state in byte order, under their header."""
    lines = ["user,role"]
    lines += [write_field(user) + "," + write_field(role) for user, role in sorted(state.assignments)]
    return "".join(line + "\n" for line in lines).encode()
