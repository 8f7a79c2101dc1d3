"""Callers for the clients of a cluster. Each shows a token; one of them may assign some roles only."""

from pathlib import Path

from front.identities import rules, tokens

from .histories import FUNCTIONS_KEYS

# The client that may not assign all roles, and what it may assign besides its own role.
LIMITED, ITS_ROLES = 0, "rst"

FORBIDDEN = (403, b'{"code":63,"error":"Forbidden"}')


def token(number):
    return f"secret{number}"


def is_forbidden(number, line):
    """Whether a client may not send a line."""
    return number == LIMITED and line["fn"] == "assignUser" and line["role"] not in (*ITS_ROLES, f"own{number}")


def options(folder, clients):
    """Writes the files of the callers into a folder, and returns the options of a node that names them."""
    rights = {}
    for number in range(clients):
        rights[f"token:client{number}"] = [
            (function, "office") for function in sorted(FUNCTIONS_KEYS) if (number, function) != (LIMITED, "assignUser")
        ]
    rights[f"token:client{LIMITED}"] += [("assignUser", f"role {role}") for role in (*ITS_ROLES, f"own{LIMITED}")]
    files = {
        "callers": rules(rights),
        "tokens": tokens(**{f"client{number}": token(number) for number in range(clients)}),
    }
    for name, text in files.items():
        Path(folder, name).write_text(text, encoding="ascii")
    # Nobody else reaches etcd, which has no certificates here.
    return ("--etcd-open", *(word for name in files for word in (f"--{name}", str(Path(folder, name)))))


def faults_of(history, number):
    """What is wrong with the statuses of a client's requests: what it may not do is refused, and nothing else is."""
    for one in history:
        wanted = is_forbidden(number, one.line)
        if wanted and one.status not in (0, 403, 503):
            yield f"client {number} was not refused: {one}"
        elif wanted != (one.status == 403) and one.status in (401, 403, 429):
            yield f"client {number} was refused: {one}"
        elif one.status == 403 and (one.status, one.answer) != FORBIDDEN:
            yield f"client {number} was refused with another text: {one}"
