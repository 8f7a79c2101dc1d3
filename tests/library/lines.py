"""Answers the lines of standard input by the Python module, as lines.c does by the library."""

import sys

from rbac_office import Office, Refused


def decide(decision_about, line):
    """Returns what rbac_check or rbac_check_user returns for three names, between which there are tabs."""
    try:
        return int(decision_about(*line.decode(errors="surrogateescape").split("\t")))
    except Refused as refused:
        return -refused.code
    except UnicodeEncodeError:
        return -1


def conflicts(office, line):
    """Returns the sets that a command would violate, each with those who would violate it or with its roles, or minus a code."""
    kind, *names = line.decode().split("\t")
    try:
        if kind == "assignment":
            found = [(it,) for it in office.assignment_conflicts(*names)]
        elif kind == "activation":
            found = [(it,) for it in office.activation_conflicts(*names)]
        elif kind == "creation":
            found = [(name, *roles) for name, roles in office.creation_conflicts(names[0], names[1:])]
        else:
            found = office.inheritance_conflicts(*names, of_sessions=kind == "sessions")
    except Refused as refused:
        return str(-refused.code)
    return ";".join(",".join(row) for row in found)


def main():
    office = Office()
    for line in sys.stdin.buffer:
        line = line.removesuffix(b"\n")
        if line.startswith(b"?"):
            said = str(decide(office.check, line[1:])).encode()
        elif line.startswith(b"!"):
            said = str(decide(office.check_user, line[1:])).encode()
        elif line.startswith(b"%"):
            said = conflicts(office, line[1:]).encode()
        elif line == b"#":
            said = str(office.revision).encode()
        elif line == b"=":
            rows, revision = list(office.rows()), office.revision
            office.close()
            office = Office.load(reversed(rows), revision)
            said = str(len(rows)).encode()
        else:
            said = office.answer(line)
        sys.stdout.buffer.write(said + b"\n")


if __name__ == "__main__":
    main()
