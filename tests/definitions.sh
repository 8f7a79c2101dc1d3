#!/bin/sh
# Compares the definitions themselves with the answers that were written for the rows: the checker computes on each row what the line
# asks for, the verdict, the sets after an accepted command, or the answer to a question, and the bytes of the answer, without any
# function of the program. Then it does so with wrong definitions, which have to be seen. It needs the kit, and the libraries of these
# sources.
#
# definitions.sh [FOLDER]    with the libraries in FOLDER; without it, with those that `bin/rbac --build` or `rt ci` has left

tests=$(cd "$(dirname "$0")" && pwd) || exit 1
PYTHONDONTWRITEBYTECODE=1 PYTHONPATH=$tests:$tests/../bin exec python3 -m definitions.compare "$@"
