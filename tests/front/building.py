"""What the sources of the front need, as the tools of Go see it."""

import re

from .running import SERVER, go


def foreign(package):
    """The modules that a package needs besides Go's own library."""
    shown, _ = go("go", "list", "-deps", "-f", "{{with .Module}}{{.Path}}{{end}}", package)
    return set(shown.split()) - {"rbac-node"}


def check_dependencies(bench):
    """All libraries are required by go.mod, and a program needs each that is. But for logs and metrics, callers need go-jose and librbac
    alone, and the record SQLite, SHA-3 and librbac, whose rows the state has."""
    required = set(re.findall(r"^\t(\S+) v", (SERVER / "go.mod").read_text(encoding="utf-8"), re.M))
    bench.same("what go.mod requires", foreign("./..."), required)
    reporting = foreign("./internal/logs") | foreign("./internal/metrics")
    wanted = {"golang.org/x/crypto", "gopkg.in/square/go-jose.v2", "rbac/clients/go"}
    bench.same("what callers need", foreign("./internal/callers") - reporting, wanted)
    wanted = {"github.com/mattn/go-sqlite3", "golang.org/x/crypto", "rbac/clients/go"}
    bench.same("what the record needs", foreign("./internal/record") - reporting, wanted)
