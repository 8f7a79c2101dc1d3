"""Builds the front."""

import os
import subprocess
import sys
from pathlib import Path

from program.bench import TESTS

# The variables that tell the checks which program they try, and whether there are to be more kills.
PROGRAM, LONG = "RBAC_FRONT", "RBAC_FRONT_LONG"

# The sources, and the tags with which bin/node builds them.
SERVER, TAGS = TESTS.parent / "server", "netgo,osusergo"
# How bin/node compiles. What else has this form and is built after the front shares what is compiled, such as Go's own packages.
FORM = ["-trimpath", "-buildmode=pie", f"-tags={TAGS}"]
# The compiler frees its memory less often, as in bin/node. What `go test` runs frees it as usual.
LESS_OFTEN, AS_USUAL = {"GOGC": "400"}, ["-exec", "env -u GOGC"]


def build(folder, root=TESTS.parent):
    """Builds rbac-node of a repository into a folder, and returns its path."""
    path = str(Path(folder) / "rbac-node")
    subprocess.run([root / "bin/node", "--build", path], check=True, stdout=sys.stderr)
    return path


def go(*words, folder=SERVER, **more):
    """Returns what a command of Go prints about the server, and its status. It uses the libraries that bin/vendor copies, as bin/node does."""
    subprocess.run([TESTS.parent / "bin/vendor"], check=True, stdout=sys.stderr)
    settings = {"GO111MODULE": "on", "GOFLAGS": "-mod=vendor -buildvcs=false", "GOPROXY": "off", "GOWORK": "off"}
    settings |= {"CGO_ENABLED": "1", "CGO_CFLAGS": "-O2 -g0", **LESS_OFTEN}
    done = subprocess.run(words, cwd=folder, env={**os.environ, **settings, **more}, capture_output=True, text=True, stdin=subprocess.DEVNULL, check=False)
    return done.stdout + done.stderr, done.returncode
