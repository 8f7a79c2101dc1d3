"""Builds rbac-node, also with a fault."""

import os
import re
import subprocess
import sys

from program.bench import TESTS

# The variables that name the built node, and the fault of a node that can have one.
NODE, FAULT = "RBAC_NODE", "RBAC_NODE_FAULT"


def build(folder, root=None):
    """Builds rbac-node of a repository into a folder, and returns its path. That of the sources at hand is built once for all checks."""
    if root is None and os.environ.get(NODE):
        return os.environ[NODE]
    root = root or TESTS.parent
    path = str(folder / "rbac-node")
    subprocess.run([root / "bin/node", "--build", path], check=True, stdout=sys.stderr)
    return path


def build_faulty(folder):
    """Builds rbac-node with the tag by which it can have a fault into a folder. The variable FAULT then names one."""
    settings = {**os.environ, "NODE_TAGS": "faults"}
    subprocess.run([TESTS.parent / "bin/node", "--build", folder / "rbac-node"], env=settings, check=True, stdout=sys.stderr)


def fault_of(name):
    """How the variable names a fault of the sources."""
    text = (TESTS.parent / "server/internal/faults/nodes.go").read_text(encoding="utf-8")
    return re.findall(rf'^\t{name} = "(.+)"$', text, re.M)[0]
