"""The packages, and older ones."""

import os
import shutil
import subprocess
from pathlib import Path

from program.bench import TESTS

ROOT = TESTS.parent
VERSION = (ROOT / "VERSION").read_text(encoding="ascii").strip()
NAMES = ("rbac", "rbac-node")

# The version of the older packages, which is also what their programs have after their last bytes.
OLDER = "0.9.0"

# The variables that tell the checks where the packages are, and that of which sources the program is.
MADE, RELEASE = "RBAC_PACKAGES", "RBAC_PACKAGES_RELEASE"


def make(folder, release, **settings):
    """Makes the packages in a folder."""
    settings = {**os.environ, "RELEASE": str(release), "OUT": str(folder), **settings}
    subprocess.run([ROOT / "bin/package"], env=settings, check=True, stdout=subprocess.DEVNULL)


def made():
    """The packages that were made."""
    return [Path(os.environ[MADE]) / f"{name}_{VERSION}_amd64.deb" for name in NAMES]


def older(package, folder):
    """Makes a package of an older version in a folder: as a package, but each program has the version after its bytes."""
    tree = folder / "tree"
    subprocess.run(["dpkg-deb", "-R", package, tree], check=True)
    control = tree / "DEBIAN/control"
    text = control.read_text(encoding="utf-8").replace(f"Version: {VERSION}\n", f"Version: {OLDER}\n")
    control.write_text(text.replace(f"(= {VERSION})", f"(= {OLDER})"), encoding="utf-8")
    for name in NAMES:
        if (tree / "usr/bin" / name).exists():
            with (tree / "usr/bin" / name).open("ab") as program:
                program.write(f"{OLDER}\n".encode())
    path = folder / package.name.replace(VERSION, OLDER)
    command = ["dpkg-deb", "--root-owner-group", "-Zgzip", "-z1", "--build", tree, path]
    subprocess.run(command, check=True, stdout=subprocess.DEVNULL)
    shutil.rmtree(tree)
    return path
