"""Builds the image."""

import os
import subprocess
from pathlib import Path

from commands.folders import record
from program.bench import TESTS

ROOT = TESTS.parent
VERSION = (ROOT / "VERSION").read_text(encoding="ascii").strip()

# Where the image is, for the processes that check it.
IMAGE = "RBAC_IMAGE"


def build(folder):
    """Builds the image into a folder."""
    settings = {**os.environ, "RELEASE": record(folder / "release"), "TMPDIR": str(folder)}
    words = [ROOT / "bin/image", folder / "image.tar"]
    done = subprocess.run(words, env=settings, capture_output=True, text=True, check=False)
    if done.returncode:
        raise ValueError(f"bin/image: {done.stderr}")
