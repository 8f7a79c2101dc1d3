"""Adds rbac_office to the package if the variable RBAC_LIBRARY names a folder that has librbac.a and rbac.h, as bin/library makes it."""

import os

from setuptools import Extension, setup

PACKAGES = ["rbac_client", "rbac_policy"]
library = os.environ.get("RBAC_LIBRARY")
if library:
    office = Extension(
        "rbac_office._library",
        ["rbac_office/_library.c"],
        include_dirs=[library],
        extra_objects=[os.path.join(library, "librbac.a")],
        extra_link_args=["-Wl,--strip-debug"],
    )
    setup(packages=[*PACKAGES, "rbac_office"], ext_modules=[office])
else:
    setup(packages=PACKAGES)
