"""Mounts and networks that only this process and those that it starts see."""

import ctypes
import os
from collections.abc import Callable
from pathlib import Path
from typing import BinaryIO

CLONE_NEWNS, CLONE_NEWNET = 0x20000, 0x40000000
MS_BIND, MS_REC, MS_PRIVATE, MNT_DETACH = 0x1000, 0x4000, 0x40000, 2
LIBC = ctypes.CDLL(None, use_errno=True)

# Where programs expect the control groups.
CGROUPS = Path("/sys/fs/cgroup")


def unshare(kind: int) -> bool:
    """Gives this process a namespace of its own, if it may have one."""
    return LIBC.unshare(kind) == 0


def setns(namespace: BinaryIO, kind: int) -> None:
    """Puts this process into a namespace."""
    call(LIBC.setns, namespace.fileno(), kind)


def call(function: Callable[..., int], *given: int | bytes | None) -> None:
    if function(*given):
        raise OSError(ctypes.get_errno(), f"{function.__name__}: {os.strerror(ctypes.get_errno())}")


def is_mounted(path: str) -> bool:
    """Whether there is a mount at a path."""
    return any(line.split()[4] == path for line in Path("/proc/self/mountinfo").read_text(encoding="utf-8").splitlines())


def make_private() -> None:
    """Keeps what this process mounts from being seen by others."""
    call(LIBC.mount, None, b"/", None, MS_REC | MS_PRIVATE, None)


def leave_chroot() -> None:
    """Gives a process of root in a chroot mounts of its own, of which the one at / has the folder of the chroot.

    That folder need not be a mount. `unshare --mount`, buildah and systemd-nspawn change the mount at / first, and fail there; and
    nobody in a chroot gets a namespace for users.
    """
    folder = os.getcwd()
    if os.geteuid() or is_mounted("/") or not unshare(CLONE_NEWNS):
        return
    inside = os.open("/", os.O_PATH)
    with open("/proc/self/ns/mnt", "rb") as own:
        setns(own, CLONE_NEWNS)
    make_private()
    os.fchdir(inside)
    os.close(inside)
    root = os.fsencode(os.getcwd())
    call(LIBC.mount, root, root, None, MS_BIND | MS_REC, None)
    os.chdir(root)
    call(LIBC.pivot_root, b".", b".")
    call(LIBC.umount2, b".", MNT_DETACH)
    os.chdir(folder)
    mount_cgroups()


def mount_cgroups() -> None:
    """Mounts the control groups, which podman and systemd-nspawn need, unless they are there: each hierarchy that the kernel has."""
    if any(CGROUPS.iterdir()):
        return
    hierarchies = [line.split(":")[1] for line in Path("/proc/self/cgroup").read_text(encoding="ascii").splitlines()]
    if hierarchies == [""]:
        call(LIBC.mount, b"cgroup2", bytes(CGROUPS), b"cgroup2", 0, None)
        return
    call(LIBC.mount, b"tmpfs", bytes(CGROUPS), b"tmpfs", 0, None)
    for names in hierarchies:
        place = CGROUPS / (names.removeprefix("name=") or "unified")
        place.mkdir()
        options = f"none,{names}" if names.startswith("name=") else names
        call(LIBC.mount, b"cgroup", bytes(place), b"cgroup" if names else b"cgroup2", 0, options.encode() if names else None)
