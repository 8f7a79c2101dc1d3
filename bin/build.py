#!/usr/bin/env python3
"""bin/build.py [library]: proves the crates that the program uses, builds it, and copies it to out/release.
bin/build.py left FILE: proves rbac_c alone, over the libraries that `rt ci` has left in crates/, and builds its archive to FILE.
bin/build.py arm64 FOLDER: builds rbac.o and librbac_c.a for Linux on arm64 into FOLDER, over libraries that `bin/rbac --build` or
`rt ci` has proved and left. Of each it checks the uppermost crate alone, for that processor; bin/arm64 is the command for this.

With `library` it proves and builds the static library of rbac_c instead of the program. Crates that don't use each other are
proved side by side. A crate that was proved by an earlier run here is proved again only if a file of its own, or a library below
it, has changed since. It reports progress on standard error every ten seconds. `bin/rbac --build` and `bin/release library` are
the commands for this.
"""

import contextlib
import hashlib
import os
import re
import shutil
import subprocess
import sys
import threading
import time
from concurrent.futures import FIRST_COMPLETED, ThreadPoolExecutor, wait

import kit

# A built library contains sources. They can't be below the repository, since `rt ci` refuses sources that belong to none
# of its crates.
CACHE = os.environ.get("XDG_CACHE_HOME") or os.path.expanduser("~/.cache")
OUT = f"{CACHE}/rbac-build/{hashlib.sha256(kit.TOP.encode()).hexdigest()[:16]}"
# Measured on four processors, with nothing else running.
LASTS = "It takes about an hour on four processors from scratch."
# The seconds between two lines of progress.
PAUSE = 10
# How rattle names Linux on arm64.
ARM64 = "aarch64-unknown-linux-gnu"
CHECKED = re.compile(r"checked (?:\w+::)?(\S+), (\d+ of \d+)")


def say(text):
    """Prints a line of progress."""
    print(f"rbac: {text}", file=sys.stderr, flush=True)


def sum_of(folder):
    """Returns a digest of all files in a folder."""
    total = hashlib.sha256()
    for at, folders, files in os.walk(folder):
        folders.sort()
        for name in sorted(files):
            with open(f"{at}/{name}", "rb") as file:
                total.update(repr((os.path.relpath(f"{at}/{name}", folder), file.read())).encode())
    return total.hexdigest()


class Failed(Exception):
    """A crate that isn't proved, or that can't be built."""


class Build:
    """A build of some crates: what is known about each, and what is being done."""

    # The processor for which the program and the static library are built: x86-64 if none is named.
    target = []

    def __init__(self, crates):
        self.kit, self.start, self.crates = kit.folder(), time.monotonic(), crates
        self.left = list(crates)
        # What is being proved: for each crate how many functions of how many, and the last one that was proved.
        self.doing, self.lock = {}, threading.Lock()
        self.sums = {}

    def at(self, crate):
        """Returns the folder in which the work on a crate is kept."""
        return f"{OUT}/{crate.name}"

    def library(self, crate):
        """Returns the built library of a crate."""
        return f"{self.at(crate)}/{crate.name}.rlib"

    def product(self, crate):
        """Returns the executable of a crate that is a program, or the archive of a static library."""
        return f"{self.at(crate)}/{f'lib{crate.name}.a' if crate.is_static else crate.name}"

    def key(self, crate):
        """Returns a digest of everything that the crate is built from."""
        return hashlib.sha256(repr((kit.identity(), crate.digest(), [self.sums[it.name] for it in crate.below()])).encode()).hexdigest()

    def rattle(self, crate, verb, *words):
        """Runs rattle in the crate's folder, and follows its output; raises Failed if it refuses the crate."""
        words = [f"{self.kit}/bin/rattle", verb, *words]
        with open(f"{self.at(crate)}/log", "a", encoding="utf-8") as log:
            how = {"cwd": crate.folder, "stdin": subprocess.DEVNULL, "stdout": subprocess.PIPE, "stderr": subprocess.STDOUT}
            with subprocess.Popen(words, text=True, errors="replace", **how) as ran:
                for line in ran.stdout:
                    log.write(line)
                    found = CHECKED.match(line)
                    if found:
                        self.doing[crate.name] = found[2], found[1]
        if ran.returncode:
            raise Failed(f"{crate.name}: rattle {verb} ended with status {ran.returncode}; {self.at(crate)}/log has its output")

    def prove(self, crate, jobs):
        """Proves a crate and builds its library or, for the program, the object file and the executable."""
        at, words = self.at(crate), [*crate.words(self.kit, self.library), *self.target]
        shutil.rmtree(at, ignore_errors=True)
        os.makedirs(at)
        logic = ["--logic-built", f"{self.kit}/logic_built"]
        cut = [] if crate.is_program or crate.is_static else ["--statements"]
        self.rattle(crate, "check", *words, *logic, *cut, "--jobs", str(jobs), "--progress", "-o", f"{at}/checked")
        self.doing[crate.name] = "all functions proved", "its build"
        words += ["--crate-checked", f"{at}/checked"]
        toolchain = ["--toolchain", f"{self.kit}/toolchain"]
        if crate.is_static:
            self.rattle(crate, "build", *words, *toolchain, "--backend", "llvm", "-o", self.product(crate))
        elif not crate.is_program:
            self.rattle(crate, "build", *words, *cut, "-o", self.library(crate))
        else:
            self.rattle(crate, "build", *words, *toolchain, "--backend", "llvm", "-o", f"{self.product(crate)}.o")
            self.link(crate)
        shutil.rmtree(f"{at}/checked")

    def link(self, crate):
        """Links the program's object file with the kit's functions in C."""
        with_c = [f"{self.kit}/c/{it}" for it in ("libos_c.a", "liblibc_c.a")]
        link = [f"{self.kit}/bin/rattle-link", "--target", "x86_64-unknown-linux-gnu", "--toolchain", f"{self.kit}/toolchain"]
        subprocess.run([*link, "-o", self.product(crate), f"{self.product(crate)}.o", *with_c], check=True, stdin=subprocess.DEVNULL)

    def make(self, crate, jobs):
        """Proves and builds a crate, unless an earlier run did so from the same files."""
        key, kept = self.key(crate), f"{self.at(crate)}/key"
        with contextlib.suppress(OSError):
            if kit.read(kept) == key:
                self.sums[crate.name] = sum_of(self.library(crate))
                return
        self.doing[crate.name] = "0 functions", "its start"
        self.prove(crate, jobs)
        if self.key(crate) != key:
            raise Failed(f"{crate.name}: one of its files changed while it was proved")
        if not crate.is_static and not crate.is_program:
            self.sums[crate.name] = sum_of(self.library(crate))
        with open(kept, "w", encoding="utf-8") as file:
            file.write(key)

    def tell(self, is_done):
        """Reports progress every few seconds."""
        while not is_done.wait(PAUSE):
            parts = [f"{name} {count}, at {function}" for name, (count, function) in sorted(self.doing.items())]
            if parts:
                minutes, seconds = divmod(int(time.monotonic() - self.start), 60)
                rest = len(self.left) - len(parts)
                say(f"{minutes} min {seconds:02} s: {'; '.join(parts)}; then {rest} of {len(self.crates)} crates")

    def run(self):
        """Proves and builds all crates, and reports progress."""
        is_done = threading.Event()
        teller = threading.Thread(target=self.tell, args=[is_done])
        teller.start()
        try:
            self.make_all()
        finally:
            is_done.set()
            teller.join()

    def make_all(self):
        """Proves and builds all crates, side by side if they don't use each other."""
        running, lanes, done = {}, kit.lanes(), set()
        with ThreadPoolExecutor(lanes) as pool:
            while self.left:
                begun = running.values()
                ready = [it for it in self.left if it not in begun and all(below in done for below in it.below())]
                for at, crate in enumerate(ready[: lanes - len(running)]):
                    jobs = max(1, min(4, (lanes - len(running)) // (len(ready) - at)))
                    running[pool.submit(self.make, crate, jobs)] = crate
                for it in wait(running, return_when=FIRST_COMPLETED).done:
                    crate = running.pop(it)
                    it.result()
                    self.doing.pop(crate.name, None)
                    self.left.remove(crate)
                    done.add(crate)


def left_by_ci(crate):
    """Returns the library of a crate that `rt ci` leaves in the crate's folder."""
    return f"{crate.folder}/out/rlib/{crate.name}.rlib"


class OverLeft(Build):
    """A build over the libraries that `rt ci` has left in the crates' folders."""

    def library(self, crate):
        """Returns the library of a crate that `rt ci` has left."""
        return left_by_ci(crate)


class Arm64(Build):
    """A build of the program and of the static library for arm64, over libraries that are there. Libraries are for any processor."""

    target = ["--target", ARM64]

    def __init__(self, crates):
        super().__init__(crates)
        self.below = [it for crate in crates for it in crate.below()]
        self.is_kept = all(map(self.was_kept, dict.fromkeys(self.below)))
        missing = [] if self.is_kept else [it.name for it in self.below if not os.path.isdir(left_by_ci(it))]
        if missing:
            raise Failed(f"{missing[0]} is not proved and built from these sources: bin/rbac --build and bin/release library do that")
        self.sums = {it.name: sum_of(self.library(it)) for it in dict.fromkeys(self.below)}

    def was_kept(self, crate):
        """Returns whether an earlier run of this script has built the library of a crate from the files at hand, and notes its sum."""
        kept = super().library(crate)
        with contextlib.suppress(OSError, KeyError):
            if kit.read(f"{os.path.dirname(kept)}/key") == self.key(crate):
                self.sums[crate.name] = sum_of(kept)
                return True
        return False

    def at(self, crate):
        """Returns the folder in which the work on a crate for arm64 is kept."""
        return f"{OUT}/arm64/{crate.name}"

    def library(self, crate):
        """Returns the library of a crate that is there."""
        return f"{OUT}/{crate.name}/{crate.name}.rlib" if self.is_kept else left_by_ci(crate)

    def link(self, crate):
        """Leaves the object file as it is: the kit has no functions in C for arm64."""


def build_over_left(path):
    """Builds the static library over what `rt ci` has left, and copies it to a path."""
    crate = kit.crates()["rbac_c"]
    build = OverLeft([crate])
    try:
        build.prove(crate, kit.lanes())
        os.makedirs(os.path.dirname(os.path.abspath(path)), exist_ok=True)
        shutil.copyfile(build.product(crate), path)
    except (Failed, OSError) as error:
        sys.exit(f"rbac: the build failed: {error}")


def build_for_arm64(folder):
    """Builds the program's object file and the archive of the static library for arm64, and copies them to a folder."""
    crates = [kit.crates()[it] for it in ("rbac", "rbac_c")]
    try:
        build = Arm64(crates)
        for crate, made in zip(crates, ("rbac.o", "librbac_c.a")):
            say(f"building {made} for arm64")
            build.make(crate, kit.lanes())
            shutil.copyfile(f"{build.at(crate)}/{made}", f"{folder}/{made}")
    except (Failed, OSError) as error:
        sys.exit(f"rbac: the build failed: {error}")


def digest(sort):
    """Returns the digest of the sources of the program, or of the library."""
    return subprocess.run([f"{kit.TOP}/bin/release", *sort, "--digest"], stdout=subprocess.PIPE, text=True, check=True).stdout.strip()


def main(words):
    """Builds the program, or the library."""
    if words[:1] == ["left"] and len(words) == 2:
        return build_over_left(words[1])
    if words[:1] == ["arm64"] and len(words) == 2:
        return build_for_arm64(words[1])
    if words not in ([], ["library"]):
        sys.exit(__doc__)
    crate = kit.crates()["rbac_c" if words else "rbac"]
    claimed, build = digest(words), Build([*crate.below(), crate])
    say(f"proving {len(build.crates)} crates and building the {words[0] if words else 'program'}. {LASTS}")
    try:
        build.run()
        subprocess.run([f"{kit.TOP}/bin/release", *words, "--record", build.product(crate), claimed, f"{kit.TOP}/out/release"], check=True)
        if digest(words) != claimed:
            raise Failed("the sources changed meanwhile: build again")
    except (Failed, OSError, subprocess.CalledProcessError) as error:
        sys.exit(f"rbac: the build failed: {error}")
    minutes, seconds = divmod(int(time.monotonic() - build.start), 60)
    say(f"built in {minutes} min {seconds:02} s")


if __name__ == "__main__":
    main(sys.argv[1:])
