#!/usr/bin/env python3
"""The crates of this repository and the kit that proves them, for bin/build and bin/edits.

bin/kit.py notices     prints the licences of the kit's libraries that the program is linked with
"""

import glob
import hashlib
import os
import subprocess
import sys

TOP = os.path.dirname(os.path.dirname(os.path.abspath(__file__)))
# The most memory that a prover needs.
EACH = 4 * 10**9


def read(path):
    """Returns the text of a file."""
    with open(path, encoding="utf-8") as file:
        return file.read()


def folder():
    """Returns the folder of the kit."""
    guide = subprocess.run(["rt", "doc"], stdout=subprocess.PIPE, text=True, check=True).stdout
    return os.path.dirname(guide.strip())


def identity():
    """Returns the line that names the kit."""
    return subprocess.run(["rt", "version"], stdout=subprocess.PIPE, text=True, check=True).stdout.strip()


class Crate:
    """A crate of the repository: its name, its folder, and the crates that it uses, here and in the kit."""

    def __init__(self, name, folder, names, known, is_static=False):
        self.name, self.folder, self.is_static = name, folder, is_static
        self.own = [known[it] for it in names if it in known]
        self.of_kit = ["std", *(it for it in names if it not in known)]
        self.is_program = os.path.isfile(f"{folder}/src/main.rt")

    def below(self):
        """Returns the repository's crates that this one uses, each after those that it uses itself."""
        found = []
        for crate in self.own:
            found += [it for it in [*crate.below(), crate] if it not in found]
        return found

    def digest(self):
        """Returns a digest of the files that a check of this crate reads, and of its place among the crates."""
        total = hashlib.sha256(repr((self.name, [it.name for it in self.own], self.of_kit)).encode())
        for part in ("src", "specs", "proofs"):
            for at, folders, files in os.walk(f"{self.folder}/{part}"):
                folders.sort()
                for name in sorted(files):
                    path = f"{at}/{name}"
                    with open(path, "rb") as file:
                        total.update(repr((os.path.relpath(path, self.folder), file.read())).encode())
        return total.hexdigest()

    def words(self, kit, library_of):
        """Returns the arguments with which rattle finds what the crate reads; library_of(crate) is a built library."""
        words = ["--crate-name", self.name, "src/main.rt" if self.is_program else "src/lib.rt"]
        words += ["--crate-type", "staticlib"] if self.is_static else []
        for name in self.of_kit:
            words += ["--extern", f"{name}={kit}/rlibs/{name}.rlib"]
        words += ["-L", f"dependency={kit}/rlibs"]
        for crate in self.own:
            words += ["--extern", f"{crate.name}={library_of(crate)}"]
        for crate in self.below():
            words += ["-L", f"dependency={os.path.dirname(library_of(crate))}"]
        words += ["--antt-project", f"{kit}/rattle/logic/antt-project.json"]
        return [*words, "--links", f"{self.name}="]


def crates(top=TOP):
    """Returns the crates of a repository by their names, each after those that it uses."""
    lines = [it.split("#")[0].partition(":") for it in read(f"{top}/crates.txt").split("\n")]
    heads = {name.split()[0]: (name.split()[1:], words.split()) for name, _, words in lines if name.strip()}
    needs, found = {name: words for name, (_, words) in heads.items()}, {}

    def visit(name):
        for it in needs[name]:
            if it in needs and it not in found:
                visit(it)
        found.setdefault(name, Crate(name, f"{top}/crates/{name}", needs[name], found, "staticlib" in heads[name][0]))

    for name in needs:
        visit(name)
    return found


def processors():
    """Returns the number of processors that this process may use."""
    return len(os.sched_getaffinity(0))


def lanes():
    """Returns how many provers may run side by side: one per processor, as far as the free memory allows."""
    free = next(int(it.split()[1]) for it in read("/proc/meminfo").split("\n") if it.startswith("MemAvailable:"))
    return max(1, min(processors(), 1024 * free // EACH))


def linked(kit):
    """Returns the names of the kit's libraries that the program is linked with."""
    program = crates()["rbac"]
    found, left = set(), {name for it in [*program.below(), program] for name in it.of_kit}
    while left:
        name = left.pop()
        found.add(name)
        lines = read(f"{kit}/rlibs/{name}.rlib/format").split("\n")
        left |= {it.removeprefix("dep ") for it in lines if it.startswith("dep ")} - found
    return sorted(found)


def notices(kit):
    """Returns the texts of the licences under which these libraries may be copied, each once."""
    holders = {}
    for name in linked(kit):
        for path in sorted(glob.glob(f"{kit}/rattle/{name}/LICENSE*")):
            holders.setdefault(read(path).strip(), []).append(name)
    yield "The program rbac in this folder is linked with libraries that may be copied under these licences."
    for text, names in sorted(holders.items(), key=lambda it: it[1]):
        yield f"{'=' * 80}\n{', '.join(dict.fromkeys(names))}\n{'=' * 80}\n{text}"


if __name__ == "__main__":
    if sys.argv[1:] != ["notices"]:
        sys.exit(__doc__)
    print("\n\n".join(notices(folder())))
