"""compare.py [FOLDER]: has the checker compute the definitions on the rows; tests/definitions.sh is the command for this.

The lemmas are those of a crate in a temporary folder, over the built libraries of the crates that have the definitions: those in
FOLDER, if they are of these sources; or else those that `bin/rbac --build` or `rt ci` has left. Then some definitions are replaced by
wrong ones, one of each sort, and the checker has to refuse some lemmas of that sort.
"""

import os
import re
import subprocess
import sys
import tempfile
from collections import Counter
from dataclasses import dataclass
from pathlib import Path

import build
import kit
from definitions.lemmas import Rows

HERE = Path(__file__).resolve().parent
# The uppermost crate with definitions that are computed.
TOP = "role_wire"
# The fewest rows that are to be computed, and the most seconds that the checker may take.
FEWEST_ROWS, MOST_SECONDS = 1000, 3600
ERROR = re.compile(r"\./proofs/(\w+)\.antt:(\d+):\d+: error: (.*)")


@dataclass
class Plant:
    """A wrong definition: the kind of lemmas that it has to fail, its crate and file, and what is replaced there."""

    kind: str
    crate: str
    file: str
    old: str
    new: str


PLANTS = (
    # Deleting a role that is in use isn't refused.
    Plant(
        "verdict",
        "admin_mgr",
        "Verdict",
        "wants_role S role ∷ refuse_if (is_in_use S role) RoleInUse ∷ []",
        "wants_role S role ∷ []",
    ),
    # A deleted user stays locked.
    Plant("after", "admin_mgr", "After", "  locked = remove S.locked user;\n", ""),
    # Juniors of the activated roles give no access.
    Plant("has_access", "admin_mgr", "Authorization", "(session_roles S session)\n", "(active_roles S session)\n"),
    # A locked user has access.
    Plant("could_have_access", "admin_mgr", "UserAccess", "not (contains S.locked user) && any", "any"),
    # A role may violate a dynamic set.
    Plant(
        "stands_alone",
        "admin_mgr",
        "UserAccess",
        "nat_lt (count (geq S.edges role) (members_of S.dsd entry.0)) entry.1",
        "nat_lt 1 entry.1",
    ),
    # A text that is no name is read as one.
    Plant("request", "role_json", "Fields", "name text = if is_name text then Ok text else Err BadName", "name text = Ok text"),
    # An answer doesn't name the static set that would be violated.
    Plant("answer", "role_json", "Answer", 'part_of (StaticSeparation set) = Some (codes "set", string set)\n', ""),
    # A line of a carriage return alone asks for an answer.
    Plant("output", "role_wire", "Lines", "byte == 32 || (byte == 9 || byte == 13)", "byte == 32 || byte == 9"),
    # A refusal has the status of an answer.
    Plant("reply", "role_wire", "Reply", "status_in (Err refusal) = status_of refusal", "status_in (Err refusal) = 200"),
)


# The rows that show the plants.
PLANT_ROWS = (
    "commands/core-rbac/roles-come-and-go",
    "commands/small-office/its-users-are-locked",
    "dynamic-separation",
    "names",
    "questions/access/an-operation-on-another-object-is-there",
    "questions/small-office/each-question-is-answered",
    "static-separation",
)
# The files whose definitions are copied for plants: those with plants, and those between them. Plants are tried together if their
# crates are.
COPIED = (
    {"admin_mgr": ("Authorization", "UserAccess", "Separation", "Refusals", "Assignment", "After", "Verdict")},
    {
        "role_json": ("Fields", "Calls", "Request", "Answer"),
        "role_lines": ("Outcome",),
        "role_wire": ("Lines", "Outcome", "Reply"),
    },
)


class Kept(build.Build):
    """The libraries that an earlier run of bin/build.py has left in a folder."""

    def __init__(self, folder):
        super().__init__([])
        self.folder = folder

    def at(self, crate):
        """The folder of a crate's library."""
        return f"{self.folder}/{crate.name}"

    def has(self, crate):
        """Whether the library of a crate is there and of these sources, if those of the crates below it are."""
        if not os.path.isfile(f"{self.at(crate)}/key") or kit.read(f"{self.at(crate)}/key") != self.key(crate):
            return False
        self.sums[crate.name] = build.sum_of(self.library(crate))
        return True


def library_of(folder, crates):
    """The function that finds the library of a crate, or None if one isn't there."""
    kept = Kept(folder or build.OUT)
    if all(kept.has(it) for it in crates):
        return kept.library
    is_left = not folder and all(os.path.isdir(build.left_by_ci(it)) for it in crates)
    return build.left_by_ci if is_left else None


def name_of_copy(crate, file):
    """The name of the module that is a copy of a file."""
    return "".join(it.capitalize() for it in crate.split("_")) + file


def of_copies(text, copied):
    """A text that uses the copied definitions instead of those of the libraries."""
    for crate, files in copied.items():
        for file in files:
            text = re.sub(rf"\bRattle\.{crate}\.specs\.{file}\b", f"Rattle.rows.specs.{name_of_copy(crate, file)}", text)
    return text


def planted(crate, file):
    """The text of a file of definitions with what is planted there."""
    text = kit.read(f"{kit.TOP}/crates/{crate}/specs/{file}.antt")
    for plant in PLANTS:
        if (plant.crate, plant.file) == (crate, file):
            assert text.count(plant.old) == 1, f"{file} has the text of a plant {text.count(plant.old)} times: {plant.old}"
            text = text.replace(plant.old, plant.new)
    return text


class Crate:
    """A crate of lemmas in a folder."""

    def __init__(self, folder, library):
        known = kit.crates()
        self.folder, self.library = folder, library
        self.crate = kit.Crate("rows", folder, [*(it.name for it in known[TOP].own), *known[TOP].of_kit[1:], TOP], known)
        self.used = 0

    def write(self, path, text):
        """Writes a file."""
        path = Path(self.folder, path)
        path.parent.mkdir(parents=True, exist_ok=True)
        path.write_text(text, encoding="utf-8")

    def lay_out(self, pages, copied=()):
        """Writes the crate's files: the modules of the rows and, for plants, copies of the definitions."""
        files = [(crate, file) for crate in copied for file in copied[crate]]
        self.write("src/lib.rt", "//! Lemmas about rows.\n")
        self.write("specs/Lib.antt", "".join(f"pub mod {name_of_copy(*it)}\n" for it in files))
        for it in files:
            self.write(f"specs/{name_of_copy(*it)}.antt", of_copies(planted(*it), copied))
        self.write("proofs/Written.antt", kit.read(HERE / "written.antt.test"))
        for number, page in enumerate(pages):
            self.write(f"proofs/Rows{number}.antt", of_copies(page.text(), copied) if copied else page.text())
        self.write("proofs/Lib.antt", "mod Written\n" + "".join(f"mod Rows{number}\n" for number in range(len(pages))))

    def check(self, pages):
        """Has the checker judge the crate; returns the lemmas that it refuses, and what else it says."""
        words = [f"{kit.folder()}/bin/rattle", "check", *self.crate.words(kit.folder(), self.library)]
        words += ["--logic-built", f"{kit.folder()}/logic_built", "--jobs", "1"]
        before = os.times()
        how = {"cwd": self.folder, "stdin": subprocess.DEVNULL, "stdout": subprocess.PIPE, "stderr": subprocess.STDOUT}
        said = subprocess.run(words, text=True, errors="replace", timeout=MOST_SECONDS, check=False, **how).stdout.splitlines()
        after = os.times()
        self.used = after.children_user + after.children_system - before.children_user - before.children_system
        refused, others = {}, []
        for line in said:
            found = ERROR.match(line)
            lemma = found and lemma_at(pages, found[1], int(found[2]))
            # A lemma that uses a refused one isn't checked.
            if lemma and "not checked" not in line:
                refused.setdefault(id(lemma), (lemma, found[3]))
            elif not lemma and (" error: " in line or line.startswith(("error", "rattle:"))):
                others.append(line)
        if not refused and not others and not any(it.startswith("logic=proved ") for it in said):
            others += said[-1:] or ["the checker said nothing"]
        return refused, others


def lemma_at(pages, module, line):
    """The lemma at a line of a module."""
    if not module.startswith("Rows"):
        return None
    page = pages[int(module.removeprefix("Rows"))]
    return next((it for it in page.lemmas if it.first <= line <= it.last), None)


def show(counts):
    """Counts in a line."""
    return ", ".join(f"{count} {it}" for it, count in sorted(counts.items()))


def compare(crate, rows):
    """Compares the definitions with all rows; returns how many lemmas hold, and how many faults there are."""
    lemmas = {id(it): (page, it) for page in rows.pages for it in page.lemmas}
    with_lemmas = len({(page.path, it.row) for page, it in lemmas.values()})
    print(f"{with_lemmas} of {rows.rows} rows have {len(lemmas)} lemmas: {show(Counter(it.kind for _, it in lemmas.values()))}")
    for why, count in rows.without.most_common():
        print(f"{count} rows have none: {why}")
    crate.lay_out(rows.pages)
    refused, others = crate.check(rows.pages)
    print(f"the checker took {crate.used:.0f} s of a processor")
    for at, (lemma, why) in refused.items():
        print(f"FAILED: tests/rows/{lemmas[at][0].path}:{lemma.row}: {lemma.says}\n    {why}")
    for line in others:
        print(f"FAILED: {line}")
    few = with_lemmas < FEWEST_ROWS
    if few:
        print(f"FAILED: fewer than {FEWEST_ROWS} rows have lemmas")
    return 0 if others else len(lemmas) - len(refused), len(refused) + len(others) + few


def show_plants(folder, library, rows):
    """Plants the wrong definitions; returns how many are seen, and how many faults there are."""
    seen = faults = 0
    pages = [it for it in rows.pages if it.path.removesuffix(".jsonl") in PLANT_ROWS]
    missing = sorted(set(PLANT_ROWS) - {it.path.removesuffix(".jsonl") for it in pages})
    total = Counter(it.kind for page in pages for it in page.lemmas)
    for number, copied in enumerate(COPIED):
        crate = Crate(f"{folder}/planted{number}", library)
        crate.lay_out(pages, copied)
        refused, others = crate.check(pages)
        found = Counter(lemma.kind for lemma, _ in refused.values())
        for line in [*others, *(f"no lemmas of {it}" for it in missing)]:
            print(f"FAILED: with wrong definitions: {line}")
            faults += 1
        for plant in [it for it in PLANTS if it.crate in copied]:
            print(f"a wrong {plant.kind} is refused by {found[plant.kind]} of {total[plant.kind]} lemmas")
            is_seen = 0 < found[plant.kind] < total[plant.kind]
            seen += is_seen
            faults += not is_seen
        print(f"the checker took {crate.used:.0f} s of a processor")
    return seen, faults


def main(words):
    """Compares, and plants wrong definitions."""
    top = kit.crates()[TOP]
    library = library_of(os.path.abspath(words[0]) if words else None, [*top.below(), top])
    if not library:
        print("FAILED: the libraries of these sources aren't there: `rt ci` or `bin/rbac --build` proves and leaves them")
        print("0 passed, 1 failed")
        return 1
    rows = Rows(HERE.parent / "rows")
    with tempfile.TemporaryDirectory() as folder:
        good, bad = compare(Crate(f"{folder}/rows", library), rows)
        seen, unseen = show_plants(folder, library, rows)
    print(f"{good + seen} passed, {bad + unseen} failed")
    return 1 if bad + unseen else 0


if __name__ == "__main__":
    sys.exit(main(sys.argv[1:]))
