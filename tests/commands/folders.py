"""`bin/release folder` and bin/verify: a folder for a release, in which each change of a file, of a sum, of a list or of the
signature is refused.

The folder is made once, with the program and the library that are checked.
"""

import os
import shutil
import subprocess
from hashlib import sha256
from pathlib import Path

import pytest

from front.running import build as build_front
from program.bench import PROGRAM, TESTS

ROOT = TESTS.parent
# What the folder of a release needs, to have everything.
NEEDED = pytest.mark.needs(
    "cc", "readelf", "minisign", "dpkg-buildpackage", "dh", "dh_installsysusers", "go", "libraries of the server", "buildah",
    "users of images", "javac", "cargo", "pip", "python-headers",
)  # fmt: skip

# While one process makes the folder, few others wait for it: those of the archives and of the packages.
pytestmark = [pytest.mark.xdist_group("release"), pytest.mark.slow]
CONTACT = "security@release.example, key 0123 4567"
URL, GO_PATH, JAVA_GROUP = "https://release.example/rbac", "release.example/rbac", "example.release"


def run(words, **settings):
    """Returns the status of a command, and what it prints on both outputs."""
    words = [str(word) for word in words]
    done = subprocess.run(
        words, env={**os.environ, **settings}, stdin=subprocess.DEVNULL, capture_output=True, text=True, check=False
    )
    return done.returncode, done.stdout + done.stderr


def new_key(folder, name):
    """Makes a pair of keys without a password, and returns the paths of the public and of the secret one."""
    public, secret = folder / f"{name}.pub", folder / f"{name}.key"
    status, said = run(["minisign", "-G", "-W", "-p", public, "-s", secret])
    if status:
        raise ValueError(said)
    return public, secret


def record(folder):
    """A folder that has the program and the library that are checked, as those of the sources."""
    archive = os.environ.get("RBAC_ARCHIVE", str(ROOT / "release/librbac_c.a"))
    for words, path in (([], PROGRAM), (["library"], archive)):
        _, digest = run([ROOT / "bin/release", *words, "--digest"])
        run([ROOT / "bin/release", *words, "--record", path, digest.strip(), folder])
    return str(folder)


def make(folder):
    """Makes a signed folder."""
    _, secret = new_key(folder, "ours")
    new_key(folder, "theirs")
    words = ["folder", "--key", secret, "--url", URL, "--go-path", GO_PATH, "--java-group", JAVA_GROUP, folder / "made"]
    status, said = run([ROOT / "bin/release", *words], RELEASE=record(folder / "release"), RELEASE_CONTACT=CONTACT)
    if status:
        raise ValueError(said)


class Signed:
    """The folder of the release, and the keys beside it."""

    def __init__(self, bench, place):
        self.bench, self.place, self.made = bench, place, place / "made"

    def copy(self, name):
        """A copy of the release, by links: a file that is changed has to be replaced."""
        return shutil.copytree(self.made, self.place / "copies" / self.bench.folder.parent.name / name, copy_function=os.link)

    def verify(self, folder, key="ours.pub"):
        """The status of bin/verify, and what it prints; without a key if none is given."""
        return run([ROOT / "bin/verify", folder, *([self.place / key] if key else [])])

    def refuses(self, what, folder, words, key="ours.pub"):
        """Counts whether a folder is refused with a line that has some words."""
        status, said = self.verify(folder, key)
        is_line = said.startswith("verify: ") and said.count("\n") == 1 and words in said
        self.bench.judge(f"{what} is refused", [] if (status, is_line) == (1, True) else [f"status {status}: {said}"])


@pytest.fixture
def release(bench, built):
    # What is compiled for the front of the tests is what the package needs too.
    built("front", build_front)
    return Signed(bench, built("release", make))


def flip(path, place):
    """Changes one byte of a file to another letter."""
    content = bytearray(path.read_bytes())
    content[place] = ord("a") if content[place] != ord("a") else ord("b")
    replace(path, content)


def replace(path, content):
    """Gives a path another file. The one that was there may have other links."""
    path.unlink()
    path.write_bytes(content)


def sum_again(folder):
    """Writes SHA256SUMS anew, as anybody can."""
    names = sorted(path.name for path in folder.iterdir() if not path.name.startswith("SHA256SUMS"))
    lines = [f"{sha256((folder / name).read_bytes()).hexdigest()}  {name}\n" for name in names]
    replace(folder / "SHA256SUMS", "".join(lines).encode())


@NEEDED
def check_accepted(bench, release):
    """The folder has the packages, the image, the clients, the manifests, the SBOM and the contact, and is accepted with its key, as a
    file or as a text."""
    folder = release.made
    names = {path.name for path in folder.iterdir()}
    packages = {name for name in names if name.endswith(".deb")}
    wanted = {"rbac", "rbac-node", "librbac1", "librbac-dev"}
    bench.same("packages that are missing", wanted - {name.split("_")[0] for name in packages}, set())
    clients = {name for name in names if name.startswith(("rbac-client-", "rbac_client-", "rbac_office-", "rbac-go-"))}
    bench.same("how many archives the clients have", len(clients), 10)
    others = {"CONTACT", "SHA256SUMS", "SHA256SUMS.minisig", "library.manifest", "manifest", "CHANGELOG.md", "LICENSE", "NOTICES"}
    others |= {"sbom.spdx.json", f"rbac-node-image_{(ROOT / 'VERSION').read_text(encoding='ascii').strip()}_amd64.tar"}
    bench.same("what is there besides", names - packages - clients, others)
    bench.same("the contact", (folder / "CONTACT").read_text(encoding="utf-8"), f"{CONTACT}\n")
    for name, source in (("CHANGELOG.md", "CHANGELOG.md"), ("LICENSE", "LICENSE"), ("NOTICES", "release/NOTICES")):
        bench.same(f"{name} is that of the sources", (folder / name).read_bytes(), (ROOT / source).read_bytes())
    said = f"{folder}: every file is the one that was signed\n"
    text = (release.place / "ours.pub").read_text(encoding="ascii").splitlines()[1]
    bench.same("with the key in a file", release.verify(folder), (0, said))
    bench.same("with the key as a text", run([ROOT / "bin/verify", folder, text]), (0, said))
    status, said = release.verify(folder, "")
    bench.same("without a key", (status, "nothing shows who made them" in said), (0, True))
    bench.same("the status without arguments", run([ROOT / "bin/verify"])[0], 2)
    bench.same("a folder that isn't there", run([ROOT / "bin/verify", folder / "none"])[0], 1)


@NEEDED
def check_files(bench, release):
    """One byte of any file, a file that is missing, one more, and a link in its place are refused, with the key and without. Without
    --gate each file is tried in one of both ways, the next one in the other."""
    keys, is_whole = ["ours.pub", ""], bench.is_gate or bench.is_long
    for number, path in enumerate(sorted(release.made.iterdir())):
        if path.name.startswith("SHA256SUMS"):
            continue
        for key in keys if is_whole else [keys[number % 2]]:
            folder = release.copy(f"{path.name}-{key or 'no'}-changed")
            flip(folder / path.name, path.stat().st_size // 2)
            release.refuses(f"{path.name} with another byte, {key}", folder, f"{path.name} was changed", key)
            (folder / path.name).unlink()
            release.refuses(f"a folder without {path.name}, {key}", folder, f"{path.name} is missing", key)
            (folder / path.name).symlink_to(path)
            release.refuses(f"a link in place of {path.name}, {key}", folder, f"{path.name} is missing", key)
    folder = release.copy("more")
    (folder / "another_1_amd64.deb").write_bytes(b"")
    release.refuses("one more file", folder, "another_1_amd64.deb is not listed")
    release.refuses("one more file, without a key", folder, "another_1_amd64.deb is not listed", "")
    package = next(path.name for path in sorted(release.made.iterdir()) if path.suffix == ".deb")
    for number, name in enumerate((f"{package}\n{package}", f" {package}", f"{package} ", f"CONTACT\n{package}", f"\x1b{package}")):
        folder = release.copy(f"more-{number}")
        (folder / name).write_bytes(b"")
        for key in ("ours.pub", ""):
            release.refuses(f"one more file, {name!r}, {key}", folder, "is not listed in SHA256SUMS", key)


@NEEDED
def check_sums(bench, release):
    """Each sum with another digit, a line that is missing or twice, and a name in another folder are refused."""
    lines = (release.made / "SHA256SUMS").read_text(encoding="ascii").splitlines(True)
    for number, line in enumerate(lines):
        folder, name = release.copy(f"sum-{number}"), line.split()[1]
        flip(folder / "SHA256SUMS", sum(map(len, lines[:number])) + 5)
        release.refuses(f"another sum of {name}", folder, "no signature of SHA256SUMS")
        release.refuses(f"another sum of {name}, without a key", folder, f"{name} was changed", "")
    for what, changed, words in (
        ("a line that is missing", lines[1:], "CHANGELOG.md is not listed"),
        ("a line twice", [*lines, lines[0]], "names a file twice"),
        ("a name in another folder", [*lines, f"{'0' * 64}  ../x\n"], "a line that is not a sum and a name"),
        ("an empty list", [], "doesn't list manifest"),
        ("a last line without its end", [*lines[:-1], lines[-1].rstrip("\n")], "its last line has no end"),
    ):
        folder = release.copy(what)
        replace(folder / "SHA256SUMS", "".join(changed).encode())
        release.refuses(what, folder, "no signature of SHA256SUMS")
        release.refuses(f"{what}, without a key", folder, words, "")


@NEEDED
def check_signature(bench, release):
    """A signature with another byte in any of its lines, none, or one by another key is refused."""
    lines = (release.made / "SHA256SUMS.minisig").read_bytes().splitlines(True)
    for number, line in enumerate(lines):
        if number > 0:
            folder = release.copy(f"signature-{number}")
            flip(folder / "SHA256SUMS.minisig", sum(map(len, lines[:number])) + min(40, len(line) // 2))
            release.refuses(f"a signature with another line {number + 1}", folder, "no signature of SHA256SUMS")
    folder = release.copy("none")
    (folder / "SHA256SUMS.minisig").unlink()
    release.refuses("a folder without a signature", folder, "the folder is not signed")
    release.refuses("a signature by another key", release.made, "no signature of SHA256SUMS", "theirs.pub")


@NEEDED
def check_forged(bench, release):
    """Somebody who makes all sums anew is refused with the key, also after signing by another one; and if parts don't belong together
    without a key too."""
    folder = release.copy("forged")
    replace(folder / "CONTACT", b"somebody else\n")
    sum_again(folder)
    bench.same("without a key nothing shows that", release.verify(folder, "")[0], 0)
    release.refuses("other sums", folder, "no signature of SHA256SUMS")
    (folder / "SHA256SUMS.minisig").unlink()
    run(["minisign", "-S", "-s", release.place / "theirs.key", "-m", folder / "SHA256SUMS"])
    release.refuses("other sums, signed by another key", folder, "no signature of SHA256SUMS")
    package = next(path.name for path in sorted(release.made.iterdir()) if path.suffix == ".deb")
    for name, before, after, words in (
        ("manifest", "sources ", "sources 0", "the manifest was changed by hand"),
        ("sbom.spdx.json", f'"packageFileName": "{package}"', '"packageFileName": "other.deb"', f"sbom.spdx.json has nothing of {package}"),
        ("sbom.spdx.json", "SPDX-2.3", "SPDX-9.9", "is not of SPDX 2.3"),
        ("sbom.spdx.json", "{", "[", "can't be read"),
    ):
        folder = release.copy(f"other-{name}-{len(after)}")
        text = (folder / name).read_text(encoding="utf-8")
        bench.same(f"{before} is in {name}", before in text, True)
        replace(folder / name, text.replace(before, after).encode())
        sum_again(folder)
        release.refuses(f"another {name} with its sum", folder, words, "")
    folder = release.copy("other-archive")
    flip(folder / package, 2000)
    sum_again(folder)
    release.refuses("another archive with its sum", folder, f"sbom.spdx.json has another sum of {package}", "")
    folder = release.copy("other-program")
    other = bench.write("program", b"#!/bin/sh\n")
    run([ROOT / "bin/release", "--record", other, "0" * 64, bench.folder / "record"])
    replace(folder / "manifest", (bench.folder / "record/manifest").read_bytes())
    sum_again(folder)
    release.refuses("the manifest of another program", folder, "is not that of the manifest", "")


def check_contact(bench):
    """Without a contact there is no release, and the status is 1. A folder that exists is not touched."""
    folder = bench.folder / "new"
    for contact in ([], ["--contact", ""], ["--contact", "  "]):
        status, said = run([ROOT / "bin/release", "folder", *contact, folder], RELEASE_CONTACT="")
        bench.same(f"the status with {contact}", (status, "names a contact" in said, folder.exists()), (1, True, False))
    folder.mkdir()
    status, said = run([ROOT / "bin/release", "folder", "--contact", "a", folder])
    bench.same("a folder that exists", (status, "exists already" in said, os.listdir(folder)), (1, True, []))
    for words in ([], ["--fly", "a"], ["--contact"], ["a", "b"]):
        status, _ = run([ROOT / "bin/release", "folder", *words], RELEASE_CONTACT="a")
        bench.same(f"the status of {words}", status, 2)
    page = " ".join((ROOT / "SECURITY.md").read_text(encoding="utf-8").split())
    bench.same("SECURITY.md says that a release names a contact", "Each release names a contact" in page, True)
