"""bin/package: the Debian package has the program and the files that belong to it, and they work from there.

The package is made once, with the program that is checked. tests/installed installs it, with the package of the front.
"""

import gzip
import hashlib
import os
import re
import subprocess
import time
from pathlib import Path

import pytest

from pages import markdown, sources
from program.bench import PROGRAM

ROOT = sources.ROOT
VERSION = (ROOT / "VERSION").read_text(encoding="ascii").strip()
DEB = f"rbac_{VERSION}_amd64.deb"
SHARE = "usr/share/rbac"

# Files that have another path in the package than in the repository.
MOVED = {
    "usr/share/bash-completion/completions/rbac": "deploy/completions/rbac.bash",
    "usr/share/zsh/vendor-completions/_rbac": "deploy/completions/_rbac",
    "usr/share/fish/vendor_completions.d/rbac.fish": "deploy/completions/rbac.fish",
    "usr/lib/sysusers.d/rbac.conf": "deploy/debian/rbac.sysusers",
    "usr/lib/tmpfiles.d/rbac.conf": "deploy/debian/rbac.tmpfiles",
    "lib/systemd/system/rbac-serve@.service": "deploy/rbac-serve@.service",
    "lib/systemd/system/rbac-init@.service": "deploy/rbac-init@.service",
    "lib/systemd/system/rbac-backup@.service": "deploy/rbac-backup@.service",
    "lib/systemd/system/rbac-backup@.timer": "deploy/rbac-backup@.timer",
    "usr/sbin/rbac-backup": "deploy/backup",
    "usr/bin/rbac-health": "deploy/health",
    "usr/bin/rbac-why": "deploy/why",
    "usr/bin/rbac-policy": "bin/rbac-policy",
    "usr/bin/rbac-people": "bin/rbac-people",
}

# The pages of man of the package.
MANUALS = ["rbac.1", "rbac-backup.8", "rbac-health.1", "rbac-people.1", "rbac-policy.1", "rbac-why.1"]

pytestmark = pytest.mark.needs("dpkg-buildpackage", "dh", "dh_installsysusers")


def run(words, folder=None, **settings):
    """Returns the status of a command, and what it prints. Its settings are added to those of this process."""
    done = subprocess.run(
        words, cwd=folder, capture_output=True, text=True, env={**os.environ, **settings}, stdin=subprocess.DEVNULL, check=False
    )
    return done.returncode, done.stdout, done.stderr


class Packages:
    """Packages that bin/package makes in a folder of its own, of the program that is checked."""

    def __init__(self, folder):
        self.folder = folder
        self.release, self.root = folder / "release", folder / "root"

    def __str__(self):
        return DEB

    def record(self, name, digest):
        """A folder that has the program, as that of the sources with a digest."""
        path = self.folder / name
        status, _, said = run([ROOT / "bin/release", "--record", PROGRAM, digest, path])
        if status:
            raise ValueError(said)
        return path

    def make(self, out, *words, release=None, **settings):
        """Returns the status of bin/package as it makes a package in a folder, and what it prints."""
        places = {"RELEASE": str(release or self.release), "OUT": str(self.folder / out)}
        sort = [] if "--library" in words else ["--program"]
        return run([ROOT / "bin/package", *sort, *words], self.folder, **places, **settings)

    def deb(self, out):
        """The path of the package in a folder."""
        return self.folder / out / DEB

    def begin(self):
        """Makes the package, and unpacks it into the folder root."""
        _, digest, _ = run([ROOT / "bin/release", "--digest"])
        self.record("release", digest.strip())
        made = self.make("out")
        if made != (0, f"out/{DEB}\n", ""):
            raise ValueError(f"bin/package ends with {made}")
        _, _, said = run(["dpkg-deb", "-x", self.deb("out"), self.root])
        if said:
            raise ValueError(said)

    def fields(self):
        """The fields that describe the package."""
        _, said, _ = run(["dpkg-deb", "-f", self.deb("out")])
        return dict(re.findall(r"^(\S+): (.*)$", said, re.M))


@pytest.fixture
def packages(built):
    return Packages(built("package", lambda folder: Packages(folder).begin()))


@pytest.mark.gate
def check_same_bytes(bench, packages):
    """Made again with another time, mask and language, and in another folder, the package has the same bytes."""
    time.sleep(1.1 - time.time() % 1)
    before = os.umask(0o077)
    try:
        made = packages.make("again", TZ="Asia/Tokyo", LC_ALL="C.UTF-8", TMPDIR=str(packages.folder))
    finally:
        os.umask(before)
    bench.same("what bin/package prints", made, (0, f"again/{DEB}\n", ""))
    first, second = (packages.deb(out).read_bytes() for out in ("out", "again"))
    bench.same("whether both packages are the same", first == second, True)
    bench.same("what is beside the package", os.listdir(packages.folder / "again"), [DEB])


def check_refused(bench, packages):
    """A program of other sources is refused unless --anyway is given, and one that isn't that of its manifest always is."""
    other = packages.record("other", "0" * 64)
    status, out, err = packages.make("other-out", release=other)
    bench.same("other sources: status and lines", (status, out, err.count("\n")), (1, "", 1))
    bench.same("other sources: what it prints", err.startswith("package: the sources were changed"), True)
    bench.same("other sources: a package", packages.deb("other-out").exists(), False)
    made = packages.make("other-out", "--anyway", release=other, SOURCE_DATE_EPOCH="1000000000")
    bench.same("other sources, --anyway", made, (0, f"other-out/{DEB}\n", ""))
    _, listed, _ = run(["dpkg-deb", "-c", packages.deb("other-out")], TZ="UTC")
    times = {" ".join(line.split()[3:5]) for line in listed.splitlines()}
    bench.same("the times by SOURCE_DATE_EPOCH", times, {"2001-09-09 01:46"})
    bench.same("the owners", {line.split()[1] for line in listed.splitlines()}, {"root/root"})
    with (other / "rbac").open("ab") as program:
        program.write(b"\0")
    for words in ([], ["--anyway"]):
        status, _, err = packages.make("changed", *words, release=other)
        bench.same(f"a changed program: {words}", (status, "was changed" in err), (1, True))
        bench.same("a changed program: a package", packages.deb("changed").exists(), False)
    bench.same("another argument", packages.make("changed", "--force")[0], 2)


@pytest.mark.gate
@pytest.mark.needs("lintian")
def check_lint(bench, packages):
    """lintian finds no error, and warns of nothing. tests/installed has it look at the packages of a release."""
    allow = ["--allow-root"] if os.geteuid() == 0 else []
    bench.same("what lintian finds", run(["lintian", *allow, packages.deb("out")])[:2], (0, ""))


@pytest.mark.needs("git", "readelf")
def check_fields(bench, packages):
    """The fields are those of the repository and of the program: version, author, the C library that it needs."""
    fields = packages.fields()
    bench.same("the name and the version", (fields["Package"], fields["Version"]), ("rbac", VERSION))
    needed = re.findall(rb"GLIBC_(\d+)\.(\d+)\0", Path(PROGRAM).read_bytes())
    most = ".".join(map(str, max((int(major), int(minor)) for major, minor in needed)))
    depends = fields["Depends"].split(", ")
    bench.same("the C library", depends[0], f"libc6 (>= {most})")
    bench.same("what else it depends on", [one.split()[0] for one in depends[1:]], ["python3", "systemd"])
    bench.same("the Python", "python3 (>= 3.9)" in depends, True)
    bench.same("what it suggests", fields["Suggests"], f"rbac-node (= {VERSION}), sqlite3, graphviz, psmisc")
    status, authors, _ = run(["git", "log", "--format=%an <%ae>"], ROOT)
    # A copy of the repository without its history has no authors.
    if status == 0:
        bench.same("whether the maintainer has made a commit", fields["Maintainer"] in authors.splitlines(), True)
    _, said, _ = run(["readelf", "-d", packages.root / "usr/bin/rbac"], LC_ALL="C")
    bench.same("the libraries", re.findall(r"\(NEEDED\).*\[(.*)\]", said), ["libc.so.6"])


def check_versions(bench, packages):
    """The version and its date are the same in VERSION, CHANGELOG.md and the changelog of Debian."""
    text = (ROOT / "CHANGELOG.md").read_text(encoding="utf-8")
    bench.same("the newest version", re.findall(r"^## (\S+), ", text, re.M)[0], VERSION)
    path = packages.root / "usr/share/doc/rbac/changelog.gz"
    said = gzip.decompress(path.read_bytes()).decode()
    bench.same("the first line of the changelog", said.splitlines()[0], f"rbac ({VERSION}) unstable; urgency=medium")
    items = " ".join(re.sub(r"^ +\*?", "", line) for line in said.splitlines())
    for item in re.findall(r"^- (.*?)(?=^- |^#|\Z)", text, re.M | re.S):
        bench.same(f"the changelog has {item[:30]}", " ".join(item.split()) in " ".join(items.split()), True)
    (packages.folder / "changelog").write_text(said, encoding="utf-8")
    listed = run(["dpkg-parsechangelog", "-l", packages.folder / "changelog", "-S", "Version"])
    bench.same("the version as Debian reads it", listed, (0, f"{VERSION}\n", ""))


def kept_files():
    """The files that the package has from folders of the repository, as git has them, or as they are."""
    folders = [name for name in ("docs", "examples", "tools", "clients", "deploy") if (ROOT / name).is_dir()]
    paths = [path for name in folders for path in (ROOT / name).rglob("*") if path.is_file()]
    kept = {str(path.relative_to(ROOT)) for path in paths if not {"__pycache__"} & set(path.parts) and path.name[0] != "."}
    return {path for path in kept if not path.startswith(("deploy/debian/", "deploy/completions/"))}


def check_files(bench, packages):
    """Each file is that of the repository, with its rights, and each link leads to a file of the package.

    Those of deploy/ name the program by its path in the package.
    """
    root = packages.root
    bench.same("whether the program is the one", (root / "usr/bin/rbac").read_bytes() == Path(PROGRAM).read_bytes(), True)
    for name in MANUALS:
        page = gzip.decompress((root / f"usr/share/man/man{name[-1]}/{name}.gz").read_bytes())
        bench.same(f"whether {name} is the one", page == (ROOT / "docs" / name).read_bytes(), True)
    for path, source in MOVED.items():
        content = (ROOT / source).read_bytes().replace(b"/usr/local/bin/rbac", b"/usr/bin/rbac")
        bench.same(f"whether {path} is {source}", (root / path).read_bytes() == content, True)
    here = {str(path.relative_to(root / SHARE)): path for path in (root / SHARE).rglob("*") if path.is_file()}
    bench.same("files that are missing", kept_files() - set(here), set())
    for name in ("README.md", "SECURITY.md", "CHANGELOG.md", "VERSION", "LICENSE", "release/NOTICES", "release/manifest"):
        bench.same(f"{name} exists", name in here, True)
    for name, path in here.items():
        source = packages.release / "manifest" if name == "release/manifest" else ROOT / name
        if not path.is_symlink():
            content = source.read_bytes()
            if name.startswith("deploy/"):
                content = content.replace(b"/usr/local/bin/rbac", b"/usr/bin/rbac")
            bench.same(f"whether {name} is that of the repository", path.read_bytes() == content, True)
            bench.same(f"whether {name} may be run", os.access(path, os.X_OK), os.access(source, os.X_OK))
    modes = {oct(path.lstat().st_mode & 0o7777) for path in root.rglob("*") if not path.is_symlink()}
    bench.same("the rights", modes, {"0o755", "0o644"})
    links = [path for path in root.rglob("*") if path.is_symlink()]
    bench.same("links exist", bool(links), True)
    away = [str(path) for path in links if not path.exists() or not path.resolve().is_relative_to(root.resolve())]
    bench.same("links that lead nowhere", away, [])


def check_sums(bench, packages):
    """The sums of the package are those of its files. The settings are none of them, so no upgrade replaces them."""
    run(["dpkg-deb", "-e", packages.deb("out"), packages.folder / "control"])
    listed = (packages.folder / "control/md5sums").read_text(encoding="utf-8")
    files = sorted(path for path in packages.root.rglob("*") if path.is_file() and not path.is_symlink())
    kept = [(packages.folder / "control/conffiles").exists(), (packages.root / "etc").exists()]
    bench.same("settings of the package", kept, [False, False])
    wanted = [f"{hashlib.md5(path.read_bytes()).hexdigest()}  {path.relative_to(packages.root)}" for path in files]
    bench.same("the sums", sorted(listed.splitlines()), sorted(wanted))


# The paths that pages name, and those that the package leaves out, as bin/package says.
FOLDERS = "bench|bin|clients|crates|deploy|docs|examples|library|release|server|tests|tools"
PATHS = rf"(?<![\w/.-])(?:{FOLDERS}|\.ci)/[\w./-]*"
LEFT_OUT = ("bench/", "bin/", "crates/", "library/", "server/", "release/librbac_c.a", "tests/", ".ci/")


def check_places(bench, packages):
    """Each link of a page leads somewhere in the package, and so does each path but those that bin/package says it leaves out."""
    root = packages.root / SHARE
    said = (ROOT / "bin/package").read_text(encoding="utf-8").split('"""')[1]
    bench.same("bin/package names what is left out", [folder for folder in LEFT_OUT if folder not in said], [])
    bench.same("bin/rbac is not left out", (root / "bin/rbac").exists(), True)
    for page in root.rglob("*.md"):
        text = page.read_text(encoding="utf-8")
        links = re.findall(r"\]\(([^):#]+)\)", text)
        bench.same(f"links of {page.name} to nothing", [link for link in links if not (page.parent / link).exists()], [])
        paths = {path.rstrip(".-") for path in re.findall(PATHS, text)}
        missing = sorted(path for path in paths if not (root / path).exists() and not path.startswith(LEFT_OUT))
        bench.same(f"paths of {page.name} that are missing", missing, [])


def check_policy(bench, packages):
    """rbac-policy and rbac-people of the package find their modules, and the program in PATH. They leave nothing in its folders."""
    path = bench.write("policy.toml", b"[roles.clerk]\n")
    settings = {"PATH": f"{packages.root / 'usr/bin'}:{os.environ['PATH']}", "RBAC_PROGRAM": "", "PYTHONDONTWRITEBYTECODE": ""}
    done = run([packages.root / "usr/bin/rbac-policy", "validate", path], **settings)
    bench.same("rbac-policy", done, (0, "valid: 1 roles, 0 permissions, 0 users\n", ""))
    done = run([packages.root / "usr/bin/rbac-people", "--help"], **settings)
    bench.same("rbac-people", (done[0], done[1].partition("\n")[0]), (0, "usage: rbac-people [-h] COMMAND ..."))
    bench.same("what they leave", list(packages.root.rglob("__pycache__")), [])


@pytest.mark.needs("sqlite3")
def check_example(bench, packages):
    """The first command of README.md prints its answers in the folder of the package, and the tools find the program."""
    folder = packages.root / SHARE
    text = (folder / "README.md").read_text(encoding="utf-8")
    command = re.findall(r"^    (bin/rbac .*)$", markdown.section(text, "## Two commands"), re.M)[0]
    answers = (folder / "examples/first.answers").read_text(encoding="utf-8")
    bench.same(f"what {command} prints", run(["sh", "-c", command], folder), (0, answers, ""))
    office, evidence = packages.folder / "office", packages.folder / "evidence"
    made = run([packages.root / "usr/bin/rbac", "init", office])
    bench.same("an office is made", made, (0, "", ""))
    settings = {key: value for key, value in os.environ.items() if key != "RBAC_PROGRAM"}
    command = [folder / "tools/evidence.py", "2026-01-01", office, evidence]
    done = subprocess.run(command, capture_output=True, env=settings, check=False)
    bench.same("the end of evidence.py", (done.returncode, done.stderr), (0, b""))
    said = (evidence / "evidence.txt").read_text(encoding="utf-8")
    bench.same("the digest of the program", hashlib.sha256(Path(PROGRAM).read_bytes()).hexdigest() in said, True)


@pytest.mark.needs("man")
def check_man_page(bench, packages):
    """man finds the pages of the package by their names."""
    for name in MANUALS:
        command = ["man", "-M", packages.root / "usr/share/man", name[:-2]]
        status, said, err = run(command, LC_ALL="C.UTF-8", MANWIDTH="80")
        title = name[:-2].upper()
        bench.same(f"the page {name}", (status, said.split("(")[0], f"Bitzolanu {VERSION}" in said, err), (0, title, True, ""))


def check_library(bench, packages):
    """A program is built over the packages of the library, and runs; with --gate, the same files produce the same bytes."""
    archive = os.environ.get("RBAC_ARCHIVE", ROOT / "release/librbac_c.a")
    _, digest, _ = run([ROOT / "bin/release", "library", "--digest"])
    release = packages.folder / "release-library"
    run([ROOT / "bin/release", "library", "--record", archive, digest.strip(), release])
    names = [f"librbac1_{VERSION}_amd64.deb", f"librbac-dev_{VERSION}_amd64.deb"]
    outs = ["library", "library-again"] if bench.is_gate or bench.is_long else ["library"]
    made = [packages.make(out, "--library", release=release) for out in outs]
    wanted = [(0, "".join(f"{out}/{name}\n" for name in names), "") for out in outs]
    bench.same("the packages are made", made, wanted)
    root = packages.folder / "library-root"
    for name in names:
        bench.same(f"the forms of {name}", len({(packages.folder / out / name).read_bytes() for out in outs}), 1)
        run(["dpkg-deb", "-x", packages.folder / "library" / name, root])
    source = packages.folder / "use.c"
    source.write_text("#include <rbac.h>\nint main(void) { rbac_office o = RBAC_OFFICE_NONE; return rbac_open(&o); }\n")
    libraries = root / "usr/lib/x86_64-linux-gnu"
    for words in (["-lrbac"], [libraries / "librbac.a"]):
        command = ["cc", f"-I{root}/usr/include", source, f"-L{libraries}", *words, "-o", packages.folder / "use"]
        bench.same(f"a program with {words[0]} is built", run(command), (0, "", ""))
        bench.same(f"a program with {words[0]} runs", run([packages.folder / "use"], LD_LIBRARY_PATH=str(libraries)), (0, "", ""))
