"""What is in the image, and how it says that it is to be run."""

import json
import os
import re
import subprocess
import tarfile
from pathlib import Path

import pytest

from program.bench import PROGRAM

from .running import IMAGE, ROOT, VERSION

# All that is in the image besides the licences: folders end with `/`, and links have their targets.
FILES = [
    "dev/",
    "etc/group",
    "etc/passwd",
    "etc/rbac/",
    "lib -> usr/lib",
    "lib64 -> usr/lib64",
    "proc/",
    "run/",
    "sys/",
    "tmp/",
    "usr/bin/rbac",
    "usr/bin/rbac-node",
    "usr/lib/x86_64-linux-gnu/libc.so.6",
    "usr/lib/x86_64-linux-gnu/libm.so.6",
    "usr/lib/x86_64-linux-gnu/libsqlite3.so.0",
    "usr/lib64/ld-linux-x86-64.so.2",
    "usr/share/rbac/VERSION",
    "usr/share/rbac/libraries",
    "usr/share/rbac/release/manifest",
    "var/lib/rbac/",
]
LICENCES = "usr/share/doc/"

# With which rights the image is run.
OPTIONS = ["--read-only", "--cap-drop=all", "--security-opt=no-new-privileges"]

# The most bytes that the layer may have.
MOST_BYTES = 28_000_000


def opened():
    """The archive of the image, its settings, and its one layer."""
    archive = tarfile.open(Path(os.environ[IMAGE]) / "image.tar")
    (manifest,) = json.load(archive.extractfile("manifest.json"))
    (layer,) = manifest["Layers"]
    return manifest, json.load(archive.extractfile(manifest["Config"])), archive.extractfile(layer)


def members(layer):
    """The entries of a layer by their paths."""
    return {one.name.lstrip("./"): one for one in tarfile.open(fileobj=layer) if one.name.strip("./")}


def shown(path, one, all_paths):
    """How a list of files shows an entry: a folder only if it is empty."""
    if one.issym():
        return f"{path} -> {one.linkname}"
    if not one.isdir():
        return path
    return None if any(other.startswith(f"{path}/") for other in all_paths) else f"{path}/"


def check_files(bench):
    """The image has exactly these files, no shell, nothing that changes its user, and the licence of each library that is in it."""
    _, _, layer = opened()
    found = members(layer)
    listed = {shown(path, one, found) for path, one in found.items()} - {None}
    bench.same("the files", sorted(one for one in listed if not one.startswith(LICENCES)), FILES)
    bench.same("files that change their user", [path for path, one in found.items() if one.mode & 0o6000], [])
    writable = [path for path, one in found.items() if not one.issym() and one.mode & 0o022]
    bench.same("what others may write", writable, ["tmp"])
    owners = {path: one.uid for path, one in found.items() if one.uid}
    bench.same("what the user of the image owns", owners, {"var/lib/rbac": 10001})
    archive = tarfile.open(fileobj=opened()[2])
    names = {one.name.lstrip("./"): one for one in archive}
    content = {path: archive.extractfile(names[path]).read() for path in ("usr/bin/rbac", "usr/share/rbac/libraries")}
    bench.same("whether the program is the one", content["usr/bin/rbac"] == Path(PROGRAM).read_bytes(), True)
    lines = [line.split("\t") for line in content["usr/share/rbac/libraries"].decode().splitlines()]
    bench.same("columns of the list of libraries", {len(line) for line in lines}, {4})
    bench.same("the programs in that list", {line[0] for line in lines}, {"rbac", "rbac-node"})
    packages = {library for _, library, version, _ in lines if not version.startswith("rattle-kit")}
    # What Go's own library may be copied under is in the package of its sources.
    licences = {path.split("/")[3] for path in listed if path.startswith(LICENCES)}
    bench.same("the licences", licences - {"rbac"}, packages)
    bench.same("whether there are those of the kit", f"{LICENCES}rbac/NOTICES" in listed, True)
    for package in ("libc6", "libsqlite3-0", "golang-github-mattn-go-sqlite3-dev"):
        bench.same(f"{package} is listed", package in packages, True)


def check_settings(bench):
    """The image says as whom, with which volume, port, health check and signal it is run, and it is small."""
    manifest, settings, layer = opened()
    config = settings["config"]
    bench.same("its name", manifest["RepoTags"], [f"localhost/rbac-node:{VERSION}"])
    bench.same("the user", config["User"], "10001:10001")
    bench.same("the volume", list(config["Volumes"]), ["/var/lib/rbac"])
    bench.same("the port", list(config["ExposedPorts"]), ["8443/tcp"])
    bench.same("the health check", config["Healthcheck"]["Test"], ["CMD", "/usr/bin/rbac-node", "health", "/tmp/rbac/socket"])
    bench.same("the program", config["Entrypoint"][:2], ["/usr/bin/rbac-node", "serve"])
    bench.same("its version", config["Labels"]["org.opencontainers.image.version"], VERSION)
    size = len(layer.read())
    bench.judge("the size", [] if size <= MOST_BYTES else [f"{size:,} bytes"])
    return {"bytes in the layer of the image": size}


def check_page(bench):
    """docs/howto/container.md runs the image as the test does, by its name, and has the sizes of what is in it, or nearly."""
    page = (ROOT / "docs/howto/container.md").read_text(encoding="utf-8")
    command = re.search(r"^podman run ((?:.*\\\n)*.*)$", page, re.M)[1].replace("\\\n", " ").split()
    bench.same("the name of the image", command[-1], f"localhost/rbac-node:{VERSION}")
    bench.same("the file", f"podman load -i out/rbac-node-image_{VERSION}_amd64.tar" in page, True)
    targets = [word.split(":", 1)[1] for word in command if word.startswith(("--publish", "--volume"))]
    bench.same("the port and the volumes", targets, ["8443", "/var/lib/rbac", "/etc/rbac:ro"])
    bench.same("the options", [word for word in command if word in OPTIONS], OPTIONS)
    archive = tarfile.open(fileobj=opened()[2])
    sizes = {one.name.lstrip("./"): one.size for one in archive if one.isfile()}
    rows = re.findall(r"^\| (/\S+?)(?:, /usr/lib64)? \| .* \| ([\d.]+) ([kM])B \|$", page, re.M)
    bench.same(
        "the folders",
        [folder for folder, *_ in rows],
        ["/usr/bin/rbac", "/usr/bin/rbac-node", "/usr/lib", "/usr/share/rbac", "/usr/share/doc"],
    )
    for folder, stated, unit in rows:
        size = sum(size for path, size in sizes.items() if f"/{path}/".startswith((f"{folder}/", f"{folder}64/")))
        number = float(stated) * {"k": 1e3, "M": 1e6}[unit]
        bench.judge(
            f"the size of {folder}", [] if abs(size - number) <= number / 10 else [f"{size:,} and not {stated} {unit}B"]
        )


# The user of the image, and what docs/tutorial/secured-front.md makes for an application with a token over TLS.
USER = 10001
MADE = ["callers.jsonl", "tokens", "rbac.crt", "rbac.key"]


@pytest.mark.needs("root")
def check_followed(bench):
    """What docs/howto/container.md installs is what the image reads, its user can read it, and nobody else but root."""
    page = (ROOT / "docs/howto/container.md").read_text(encoding="utf-8")
    first = (ROOT / "docs/tutorial/secured-front.md").read_text(encoding="utf-8")
    bench.same("docs/tutorial/secured-front.md makes them", [name for name in MADE if f"`{name}`" not in page or name not in first], [])
    for folder in (bench.folder.parent, bench.folder):
        folder.chmod(0o755)
    for name in MADE:
        bench.write(name, name.encode())
        (bench.folder / name).chmod(0o600)
    lines = [line.replace(" /etc/", f" {bench.folder}/etc/").replace(" /srv/", f" {bench.folder}/srv/")
             for line in re.findall(r"^install .*$", page, re.M)]  # fmt: skip
    for folder in ("etc", "srv"):
        (bench.folder / folder).mkdir(mode=0o755)
    done = subprocess.run(["sh", "-euc", "\n".join(lines)], cwd=bench.folder, capture_output=True, text=True, check=False)
    bench.same("the lines of the page", (done.returncode, done.stderr), (0, ""))
    host = dict(reversed(one.split(":")[:2]) for one in re.findall(r"--volume=(\S+)", page))
    config = opened()[1]["config"]
    words = [*config["Entrypoint"], *config["Cmd"]]
    wanted = [word for word in words if word.startswith("/etc/rbac/")]
    bench.same(
        "what the image reads",
        sorted(wanted),
        [f"/etc/rbac/{name}" for name in ("callers.jsonl", "tls.crt", "tls.key", "tokens")],
    )
    for path in wanted:
        here = bench.folder / host["/etc/rbac"].lstrip("/") / Path(path).name
        for what, user, allowed in (("the user of the image", USER, True), ("another user", USER + 1, False)):
            read = subprocess.run(
                ["setpriv", f"--reuid={user}", f"--regid={user}", "--clear-groups", "cat", here],
                capture_output=True,
                check=False,
            )
            bench.same(f"{what} and {path}", read.returncode == 0, allowed)
    made = bench.folder / host["/var/lib/rbac"].lstrip("/")
    bench.same("the folder of the office", (made.stat().st_uid, made.stat().st_mode & 0o777), (USER, 0o700))


def check_section(bench):
    """The section of docs/reference/front.md that has the options of the image is the one that docs/howto/container.md names."""
    page = (ROOT / "docs/howto/container.md").read_text(encoding="utf-8")
    number = re.search(r"\*\*Options\*\* of front\.md, section (\d+)", page)[1]
    front = (ROOT / "docs/reference/front.md").read_text(encoding="utf-8")
    section = front.split(f"\n## {number}. ")[1].split("\n## ")[0]
    options = [word for word in opened()[1]["config"]["Entrypoint"] if word.startswith("--")]
    bench.same("the options of the image", [one for one in options if f"`{one}`" not in section], [])


def check_same(bench):
    """Laid again, the files of the image have the same bytes."""
    settings = {**os.environ, "RELEASE": str(Path(os.environ[IMAGE]) / "release")}
    root = bench.folder / "root"
    done = subprocess.run([ROOT / "bin/image", "--root", root], env=settings, capture_output=True, text=True, check=False)
    bench.same("bin/image --root", (done.returncode, done.stdout, done.stderr), (0, "", ""))
    archive = tarfile.open(fileobj=opened()[2])
    first = {one.name.lstrip("./"): archive.extractfile(one).read() for one in archive if one.isfile()}
    second = {
        str(path.relative_to(root)): path.read_bytes() for path in root.rglob("*") if path.is_file() and not path.is_symlink()
    }
    second = {path: text for path, text in second.items() if not path.startswith(("lib/", "lib64/"))}
    bench.same("the files", sorted(second), sorted(first))
    bench.same("files that differ", [path for path in first if second.get(path) != first[path]], [])


def check_refused(bench):
    """A program of other sources is refused unless --anyway is given."""
    other = bench.folder / "other"
    subprocess.run([ROOT / "bin/release", "--record", PROGRAM, "0" * 64, other], check=True)
    words = [ROOT / "bin/image", "--root", bench.folder / "root"]
    done = subprocess.run(words, env={**os.environ, "RELEASE": str(other)}, capture_output=True, text=True, check=False)
    bench.same("other sources: the status", done.returncode, 1)
    bench.same("other sources: what it prints", done.stderr.startswith("image: the sources were changed"), True)
    bench.same("other sources: a folder", (bench.folder / "root").exists(), False)
    done = subprocess.run([ROOT / "bin/image", "--force"], capture_output=True, check=False)
    bench.same("another argument", done.returncode, 2)
