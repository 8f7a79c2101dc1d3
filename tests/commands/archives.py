"""What a release is installed from: each client from its archive in its own language, without a network, and the SBOM beside what the
archives have. tests/installed installs the packages of the same folder.
"""

import json
import os
import re
import shutil
import subprocess
import tarfile
import zipfile
from hashlib import sha256
from xml.etree import ElementTree

import pytest

from clients.building import ASKING, asked
from clients.driving import go_environment
from front.running import FORM
from front.running import build as build_front

from .folders import GO_PATH, JAVA_GROUP, NEEDED, ROOT, URL, make, record

VERSION = (ROOT / "VERSION").read_text(encoding="ascii").strip()
PYTHON = "/usr/bin/python3"
ON_DISK = True
pytestmark = [pytest.mark.xdist_group("archives"), pytest.mark.slow, NEEDED]

# The archives of the clients, by what they are.
ARCHIVES = {
    "sdist": f"rbac_client-{VERSION}.tar.gz",
    "wheel": f"rbac_client-{VERSION}-py3-none-any.whl",
    "office": f"rbac_client-{VERSION}-cp3",
    "npm": f"rbac-client-{VERSION}.tgz",
    "go": f"rbac-go-v{VERSION}.zip",
    "jar": f"rbac-client-{VERSION}.jar",
    "sources": f"rbac-client-{VERSION}-sources.jar",
    "javadoc": f"rbac-client-{VERSION}-javadoc.jar",
    "pom": f"rbac-client-{VERSION}.pom",
    "crate": f"rbac_office-{VERSION}.crate",
}

# A decision by the library, in Python, Go and Rust.
OFFICE = {
    "python": """import rbac_client.replica
import rbac_office

office = rbac_office.Office()
for name, keys in (("addUser", {"user": "ann"}), ("addRole", {"role": "boss"}), ("assignUser", {"user": "ann", "role": "boss"})):
    office.call(name, **keys)
print(office.call("assignedRoles", user="ann"))
""",
    "go": f"""package main

import (
	"fmt"

	"{GO_PATH}/rbacoffice"
)

func main() {{
	office, err := rbacoffice.Open()
	if err != nil {{
		panic(err)
	}}
	defer office.Close()
	answer, err := office.Answer([]byte(`{{"fn":"addUser","user":"ann"}}`))
	fmt.Println(string(answer), err)
}}
""",
    "rust": """fn main() {
    let office = rbac_office::Office::new().expect("an office");
    let answer = office.answer(br#"{"fn":"addUser","user":"ann"}"#).expect("an answer");
    println!("{}", String::from_utf8_lossy(&answer));
}
""",
}


def run(bench, what, words, status=0, **more):
    """Counts whether a command ends with a status, and returns what it prints."""
    done = subprocess.run(
        [str(word) for word in words],
        stdin=subprocess.DEVNULL,
        stdout=subprocess.PIPE,
        stderr=subprocess.STDOUT,
        text=True,
        check=False,
        **more,
    )
    bench.judge(what, [] if done.returncode == status else [f"status {done.returncode}: {done.stdout[-2000:]}"])
    return done.stdout


@pytest.fixture
def folder(built):
    """The folder of the release. It is made after the front, which shares what is compiled."""
    built("front", build_front)
    return built("release", make) / "made"


def archive(folder, sort):
    """The path of the archive of a sort."""
    (found,) = [path for path in folder.iterdir() if path.name.startswith(ARCHIVES[sort])]
    return found


def library(bench, folder):
    """The folder with librbac.a, librbac.so.1 and rbac.h, from the packages of the release."""
    root, made = bench.folder.parent / "unpacked", bench.folder.parent / "library"
    for name in ("librbac1", "librbac-dev"):
        run(bench, f"{name} is unpacked", ["dpkg-deb", "-x", folder / f"{name}_{VERSION}_amd64.deb", root])
    made.mkdir()
    for path in (*root.rglob("librbac.*"), root / "usr/include/rbac.h"):
        shutil.copy(path, made / path.name)
    return made


def check_metadata(bench, folder):
    """Each archive names its version, author, licence and address, and contains the licence and a README."""
    licence = (ROOT / "LICENSE").read_bytes()
    for sort in ("wheel", "office"):
        with zipfile.ZipFile(archive(folder, sort)) as wheel:
            place = f"rbac_client-{VERSION}.dist-info"
            said = wheel.read(f"{place}/METADATA").decode()
            bench.same(f"the licence of {sort}", wheel.read(f"{place}/LICENSE"), licence)
            bench.same(f"{sort} has the kit's licences", f"{place}/NOTICES" in wheel.namelist(), sort == "office")
        for words in (
            f"Version: {VERSION}",
            "Author: Bitzolanu maintainers",
            "License: Apache-2.0",
            f"Homepage, {URL}",
            "# rbac_client",
        ):
            bench.same(f"{sort}: {words}", words in said, True)
    with tarfile.open(archive(folder, "npm")) as packed:
        about = json.load(packed.extractfile("package/package.json"))
        names = set(packed.getnames())
    wanted = {
        "version": VERSION,
        "homepage": URL,
        "license": "Apache-2.0",
        "author": "Bitzolanu maintainers",
        "name": "rbac-client",
    }
    bench.same("package.json", {name: about.get(name) for name in wanted}, wanted)
    bench.same(
        "what npm's archive lacks",
        {f"package/{name}" for name in ("LICENSE", "README.md", "src/index.js", "types/index.d.ts")} - names,
        set(),
    )
    with zipfile.ZipFile(archive(folder, "go")) as packed:
        names, place = set(packed.namelist()), f"{GO_PATH}@v{VERSION}"
        bench.same("the module's path", packed.read(f"{place}/go.mod").decode().splitlines()[0], f"module {GO_PATH}")
        bench.same("each file is below the path", {name for name in names if not name.startswith(f"{place}/")}, set())
        bench.same(
            "what Go's archive lacks",
            {f"{place}/{name}" for name in ("LICENSE", "README.md", "rbacreplica/replica.go")} - names,
            set(),
        )
        bench.same("the path of before", [name for name in names if b'"rbac/clients/go' in packed.read(name)], [])
    pom = {one.tag.partition("}")[2]: one for one in ElementTree.parse(archive(folder, "pom")).getroot()}
    texts = {name: pom[name].text for name in ("groupId", "artifactId", "version", "url")}
    bench.same("the POM", texts, {"groupId": JAVA_GROUP, "artifactId": "rbac-client", "version": VERSION, "url": URL})
    bench.same("what the POM lacks", {"name", "description", "licenses", "developers", "scm"} - pom.keys(), set())
    for sort, name in (
        ("jar", "rbac/client/Client.class"),
        ("sources", "rbac/client/Client.java"),
        ("javadoc", "rbac/client/Client.html"),
    ):
        with zipfile.ZipFile(archive(folder, sort)) as packed:
            bench.same(f"{sort} has {name}", name in packed.namelist(), True)
            bench.same(f"the licence of {sort}", packed.read("META-INF/LICENSE"), licence)
            bench.same(
                f"the version of {sort}",
                f"Implementation-Version: {VERSION}" in packed.read("META-INF/MANIFEST.MF").decode(),
                True,
            )
    with tarfile.open(archive(folder, "crate")) as packed:
        place = f"rbac_office-{VERSION}"
        said = packed.extractfile(f"{place}/Cargo.toml").read().decode()
        bench.same("the licence of the crate", packed.extractfile(f"{place}/LICENSE").read(), licence)
    for words in (
        f'version = "{VERSION}"',
        'authors = ["Bitzolanu maintainers"]',
        'license = "Apache-2.0"',
        f'repository = "{URL}"',
    ):
        bench.same(f"the crate: {words}", words in said, True)


@pytest.mark.parametrize("sort", ["sdist", "wheel", "office"])
def check_python(bench, folder, sort):
    """pip installs each archive for Python alone; the replica is in the one for this processor, and in the sources if there is a librbac."""
    place = bench.folder.parent
    clean = {name: value for name, value in os.environ.items() if name != "PYTHONPATH"}
    if sort == "sdist":
        clean["RBAC_LIBRARY"] = str(library(bench, folder))
    run(bench, "the environment", [PYTHON, "-m", "venv", "--system-site-packages", "--without-pip", place / "new"])
    own, words = place / "new/bin/python", [
        "--no-index",
        "--no-deps",
        "--no-build-isolation",
        "--disable-pip-version-check",
        "-q",
    ]
    run(bench, "pip install", [own, "-m", "pip", "install", *words, archive(folder, sort)], env=clean)
    (place / "asking.py").write_text(ASKING["python"], encoding="utf-8")
    asked(bench, f"the client of {sort}", own, "asking.py", cwd=place, env=clean)
    said = run(bench, "its version", [own, "-c", "import rbac_client; print(rbac_client.__version__)"], env=clean)
    bench.same("its version", said, f"{VERSION}\n")
    (place / "office.py").write_text(OFFICE["python"], encoding="utf-8")
    said = run(bench, "an office of its own", [own, "office.py"], status=int(sort == "wheel"), cwd=place, env=clean)
    bench.same(
        "what it says",
        said.splitlines()[-1:],
        ["ModuleNotFoundError: No module named 'rbac_office'" if sort == "wheel" else "['boss']"],
    )


def check_go(bench, folder):
    """Go gets the module from a file system in the form of its proxy, and builds programs with the client and with the library."""
    place, made = bench.folder.parent, library(bench, folder)
    proxy = place / f"proxy/{GO_PATH}/@v"
    proxy.mkdir(parents=True)
    shutil.copy(archive(folder, "go"), proxy / f"v{VERSION}.zip")
    with zipfile.ZipFile(archive(folder, "go")) as packed:
        (proxy / f"v{VERSION}.mod").write_bytes(packed.read(f"{GO_PATH}@v{VERSION}/go.mod"))
    (proxy / f"v{VERSION}.info").write_text(json.dumps({"Version": f"v{VERSION}"}), encoding="ascii")
    (proxy / "list").write_text(f"v{VERSION}\n", encoding="ascii")
    given = {
        "GOPROXY": f"file://{place}/proxy",
        "GOSUMDB": "off",
        "GOFLAGS": " ".join(["-mod=mod", "-modcacherw", *FORM]),
        "GOPATH": str(place / "go"),
        "CGO_ENABLED": "1",
    }
    given |= {"CGO_CFLAGS": f"-I{made}", "CGO_LDFLAGS": f"-L{made}", "LD_LIBRARY_PATH": str(made)}
    environment = go_environment(**given)
    texts = {"asking": ASKING["go"].replace("rbac/clients/go/", f"{GO_PATH}/"), "office": OFFICE["go"]}
    for name, text in texts.items():
        own = place / name
        own.mkdir()
        (own / "main.go").write_text(text, encoding="utf-8")
        for words in (["mod", "init", "app"], ["get", f"{GO_PATH}@v{VERSION}"], ["build", "-o", "made", "."]):
            run(bench, f"go {words[0]}", ["go", *words], cwd=own, env=environment)
    asked(bench, "the client for Go", place / "asking/made", env=environment)
    bench.same("an office of its own", run(bench, "it runs", [place / "office/made"], env=environment), '{"ok":true} <nil>\n')


@pytest.mark.needs("node", "tsc")
def check_node(bench, folder):
    """Unpacked as npm does, the archive is found by Node, and its types by TypeScript."""
    place = bench.folder.parent / "app"
    (place / "node_modules").mkdir(parents=True)
    with tarfile.open(archive(folder, "npm")) as packed:
        packed.extractall(place / "node_modules")
    (place / "node_modules/package").rename(place / "node_modules/rbac-client")
    (place / "package.json").write_text('{"name": "app", "private": true, "type": "module"}', encoding="utf-8")
    (place / "asking.ts").write_text(ASKING["typescript"], encoding="utf-8")
    words = ["--strict", "--module", "node16", "--moduleResolution", "node16", "--target", "es2022", "--lib", "es2022"]
    run(bench, "tsc", ["tsc", *words, "asking.ts"], cwd=place)
    asked(bench, "the client for Node", "node", "asking.js", cwd=place)


def check_java(bench, folder):
    """javac and java find the client in its archive alone."""
    place, jar = bench.folder.parent, archive(folder, "jar")
    (place / "Asking.java").write_text(ASKING["java"], encoding="utf-8")
    run(bench, "javac", ["javac", "-Xlint:all", "-Werror", "--release", "11", "-cp", jar, "Asking.java"], cwd=place)
    asked(bench, "the client in Java", "java", "-cp", f"{jar}:.", "Asking", cwd=place)
    with zipfile.ZipFile(jar) as packed, zipfile.ZipFile(archive(folder, "sources")) as sources:
        classes = {re.sub(r"(\$.*)?\.class$", "", name) for name in packed.namelist() if name.endswith(".class")}
        bench.same("the sources of the classes", {name[:-5] for name in sources.namelist() if name.endswith(".java")}, classes)


def check_rust(bench, folder):
    """cargo builds a program with the crate, without a network, with the library of the package."""
    place, made = bench.folder.parent, library(bench, folder)
    with tarfile.open(archive(folder, "crate")) as packed:
        packed.extractall(place)
    (place / "app/src").mkdir(parents=True)
    (place / "app/src/main.rs").write_text(OFFICE["rust"], encoding="utf-8")
    needs = f'rbac_office = {{ path = "../rbac_office-{VERSION}" }}'
    text = f'[package]\nname = "app"\nversion = "0.1.0"\nedition = "2021"\n\n[dependencies]\n{needs}\n'
    (place / "app/Cargo.toml").write_text(text, encoding="utf-8")
    environment = {
        **os.environ,
        "RBAC_LIBRARY": str(made),
        "LD_LIBRARY_PATH": str(made),
        "CARGO_TARGET_DIR": str(place / "target"),
    }
    said = run(bench, "cargo", ["cargo", "run", "--quiet", "--offline"], cwd=place / "app", env=environment)
    bench.same("an office of its own", said, '{"ok":true}\n')


@pytest.mark.gate
def check_same_bytes(bench, folder):
    """Made again in another folder, in another time zone and with another mask, each archive has the same bytes."""
    made, before = bench.folder / "again", os.umask(0o077)
    settings = {"RELEASE": record(bench.folder / "release"), "TZ": "Asia/Tokyo", "TMPDIR": str(bench.folder.parent)}
    words = ["--url", URL, "--go-path", GO_PATH, "--java-group", JAVA_GROUP, made]
    try:
        run(bench, "bin/archives", [ROOT / "bin/archives", *words], env={**os.environ, **settings})
    finally:
        os.umask(before)
    for path in sorted(made.iterdir()):
        bench.same(f"whether {path.name} is the same", path.read_bytes() == (folder / path.name).read_bytes(), True)


def check_left_out(bench):
    """A client that can't be made here is left out, and a line says why."""
    given = {**os.environ, "PATH": "/nowhere", "PYTHON": "/nowhere/python3"}
    said = run(bench, "bin/archives", [PYTHON, ROOT / "bin/archives", bench.folder / "made"], env=given)
    bench.same("what is made", os.listdir(bench.folder / "made"), [f"rbac-client-{VERSION}.tgz"])
    wanted = {
        "Python": "there is no /nowhere/python3",
        "Go": "there is no gofmt",
        "Java": "there is no javac",
        "Rust": "there is no cargo",
    }
    lines = [f"left out: the client for {name}, since {why}: bin/setup installs it" for name, why in wanted.items()]
    bench.same(
        "what it prints",
        said.splitlines(),
        [*lines, "left out: the address of the project in the clients, since --url doesn't name it"],
    )
    bench.write("without", b'#!/bin/sh\nexec /usr/bin/python3 -S "$@"\n')
    os.chmod(bench.path("without"), 0o755)
    lacking = {**os.environ, "PATH": str(bench.folder / "commands"), "PYTHON": bench.path("without")}
    (bench.folder / "commands").mkdir()
    (bench.folder / "commands/cc").symlink_to(shutil.which("cc"))
    line = "left out: the client for Python, since there is no setuptools, wheel or Python.h: bin/setup installs it"
    said = run(bench, "a Python without setuptools", [PYTHON, ROOT / "bin/archives", "--url", URL, bench.folder / "third"], env=lacking)
    bench.same("it is left out", (said.splitlines()[0], os.listdir(bench.folder / "third")), (line, [f"rbac-client-{VERSION}.tgz"]))
    said = run(bench, "only what is missing", [PYTHON, ROOT / "bin/archives", "--missing", "--url", URL], env=lacking)
    bench.same("it is said", said.splitlines()[0], line)
    for words in (["--go-path", "rbac"], ["--url", "rbac.example"], ["--java-group", "a/b"]):
        run(bench, f"{words} is refused", [ROOT / "bin/archives", *words, bench.folder / "other"], status=1)


# ---- The SBOM -------------------------------------------------------------------------------------------------------------

FIELDS = {
    "SPDXID",
    "name",
    "downloadLocation",
    "filesAnalyzed",
    "licenseConcluded",
    "licenseDeclared",
    "copyrightText",
    "supplier",
}


class Listed:
    """What the SBOM says."""

    def __init__(self, folder):
        self.made = json.loads((folder / "sbom.spdx.json").read_text(encoding="utf-8"))
        self.packages = {one["SPDXID"]: one for one in self.made["packages"]}
        self.archives = {one["packageFileName"]: one for one in self.made["packages"] if "packageFileName" in one}

    def of(self, name, how, source=""):
        """The names and versions to which an archive is related, of one source."""
        own = self.archives[name]["SPDXID"]
        related = {
            one["relatedSpdxElement"]
            for one in self.made["relationships"]
            if (one["spdxElementId"], one["relationshipType"]) == (own, how)
        }
        return {
            (self.packages[one]["name"], self.packages[one].get("versionInfo", ""))
            for one in related
            if one.startswith(f"SPDXRef-{source}")
        }


def check_sbom_form(bench, folder):
    """The SBOM has what SPDX 2.3 demands: of the document, of each package and of each relation. Debian has no program that judges it."""
    listed = Listed(folder)
    made = listed.made
    bench.same(
        "the form", (made["spdxVersion"], made["dataLicense"], made["SPDXID"]), ("SPDX-2.3", "CC0-1.0", "SPDXRef-DOCUMENT")
    )
    bench.same("its time", bool(re.fullmatch(r"\d{4}-\d\d-\d\dT\d\d:\d\d:\d\dZ", made["creationInfo"]["created"])), True)
    bench.same("its place", bool(re.fullmatch(r"https://\S+[0-9a-f]{64}", made["documentNamespace"])), True)
    bench.same("packages without a field", [one["SPDXID"] for one in made["packages"] if FIELDS - one.keys()], [])
    bench.same(
        "names that SPDX doesn't allow",
        [name for name in listed.packages if not re.fullmatch(r"SPDXRef-[A-Za-z0-9.-]+", name)],
        [],
    )
    bench.same("each package once", len(listed.packages), len(made["packages"]))
    licences = {word for one in made["packages"] for word in one["licenseDeclared"].split(" AND ")}
    own = {one["licenseId"] for one in made["hasExtractedLicensingInfos"]}
    known = {"Apache-2.0", "MIT", "BSD-2-Clause", "BSD-3-Clause", "ISC", "MPL-2.0", "GPL-2.0-or-later", "NOASSERTION"}
    bench.same("licences that SPDX doesn't know", licences - known - own, set())
    ends = {end for one in made["relationships"] for end in (one["spdxElementId"], one["relatedSpdxElement"])}
    bench.same("what is related to nothing", listed.packages.keys() - ends, set())
    bench.same("what isn't there", ends - listed.packages.keys(), {"SPDXRef-DOCUMENT"})


def check_sbom_content(bench, folder):
    """The SBOM names each archive with its sum, and the libraries that the archives themselves name: Go's modules in the front, Debian's
    in the image, the kit's in the notices, and what the packages depend on."""
    listed, root = Listed(folder), bench.folder / "root"
    names = {
        path.name
        for path in folder.iterdir()
        if path.suffix in (".deb", ".tar", ".whl", ".gz", ".tgz", ".zip", ".jar", ".crate")
    }
    bench.same("the archives", set(listed.archives), names)
    for name, one in listed.archives.items():
        wanted = {"algorithm": "SHA256", "checksumValue": sha256((folder / name).read_bytes()).hexdigest()}
        bench.same(f"the sum of {name}", (one["checksums"], one["versionInfo"]), ([wanted], VERSION))
    node, program, image = (
        f"{name}_{VERSION}_amd64{end}" for name, end in (("rbac-node", ".deb"), ("rbac", ".deb"), ("rbac-node-image", ".tar"))
    )
    run(bench, "the front", ["dpkg-deb", "-x", folder / node, root])
    said = run(bench, "go version", ["go", "version", "-m", root / "usr/bin/rbac-node"])
    modules = {(name, version) for name, version in re.findall(r"^\tdep\t(\S+)\t(\S+)", said, re.M) if "." in name.split("/")[0]}
    bench.same("Go's modules exist", len(modules) > 5, True)
    for name in (node, image):
        bench.same(f"Go's modules in {name}", listed.of(name, "CONTAINS", "go"), modules)
    with tarfile.open(folder / image) as packed:
        (about,) = json.load(packed.extractfile("manifest.json"))
        with tarfile.open(fileobj=packed.extractfile(about["Layers"][0])) as layer:
            (member,) = [one for one in layer if one.name.endswith("usr/share/rbac/libraries")]
            lines = [line.split("\t") for line in layer.extractfile(member).read().decode().splitlines()]
    bench.same(
        "the libraries of the image", listed.of(image, "CONTAINS") - modules, {(name, version) for _, name, version, _ in lines}
    )
    notices = (ROOT / "release/NOTICES").read_text(encoding="utf-8")
    titles = {name for title in re.findall(r"^={80}\n(.+)\n={80}$", notices, re.M) for name in title.split(", ")}
    bench.same(
        "notices of libraries that aren't in the program",
        titles - {name for name, _ in listed.of(program, "CONTAINS", "kit")},
        set(),
    )
    for name in sorted(name for name in names if name.endswith(".deb")):
        wanted = {one.split()[0] for one in run(bench, name, ["dpkg-deb", "-f", folder / name, "Depends"]).strip().split(", ")}
        bench.same(f"what {name} depends on", {one for one, _ in listed.of(name, "DEPENDS_ON")}, wanted)
    office = archive(folder, "office").name
    bench.same(
        "the library is in the wheel",
        listed.of(office, "CONTAINS", "kit"),
        listed.of(f"librbac1_{VERSION}_amd64.deb", "CONTAINS", "kit"),
    )
    for name in (f"rbac_client-{VERSION}.tar.gz", f"rbac-client-{VERSION}.tgz"):
        bench.same(f"{name} has nothing of others", listed.of(name, "CONTAINS"), set())
