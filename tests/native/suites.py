"""The suites of the clients, as the tools of their languages run them: `go test`, `node --test`, `cargo test`, JUnit, pytest for the client.

What is tested is found by its files: a package of Go with a `_test.go`, whichever it is.
"""

import json
import os
import re
import shutil
import subprocess
import sys
from xml.etree import ElementTree

import pytest

from clients.building import maven
from clients.driving import FRONT
from front.running import AS_USUAL, FORM, LESS_OFTEN, build
from needs import lacking
from program.bench import PROGRAM, TESTS

ROOT = TESTS.parent
CLIENTS = ROOT / "clients"
MODULES = sorted({path.parent for path in (CLIENTS / "go").rglob("go.mod")})


def name_of(folder):
    return str(folder.relative_to(ROOT))


def run(words, cwd, **more):
    done = subprocess.run(words, cwd=cwd, env={**os.environ, **more}, capture_output=True, text=True, stdin=subprocess.DEVNULL, check=False)
    return done.returncode, done.stdout + done.stderr


def go_test(bench, folder, flags, **more):
    """Counts the tests of a folder, each of which passes; one that is skipped has failed."""
    settings = {"RBAC_PROGRAM": PROGRAM, "CGO_ENABLED": "1", **LESS_OFTEN, **more}
    status, said = run(["go", "test", "-count=1", "-json", *AS_USUAL, *flags], folder, **settings)
    lines = [json.loads(line) for line in said.splitlines() if line.startswith("{")]
    text = "".join(line.get("Output", "") for line in lines) or said
    tests = [line for line in lines if "Test" in line and "/" not in line["Test"]]
    bench.judge(name_of(folder), [] if status == 0 else [text[-3000:]])
    bench.same("tests that were skipped", [line["Test"] for line in tests if line["Action"] == "skip"], [])
    bench.passed += sum(line["Action"] == "pass" for line in tests)


# That of the front, and one for the gate, in which `go vet` looks at the packages too.
FORMS = [[*FORM, "-vet=off"], pytest.param(["-race"], marks=pytest.mark.gate)]


@pytest.mark.needs("go", "gcc")
@pytest.mark.parametrize("words", FORMS, ids=["plain", "races"])
@pytest.mark.parametrize("folder", MODULES, ids=name_of)
def check_go_of_clients(bench, folder, words, librbac, built):
    """The tests of a module pass. They are run after the front is built, which shares what is compiled."""
    if not lacking(FRONT):
        built("front", build)
    flags = {"CGO_CFLAGS": f"-I{librbac}", "CGO_LDFLAGS": f"-L{librbac}", "LD_LIBRARY_PATH": str(librbac)}
    go_test(bench, folder, [*words, "./..."], GOFLAGS="-mod=mod", GOPROXY="off", GOWORK="off", **flags)


@pytest.mark.needs("node")
def check_javascript(bench):
    status, said = run(["node", "--test"], CLIENTS / "javascript")
    bench.judge("node --test", [] if status == 0 else [said[-3000:]])
    bench.passed += int(re.findall(r"^# pass (\d+)$", said, re.M)[-1])
    bench.same("skipped", re.findall(r"^# skipped (\d+)$", said, re.M)[-1:], ["0"])


def check_python(bench):
    words = [sys.executable, "-m", "pytest", "-q", "-p", "no:cacheprovider", "-p", "no:xdist", "-c", os.devnull, "--rootdir", ".", "tests"]
    settings = {name: "" for name in ("PYTEST_ADDOPTS", "PYTEST_CURRENT_TEST")}
    # No server of these tests has a certificate of an authority of this machine: each client would read all of them.
    settings["SSL_CERT_FILE"] = settings["SSL_CERT_DIR"] = os.devnull
    status, said = run(words, CLIENTS / "python", PYTHONPATH=str(CLIENTS / "python"), PYTHONDONTWRITEBYTECODE="1", **settings)
    bench.judge("pytest", [] if status == 0 else [said[-3000:]])
    bench.passed += int(re.findall(r"(\d+) passed", said)[-1])


@pytest.mark.slow
@pytest.mark.needs("javac", "mvn", "junit")
def check_java(bench):
    """JUnit by Maven, in a copy, since it writes into the folder."""
    shutil.copytree(CLIENTS / "java", bench.folder / "java", ignore=shutil.ignore_patterns("target"))
    shutil.copytree(CLIENTS / "conformance", bench.folder / "conformance")
    status, said = maven(bench.folder / "java", "test")
    bench.judge("mvn test", [] if status == 0 else [said[-3000:]])
    suites = [ElementTree.parse(path).getroot() for path in (bench.folder / "java/target/surefire-reports").glob("*.xml")]
    bench.passed += sum(int(one.get("tests")) for one in suites)
    bench.same("skipped", sum(int(one.get("skipped")) for one in suites), 0)


@pytest.mark.slow
@pytest.mark.needs("cargo", "gcc")
def check_rust(bench, librbac):
    settings = {"RBAC_LIBRARY": str(librbac), "LD_LIBRARY_PATH": str(librbac), "CARGO_TARGET_DIR": bench.path("target"), "RUSTFLAGS": "-D warnings"}
    folder = bench.folder / "rbac_office"
    run(["cp", "-r", CLIENTS / "rust/rbac_office", folder], ROOT)
    status, said = run(["cargo", "test", "--offline"], folder, **settings)
    bench.judge("cargo test", [] if status == 0 else [said[-3000:]])
    bench.passed += sum(map(int, re.findall(r"^test result: ok\. (\d+) passed", said, re.M)))
