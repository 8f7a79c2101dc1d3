"""How pytest runs the tests of this folder: what it reports of checks that fail, hang, compare nothing or lack something."""

import os
import re
import shutil
import subprocess
import sys
from pathlib import Path

import pytest

from needs import NEEDS
from program.bench import PROGRAM, TESTS

# What a run of checks needs of this folder.
COPIED = ("conftest.py", "counted.py", "namespaces.py", "needs.py", "program/bench.py")

PLANTED = '''
import subprocess
import pytest
from needs import NEEDS, Need, program, skip

NEEDS["absent"] = Need(program("absent"), "some-package")


def check_good(bench):
    bench.same("one", 1, 1)
    return {"good": 1}


def check_comparison(bench):
    bench.same("one", 1, 1)
    bench.same("two", 1, 2)


def check_comparison_and_exception(bench):
    bench.same("two", 1, 2)
    raise ValueError("later")


def check_exception(bench):
    bench.same("one", 1, 1)
    raise ValueError("at once")


def check_nothing(bench):
    pass


@pytest.mark.timeout(1)
def check_hang(bench):
    subprocess.run(["sleep", "60"])


def check_end_of_process(bench):
    import os

    os._exit(3)


@pytest.mark.needs("absent")
def check_package(bench):
    bench.same("one", 1, 1)


def check_program(bench):
    subprocess.run(["absent"])


@pytest.mark.needs("history")
def check_right(bench):
    skip("history", "of a commit")


def check_unnamed_skip(bench):
    pytest.skip("somehow")


def check_part(bench):
    bench.same("one", 1, 1)
    bench.leave_out("absent", "the rest")


@pytest.mark.seeds(17)
def check_seed(bench, seed):
    bench.same("the seed", seed, 17)


@pytest.mark.gate
def check_of_gate(bench):
    bench.same("one", 1, 1)


@pytest.mark.long
def check_long(bench):
    bench.same("one", 1, 1)
'''

JUDGING = '''
def judge_counts(counts):
    return [] if counts["good"] == 2 else [f"{counts['good']} good ones"]
'''


@pytest.fixture
def planted(bench):
    """A folder of tests with these checks."""
    tests = bench.folder / "tests"
    for name in COPIED:
        (tests / name).parent.mkdir(parents=True, exist_ok=True)
        shutil.copy(TESTS / name, tests / name)
    shutil.copy(TESTS.parent / "pytest.ini", bench.folder)
    (tests / "planted").mkdir()
    (tests / "planted/checks.py").write_text(PLANTED, encoding="utf-8")
    (tests / "planted/judging.py").write_text(JUDGING, encoding="utf-8")
    return bench.folder


def run(folder, *words):
    """The status of a run over planted checks, the outcome of each, and what it prints."""
    settings = {**os.environ, "RBAC_PROGRAM": PROGRAM, "PYTHONDONTWRITEBYTECODE": "1"}
    for name in [name for name in settings if name.startswith("PYTEST_")]:
        del settings[name]
    command = [sys.executable, "-m", "pytest", "-rA", "-q", f"--basetemp={folder / 'built'}", *words]
    done = subprocess.run(command, cwd=folder, env=settings, capture_output=True, text=True, timeout=120, check=False)
    # An error is a failure before the check has begun.
    found = re.findall(r"^(PASSED|FAILED|ERROR) tests/planted/checks\.py::check_(.+?)(?: - .*)?$", done.stdout, re.M)
    skipped = re.findall(r"^SKIPPED \[1\] \S+: (.*)$", done.stdout, re.M)
    return done.returncode, {name: outcome.replace("ERROR", "FAILED") for outcome, name in found}, skipped, done.stdout


FAILING = {"comparison", "comparison_and_exception", "exception", "nothing", "hang"}
PASSING = {"good", "part", "seed[seed 17]"}
LACKING = {"package", "program", "unnamed_skip"}
USUAL = ["-k", "not end_of_process and not drawn"]


def check_outcomes(bench, planted):
    """A check fails by a comparison, an exception, a hang or if it compares nothing; what lacks something is skipped with its reason."""
    status, found, skipped, said = run(planted, *USUAL)
    bench.same("status", status, 1)
    bench.same("outcomes", found, dict.fromkeys(FAILING, "FAILED") | dict.fromkeys(PASSING, "PASSED"))
    bench.same("reasons", sorted(skipped), ["needs absent", "needs absent", "needs history: of a commit", "somehow"])
    bench.same("the failed comparison", "1 of 2 comparisons failed\ntwo: 1 and not 2\n" in said, True)
    bench.same("the exception behind one", "1 of 1 comparisons failed\ntwo: 1 and not 2\nTraceback" in said, True)
    bench.same("the count", re.findall(r"^([\d,]+) comparisons, ", said, re.M), ["5"])
    bench.same("what was left out", "PARTLY SKIPPED tests/planted/checks.py::check_part: needs absent: the rest\n" in said, True)


def check_installed(bench, planted):
    """Where all packages are installed, a skip for want of one has failed, and names it; one for want of a right hasn't."""
    status, found, skipped, said = run(planted, "--installed", *USUAL)
    bench.same("status", status, 1)
    bench.same("outcomes", found, dict.fromkeys(FAILING | LACKING, "FAILED") | dict.fromkeys(PASSING, "PASSED"))
    bench.same("reasons", skipped, ["needs history: of a commit"])
    bench.same("the package", said.count("skipped, needs absent: apt-get install some-package\n") >= 2, True)
    status, _, _, said = run(planted, "--installed", "-k", "check_part")
    bench.same("a part", (status, "needs absent: the rest: apt-get install some-package\n" in said), (1, True))


def check_end_of_process(bench, planted):
    """A check that ends its process has failed, and the others run, each of them once."""
    checks = planted / "tests/planted/checks.py"
    many = '\n\n@pytest.mark.parametrize("number", range(40))\ndef check_many(bench, number):\n    bench.same("one", 1, 1)\n'
    checks.write_text(PLANTED + many, encoding="utf-8")
    status, found, _, said = run(planted, "-n", "2", "--dist", "loadgroup", "-k", "end_of_process or good or many")
    wanted = {"good", *(f"many[{number}]" for number in range(40))}
    bench.same("status and outcomes", (status, {name for name in found if found[name] == "PASSED"}), (1, wanted))
    bench.same("how many ran", re.findall(r"^(\d+) failed, (\d+) passed", said, re.M), [("1", "41")])
    bench.same("the end", "crashed while running 'tests/planted/checks.py::check_end_of_process'" in said, True)


def check_counts(bench, planted):
    """What all checks of a folder have counted is judged if all of them ran, whether they passed or not."""
    checks = planted / "tests/planted/checks.py"
    good = PLANTED[: PLANTED.index("def check_comparison(")]
    checks.write_text(good, encoding="utf-8")
    status, _, _, said = run(planted)
    bench.same("a count that is too small", (status, "FAILED: planted: 1 good ones\n" in said), (1, True))
    bench.same("a check that was chosen", run(planted, "-k", "good")[0], 0)
    checks.write_text(good.replace('"good": 1', '"good": 2'), encoding="utf-8")
    bench.same("a count that is right", run(planted)[0], 0)
    checks.write_text(good + "def check_failing(bench):\n    bench.same('one', 1, 2)\n", encoding="utf-8")
    bench.same("a count that is too small beside a failure", "FAILED: planted: 1 good ones (some of its checks failed" in run(planted)[3], True)
    checks.write_text(good + "def check_skipped(bench):\n    skip('history')\n", encoding="utf-8")
    bench.same("a count that is too small beside a skip", run(planted)[0], 0)


def check_seeds(bench, planted):
    """Known seeds are tried, and a random one that is printed; --seed chooses it."""
    status, found, _, said = run(planted, "-k", "check_seed")
    (drawn,) = re.findall(r"^seed (\d+): pytest tests/planted/checks\.py::check_seed --seed \1$", said.partition("drawn 0]")[2], re.M)[:1]
    bench.same("a random seed", (status, found), (1, {"seed[seed 17]": "PASSED", "seed[drawn 0]": "FAILED"}))
    bench.same("what it is compared with", f"the seed: {drawn} and not 17" in said, True)
    bench.same("a chosen one", run(planted, "-k", "check_seed", "--seed", "17")[0], 0)


@pytest.mark.parametrize("words, wanted", [([], set()), (["--gate"], {"of_gate"}), (["--long"], {"of_gate", "long"})])
def check_marks(bench, planted, words, wanted):
    """What takes minutes is for --gate, and what takes hours for --long."""
    bench.same("what has run", set(run(planted, *words, "-k", "of_gate or check_long")[1]), wanted)


@pytest.mark.parametrize("option, wanted", [("--needing", {"package"}), ("--not-needing", {"good"})])
def check_needing(bench, planted, option, wanted):
    """The checks that need something are run apart from the others."""
    text = PLANTED.replace('"absent"] = Need(program("absent")', '"absent"] = Need(program("sh")')
    (planted / "tests/planted/checks.py").write_text(text, encoding="utf-8")
    bench.same("what has run", set(run(planted, option, "absent,other", "-k", "package or good")[1]), wanted)


# Makes a root whose folder is no mount, with all folders of this machine, and runs a command there.
CHROOT = """
for one in /*; do
    if [ -L "$one" ]; then cp -P "$one" "$0"; elif [ -d "$one" ]; then mkdir "$0$one" && mount --rbind "$one" "$0$one"; fi
done
exec chroot "$0" "$@"
"""

# Shows which namespaces a process can have, before and after it left the chroot, and where it is then.
LEAVING = """
import os, subprocess, sys
import namespaces

def show():
    print([subprocess.run(["unshare", kind, "true"], stderr=subprocess.DEVNULL).returncode for kind in ("--mount", "--user")])

os.chdir(sys.argv[1])
show()
namespaces.leave_chroot()
show()
print(os.getcwd(), os.path.samefile("/", sys.argv[2]), any(os.scandir("/sys/fs/cgroup")))
"""


@pytest.mark.needs("root", "mounts")
def check_chroot(bench):
    """A process of root can have mounts of its own in a chroot too, and sees the same files."""
    root = bench.folder / "root"
    root.mkdir()
    words = ["unshare", "--mount", "sh", "-eu", "-c", CHROOT, root, sys.executable, "-c", LEAVING, bench.folder, root]
    done = subprocess.run(words, env={**os.environ, "PYTHONPATH": str(TESTS)}, capture_output=True, text=True, check=False)
    usual = [subprocess.run(["unshare", kind, "true"], capture_output=True, check=False).returncode for kind in ("--mount", "--user")]
    bench.same("what it can have, and where it is", done.stdout.splitlines(), ["[1, 1]", str(usual), f"{bench.folder} True True"])
    bench.same("errors", done.stderr, "")
    bench.same("what others see", [line for line in Path("/proc/self/mountinfo").read_text().splitlines() if str(root) in line], [])


def check_packages(bench):
    """Each package that a need names is one of those that bin/setup installs."""
    listed = set(re.sub(r"#.*", "", (TESTS / "packages").read_text(encoding="utf-8")).split())
    for name, need in NEEDS.items():
        bench.same(name, set(need.packages.split()) - listed, set())
