"""bin/setup, on a layer above the files of this machine, with commands in place of apt-get and dpkg-query; and bin/test without pytest."""

import os
import re
import shutil
import subprocess

import pytest

from deploy.installed import CHANGED_ROOT, on_layer
from needs import skip
from program.bench import PROGRAM, TESTS

TOP = TESTS.parent
PACKAGES = (TESTS / "packages").read_text(encoding="utf-8")
LISTED = re.sub(r"#.*", "", PACKAGES).split()
# What `bin/setup --build` installs.
TO_BUILD = re.sub(r"#.*", "", PACKAGES.partition("# Every test")[0]).split()

# apt-get says what it would do, and with -y what it is given and whether servers may start. It can't do what $conflicts names.
# dpkg-query says that what $there names is installed.
FAKES = """
cd /mnt/repository
mkdir bin tests; mv setup bin; mv packages tests; rm -f /usr/sbin/policy-rc.d
cat > /usr/local/sbin/apt-get <<'END'
#!/bin/sh
case " $* " in
*" update "*) echo update >> /mnt/calls ;;
*" $conflicts "*) echo 'E: Unable to correct problems'; exit 100 ;;
*" --assume-no "*) printf '0 upgraded, 2 newly installed, 0 to remove\\nNeed to get 3 MB of archives.\\n'; exit 1 ;;
*) echo "$*" >> /mnt/calls; sh /usr/sbin/policy-rc.d; echo "servers: $?" >> /mnt/calls ;;
esac
END
cat > /usr/local/sbin/dpkg-query <<'END'
#!/bin/sh
for package in $there; do echo "$package installed"; done
END
chmod 755 /usr/local/sbin/apt-get /usr/local/sbin/dpkg-query
PATH=/usr/local/sbin:$PATH
try() { : > /mnt/calls; bin/setup; echo "status $?"; cat /mnt/calls; ls /usr/sbin/policy-rc.d 2> /dev/null; echo ===; }
export there='' conflicts=none; try
conflicts=haproxy; try
conflicts=none there='%s'; try
"""


@pytest.mark.needs("root", "layers")
def check_setup(bench):
    """What is missing is installed by one call, which is announced, and starts no server; what can't be installed is left out."""
    script = FAKES % " ".join(LISTED)
    done = on_layer(bench, CHANGED_ROOT, script, TOP / "bin/setup", TESTS / "packages")
    if not done:
        skip("layers")
    everything, without_one, nothing, _ = done.out.decode().split("===\n")
    for what, said, wanted in (("all", everything, set(LISTED)), ("all but one", without_one, set(LISTED) - {"haproxy"})):
        calls = [line for line in said.splitlines() if line.startswith("install ")]
        bench.same(f"{what}: the calls that install", len(calls), 1)
        bench.same(f"{what}: the packages", wanted - set(calls[0].split()), set())
        bench.same(f"{what}: whether servers may start", re.findall(r"^servers: (.*)$", said, re.M), ["101"])
        bench.same(f"{what}: what is announced", set(re.findall(r"^bin/setup: installing (.*)$", said, re.M)[0].split()), wanted)
        bench.same(f"{what}: how much", "bin/setup: Need to get 3 MB of archives.\n" in said, True)
        bench.same(f"{what}: the end", ("status 0\n" in said, "policy-rc.d" in said), (True, False))
    bench.same("what is left out", re.findall(r"don't fit .*: (.*)$", without_one, re.M), ["haproxy"])
    bench.same("if nothing is missing", nothing, "status 0\n")


@pytest.fixture
def without_packages(bench):
    """The settings of an ordinary user without sudo, on a machine that has none of the packages and no pytest."""
    folder = bench.folder / "commands"
    folder.mkdir()
    for name, text in (("id", "echo 1000"), ("sudo", "exit 1"), ("dpkg-query", "exit 1")):
        (folder / name).write_text(f"#!/bin/sh\n{text}\n", encoding="ascii")
        (folder / name).chmod(0o755)
    return {**os.environ, "PATH": f"{folder}:{os.environ['PATH']}", "RBAC_PROGRAM": PROGRAM, "RBAC_ARCHIVE": "none"}


@pytest.mark.parametrize("options, wanted", [([], LISTED), (["--build"], TO_BUILD)])
def check_ordinary_user(bench, without_packages, options, wanted):
    """Nothing is installed, and a line says what root can do: install all, or what the front and packages are built with."""
    done = subprocess.run([TOP / "bin/setup", *options], env=without_packages, capture_output=True, text=True, check=False)
    words = done.stdout.split()
    bench.same("the end", (done.returncode, done.stdout.count("\n"), done.stderr), (3, 1, ""))
    bench.same("what root can do", " ".join(words[words.index("apt-get") :]), f"apt-get install --no-install-recommends {' '.join(sorted(wanted))}")
    bench.same("to build", {"golang-go", "gcc", "debhelper", "python3"} <= set(TO_BUILD) < set(LISTED) - {"chromium"}, True)


def check_help(bench, without_packages):
    """Whoever asks a command of bin/ what it does gets its first comment, and it does nothing. bin/setup accepts nothing else."""
    for name in ("arm64", "demo", "image", "library", "package", "prove", "release", "setup", "test", "verify"):
        first = re.search(r"^(?:# bin/|\"\"\")(.*)$", (TOP / "bin" / name).read_text(encoding="utf-8"), re.M)[1]
        done = subprocess.run([TOP / "bin" / name, "--help"], env=without_packages, capture_output=True, text=True, timeout=60, check=False)
        bench.same(f"bin/{name} --help", (done.returncode, first in done.stdout, done.stderr), (0, True, ""))
    done = subprocess.run([TOP / "bin/setup", "--dry-run"], env=without_packages, capture_output=True, text=True, check=False)
    bench.same("bin/setup with another word", (done.returncode, done.stdout), (2, ""))


@pytest.mark.parametrize("program, wanted", [(PROGRAM, 0), ("/bin/true", 1)])
def check_without_pytest(bench, without_packages, program, wanted):
    """The rows are answered without Python too. All other checks are counted as skipped."""
    python = bench.folder / "commands/python3"
    python.write_text("#!/bin/sh\nexit 1\n", encoding="ascii")
    python.chmod(0o755)
    settings = {**without_packages, "RBAC_PROGRAM": program, "PYTHON": str(python)}
    done = subprocess.run([TOP / "bin/test"], env=settings, capture_output=True, text=True, check=False)
    rows = [row for row in (TESTS / "rows").rglob("*.jsonl") if row.parent.name != "version-1"]
    checks = sum(len(re.findall(r"^def check_", path.read_text(encoding="utf-8"), re.M)) for path in TESTS.rglob("*.py"))
    passed, failed, skipped = map(int, re.findall(r"^(\d+) passed, (\d+) failed, (\d+) skipped\n\Z", done.stdout, re.M)[0])
    bench.same("the status", done.returncode, wanted)
    bench.same("the rows", (passed + failed, failed > 0), (len(rows), wanted == 1))
    bench.same("the checks that were skipped", skipped, checks)


# Python, which prints what it is asked for, and ends with these statuses for the checks of this user and for those of root.
PYTHON = """#!/bin/sh
case "$*" in
*needs.py*) echo root,mounts ;;
*-m\\ pytest*) echo "${ROOT:-user}: $*"; case "$*" in *--not-needing*) exit $OWN ;; *) exit $OTHERS ;; esac ;;
esac
"""


@pytest.mark.parametrize(
    "own, others, wanted", [(0, 0, 0), (1, 0, 1), (0, 1, 1), (5, 0, 0), (0, 5, 0), (5, 5, 5), (2, None, 2)]
)
def check_with_sudo(bench, without_packages, own, others, wanted):
    """Root runs the checks that need its rights, and the user all others; both must pass, and one of them may have none."""
    for name, text in (("sudo", '#!/bin/sh\nshift; ROOT=root exec "$@"\n'), ("python3", PYTHON), ("apt-get", "#!/bin/sh\n")):
        (bench.folder / f"commands/{name}").write_text(text, encoding="ascii")
        (bench.folder / f"commands/{name}").chmod(0o755)
    settings = {**without_packages, "PYTHON": str(bench.folder / "commands/python3"), "OWN": str(own), "OTHERS": str(others)}
    done = subprocess.run([TOP / "bin/test", "-k", "word"], env=settings, capture_output=True, text=True, check=False)
    runs = [(line.split(":")[0], re.findall(r"--(?:not-)?needing root,mounts -k word$", line)) for line in done.stdout.splitlines() if "-m pytest" in line]
    both = [("user", ["--not-needing root,mounts -k word"]), ("root", ["--needing root,mounts -k word"])]
    bench.same("the runs", runs, both if others is not None else both[:1])
    bench.same("the status", done.returncode, wanted)


def check_space(bench):
    """In a folder whose path has a space nothing is run, and a line says what to do."""
    program = bench.folder / "a folder/bin/test"
    program.parent.mkdir(parents=True)
    shutil.copy(TOP / "bin/test", program)
    done = subprocess.run([program], capture_output=True, text=True, check=False)
    bench.same("the status and the output", (done.returncode, done.stdout), (2, ""))
    bench.same("one line", (done.stderr.count("\n"), "Clone it elsewhere" in done.stderr), (1, True))
