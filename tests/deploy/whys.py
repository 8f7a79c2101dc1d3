"""deploy/why: each cause is made for real. The script names it, as the program reports, and changes nothing."""

import contextlib
import fcntl
import importlib.machinery
import os
import re
import shutil
import subprocess
import sys
import tempfile
from pathlib import Path
from typing import NamedTuple

import pytest

from machine.state import MOST
from program.bench import PROGRAM, SECONDS
from program.web import free_port

from .common import DEPLOY, run

WHY = DEPLOY / "why"
STORE, GOOD = '{"code":41,"error":"Store"}', ""

# The ordinary user as whom root tries the causes.
NOBODY = 65534
AS_NOBODY = ["setpriv", f"--reuid={NOBODY}", f"--regid={NOBODY}", "--clear-groups"]

# Makes a cause in a folder with a good office, and prints what the program reports there, what the script prints and its status,
# and whether the folder is the same before and after. `as_user` runs a command as the ordinary user.
TRYING = """
set -e
program=$1; why=$2; port=$3; making=$4; office=$5; options=$6; shift 6
export RBAC_PROGRAM=$program
as_user() { "$@"; }
user=$*
if [ $# -gt 0 ]; then as_user() { $user "$@"; }; chown 65534:65534 .; fi
as_user "$program" init office
user_runs=as_user
# ext4 lets one read of an inode fail, if it isn't in memory yet.
fails_once='cd /; umount "$place"; mount -o loop,inode_readahead_blks=1 "$said.img" "$place"; cd "$place"
    echo 5 > "/sys/fs/ext4/$(basename $(findmnt -n -o SOURCE .))/simulate_fail"'
eval "$making"
set +e
look() { find . -printf '%p %y %i %m %U %G %s %T@ %C@\\n' | sort; find . -type f -exec sha256sum {} + 2> /dev/null | sort; }
look > "$said.before"
eval "$failing"
$user_runs $runs_under "$why" $options "$office" > "$said" 2> "$said.err"; status=$?
look > "$said.after"
eval "$failing"
as_user "$program" check "$office" > "$said.check" 2>&1 < /dev/null
for process in $server $holder; do kill -CONT "$process"; kill "$process"; done 2> /dev/null
wait 2> /dev/null
sed 's/^rbac: //; s/^good$//' "$said.check"; echo =
cat "$said" "$said.err"; echo =
echo "$status"; cmp "$said.before" "$said.after" && echo same
echo "${server}"
"""

# Wait until the program has the office open, and until another program has a lock on it.
SERVES = """$user "$program" serve office --port "$port" --limit 1 > "$said.serve" & server=$!
until test -s "$said.serve"; do sleep 0.05; done"""
HOLDS = """cat > "$said.py" <<'END'
import fcntl, sys, time
file = open(sys.argv[1], "r+b")
fcntl.%s(file, fcntl.LOCK_EX)
print("locked", flush=True)
time.sleep(60)
END
$user python3 "$said.py" %s > "$said.holds" & holder=$!; until test -s "$said.holds"; do sleep 0.05; done"""
SQL = 'sqlite3 office "%s" > "$said.sql"'


class Case(NamedTuple):
    """How a cause is made, what the program then reports, and what the script has to print as its first line.

    In that line `@` stands for the folder, and it is a regular expression. `needs` has `root`, `mount`, or programs.
    """

    what: str
    making: str
    reports: str
    says: str
    needs: str = ""
    office: str = "office"
    options: str = ""


NOTHING = "office: nothing is wrong that can be seen from here, as the user .*"
TMPFS = 'mount -t tmpfs -o %s,mode=777 tmpfs . && cd "$PWD" && as_user "$program" init office\n'
EXT4 = """truncate -s 8M "$said.img" && mkfs.ext4 -q -N 64 "$said.img" && mount -o loop "$said.img" . && cd "$PWD" && chmod 777 .
rmdir lost+found; touch $(seq 1 40); as_user "$program" init office
"""
BTRFS = """truncate -s 120M "$said.img" && mkfs.btrfs -q "$said.img" > "$said.made" 2>&1 && mount -o loop "$said.img" .
cd "$PWD" && chmod 777 .
as_user "$program" init office; btrfs -q quota enable --simple . 2> /dev/null || btrfs quota enable . > /dev/null
sync; btrfs qgroup limit 1M . ; as_user dd if=/dev/zero of=filler bs=64k count=100 2> /dev/null || true
sync; as_user dd if=/dev/zero of=filler2 bs=4k count=10 2> /dev/null || true; sync
"""

CASES = [
    Case("a good office", "", GOOD, NOTHING),
    Case("a link to an office", "mv office other; ln -s other office", GOOD, NOTHING.replace("office", "other", 1)),
    Case("a log that a kill has left", SERVES + '\nkill -9 "$server"; wait "$server" || true', GOOD, NOTHING),
    Case("an empty journal", ": > office-journal", GOOD, NOTHING),
    Case("no file", "rm office", STORE, "office: there is no file office in @"),
    Case("no folder", "", STORE, "office: there is no folder @/none", office="none/office"),
    Case("a file in the path", "", STORE, "office: @/office is not a folder", office="office/office"),
    Case("a link to nothing", "mv office other; ln -s nowhere office", STORE, "nowhere: there is no file nowhere in @"),
    Case(
        "links in a circle",
        "rm office; ln -s office office",
        STORE,
        "office: the path @/office leads nowhere: Too many levels.*",
    ),
    Case("a folder", "rm office; mkdir office", STORE, "office: office is a folder, and not a file"),
    Case("a pipe", "rm office; mkfifo office", STORE, "office: office is a pipe, and not a file"),
    Case("two names", "ln office second", STORE, r"office: office has 2 names \(hard links\), and may have only one"),
    Case(
        "no right to read",
        "chmod 200 office",
        STORE,
        "office: office may not be read by this user: it belongs to .* has mode 0200",
    ),
    Case("no right to write", "chmod 400 office", STORE, "office: office may not be written by this user: .* has mode 0400"),
    Case(
        "a folder that may not be entered",
        "mkdir inner; mv office inner; chmod 600 inner; $chown_inner",
        STORE,
        "office: the folder @/inner may not be entered: it belongs to .* has mode 0600",
        office="inner/office",
    ),
    Case(
        "a folder that may not be written", "chmod 500 .", STORE, "office: the log office-wal can't be made: .* has mode 0500"
    ),
    Case(
        "a folder that may not be read",
        "chmod 300 .",
        STORE,
        "office: the folder @ may not be read by this user, .* has mode 0300",
    ),
    Case("a log and a folder that may not be written", "as_user touch office-wal; chmod 500 .", GOOD, NOTHING),
    Case(
        "a log that may not be written",
        "as_user touch office-wal; chmod 400 office-wal",
        STORE,
        "office: office-wal may not be written .*",
    ),
    Case(
        "a log that may not be read",
        "as_user touch office-wal; chmod 200 office-wal",
        STORE,
        "office: office-wal may not be read .*",
    ),
    Case("a folder in place of the log", "mkdir office-wal", STORE, "office: office-wal is a folder, and not a file"),
    Case("a link in place of the log", "ln -s x office-wal", STORE, "office: office-wal is a link, and not a file"),
    Case("a log with two names", "as_user touch office-wal; ln office-wal x", STORE, "office: office-wal has 2 names .*"),
    Case(
        "a journal", "echo > office-journal", STORE, "office: there is a journal of another program beside it, office-journal"
    ),
    Case("a server", SERVES, STORE, r"office: office is in use by rbac \(process SERVER, user \w+\)"),
    Case(
        "a paused server", SERVES + '\nkill -STOP "$server"', STORE, r"office: .* by rbac \(process SERVER, user \w+, paused\)"
    ),
    Case(
        "another program",
        "as_user touch office-wal\n" + HOLDS % ("lockf", "office-wal"),
        STORE,
        r"office: office-wal is in use by python3 .*",
    ),
    Case(
        "a program whose name a terminal obeys",
        "as_user touch office-wal\n"
        + HOLDS % ("lockf(file, fcntl.LOCK_EX); open('/proc/self/comm', 'w').write('\\x1b[31mx'); fcntl.lockf", "office-wal"),
        STORE,
        r"office: office-wal is in use by \?\[31mx .*",
    ),
    Case(
        "a shell of SQLite",
        """mkfifo -m 644 "$said.pipe"; $user sqlite3 office < "$said.pipe" > "$said.sql" & holder=$!
exec 9> "$said.pipe"; printf 'SELECT * FROM meta_row;\\n.shell touch %s\\n' "$said.holds" >&9
until test -e "$said.holds"; do sleep 0.05; done""",
        STORE,
        r"office: office is in use by sqlite3 \(process \d+, user \w+\)",
        "sqlite3",
    ),
    Case(
        "a front",
        "as_user touch office.lock\n" + HOLDS % ("flock", "office.lock"),
        GOOD,
        r"office: a front has the office, python3 .*",
    ),
    Case(
        "an empty file",
        ": > office",
        '{"code":50,"error":"NotAnOffice"}',
        r"office: it is empty, and so not an office \(50 NotAnOffice\)",
    ),
    Case("a text", "echo hello > office", STORE, "office: it is not a database, and so not an office"),
    Case(
        "half a file",
        "head -c 20000 office > x; cat x > office",
        STORE,
        "office: it is truncated .* 20,000 bytes, and its head says 53,248",
    ),
    Case(
        "a page that was written over",
        "printf XXXXXXXX | dd of=office bs=1 seek=4096 conv=notrunc 2> /dev/null",
        STORE,
        "office: its database is malformed: .*",
    ),
    Case("no program", "RBAC_PROGRAM=/none", GOOD, NOTHING + r"\n(.*\n)+why: what is in the file was not checked: .*/none.*"),
    Case(
        "another version",
        SQL % "UPDATE meta_row SET version = 7",
        '{"code":51,"error":"Version","version":7}',
        r"office: a newer program made it: it has version 7 \(51 Version\)",
        "sqlite3",
    ),
    Case(
        "another database",
        "rm office; " + SQL % "CREATE TABLE a (b)" + "; chmod 666 office",
        '{"code":50,"error":"NotAnOffice"}',
        r"office: it is not an office \(50 NotAnOffice\)",
        "sqlite3",
    ),
    Case(
        "damaged rows",
        SQL % "INSERT INTO name_row VALUES (1, '')",
        '{"check":2,"code":52,"error":"Damaged"}',
        r"office: its rows break check 2 \(52 Damaged\)",
        "sqlite3",
    ),
    Case(
        "too many rows",
        SQL % f"WITH n(i) AS (SELECT 1 UNION SELECT i + 1 FROM n LIMIT {MOST['role'] + 1}) INSERT INTO name_row SELECT 2, 'r' || i FROM n",
        '{"code":32,"error":"TooMany","kind":"role"}',
        r"office: it has more of a kind than the limit allows \(32 TooMany\)",
        "sqlite3",
    ),
    Case(
        "a server of another user",
        'chown -R 0:0 . && chmod 755 . && chmod 666 office; as_user() { "$@"; }; user_runs=$user; user=\n' + SERVES,
        STORE,
        "office: office is in use by a process that can't be seen from here",
        "root",
    ),
    Case(
        "a server, seen by root",
        "user_runs=\n" + SERVES,
        STORE,
        r"office: .* in use by rbac \(process SERVER, user \w+\)",
        "root",
    ),
    Case(
        "the file of root",
        "user_runs=; chown 0 office; chmod 600 office",
        STORE,
        "office: office may not be read or written by this user: .*",
        "root",
    ),
    Case("the file of root, as root", 'chown 0 office; as_user() { "$@"; }', GOOD, NOTHING, "root", options="--user root"),
    Case(
        "a read-only file system",
        TMPFS % "size=1m" + "mount -o remount,ro .",
        STORE,
        "office: the file system of @ is read-only",
        "mount",
    ),
    Case(
        "a full disk",
        TMPFS % "size=400k" + "cat /dev/zero > filler 2> /dev/null || true",
        STORE,
        "office: the disk of @ is full: there is no room",
        "mount",
    ),
    Case(
        "a full disk, with a log and a folder that may not be written",
        TMPFS % "size=400k" + "as_user touch office-wal; chmod 555 .; cat /dev/zero > filler 2> /dev/null || true",
        STORE,
        "office: the disk of @ is full: there is no room",
        "mount",
    ),
    Case(
        "no room for files",
        TMPFS % "size=1m,nr_inodes=8" + "touch 1 2 3 4 5 6 7 8 9 2> /dev/null || true",
        STORE,
        "office: the disk of @ is full: there is no room for one more file",
        "mount",
    ),
    Case(
        "no room for a copy",
        'mkdir "$said.tmp" && mount -t tmpfs -o size=16k,mode=777 tmpfs "$said.tmp" && export TMPDIR=$said.tmp',
        GOOD,
        NOTHING + r"\n(.*\n)+why: what is in the file was not checked: .*No space left on device",
        "mount",
    ),
    Case(
        "an immutable file",
        EXT4 + "chattr +i office",
        STORE,
        "office: .* it has the attribute immutable",
        "mount mkfs.ext4 chattr",
    ),
    Case(
        "an immutable folder", EXT4 + "chattr +i .", STORE, "office: .* has the attribute immutable", "mount mkfs.ext4 chattr"
    ),
    Case(
        "a file system with errors",
        EXT4 + "echo 1 > /sys/fs/ext4/$(basename $(findmnt -n -o SOURCE .))/trigger_fs_error",
        GOOD,
        "office: the file system of @ has counted 1 errors of its own",
        "mount mkfs.ext4 findmnt",
    ),
    Case(
        "a disk that doesn't return the file",
        EXT4 + "failing=$fails_once",
        STORE,
        "office: the file system of @ has counted 1 errors of its own",
        "mount mkfs.ext4 findmnt",
    ),
    Case("a quota", BTRFS, STORE, "office: 64 KiB can't be written .*: the quota of the user is used up", "mount mkfs.btrfs"),
    Case(
        "a disk that fails to find the file",
        'runs_under="strace -qq -o $said.trace -P $PWD/office -e inject=newfstatat:error=EIO"',
        GOOD,
        "office: @/office can't be looked at: Input/output error",
        "strace",
    ),
    Case(
        "a disk that fails to read",
        'runs_under="strace -f -qq -o $said.trace -P $PWD/office -e inject=read:error=EIO"',
        GOOD,
        "office: office can't be read: Input/output error",
        "strace",
    ),
    Case(
        "a disk that fails to write",
        'runs_under="strace -qq -o $said.trace -e inject=fsync:error=EIO"',
        GOOD,
        "office: 64 KiB can't be written to the disk of @: Input/output error",
        "strace",
    ),
]


def cases():
    """The causes as parameters, each with what it needs."""
    for case in CASES:
        rights = ["root", "mounts"] if "mount" in case.needs else []
        yield pytest.param(case, id=case.what, marks=pytest.mark.needs("setpriv", *case.needs.split(), *rights))


@pytest.mark.parametrize("case", cases())
def check_cause(bench, case):
    """The script names a cause and nothing else, changes nothing, and has the status for it."""
    place = tempfile.mkdtemp(dir=bench.folder)
    said = tempfile.mkdtemp(dir=bench.folder)
    for folder in (bench.folder.parent, bench.folder, place, said):
        os.chmod(folder, 0o755)
    os.chmod(said, 0o777)
    # The repository and the program may be where another user can't read them.
    program, why = shutil.copy(PROGRAM, f"{said}/rbac"), shutil.copy(WHY, f"{said}/why")
    user = AS_NOBODY if os.geteuid() == 0 else []
    given = ["sh", "-c", TRYING, "sh", program, why, str(free_port()), case.making, case.office, case.options, *user]
    words = [*(["unshare", "-m"] if "mount" in case.needs else []), *given]
    more = {"said": f"{said}/said", "place": place, "TMPDIR": "/tmp"}
    if user:
        more["chown_inner"] = "chown 65534 inner"
    done = subprocess.run(
        words, cwd=place, env={**os.environ, **more}, capture_output=True, text=True, timeout=SECONDS, check=False
    )
    parts = done.stdout.split("=\n")
    if len(parts) != 3:
        bench.same(f"{case.what}: what is tried", (done.stdout, done.stderr), "three parts")
        return
    reported, printed, (status, *rest) = parts[0].strip(), parts[1], parts[2].splitlines()
    bench.same(f"{case.what}: what the program reports", reported, case.reports)
    wanted = case.says.replace("@", re.escape(place)).replace("SERVER", rest[-1] or "none")
    found = re.match(rf"{wanted}\n", printed)
    bench.judge(f"{case.what}: what is named", [] if found else [f"{printed} and not {wanted}"])
    is_one = len(re.findall(r"^\w.*: ", printed, re.M)) == 1 + printed.count("\nwhy: ")
    bench.judge(f"{case.what}: nothing else is named", [] if is_one else [printed])
    bench.same(f"{case.what}: the status", status, "0" if "nothing is wrong" in case.says else "1")
    bench.same(f"{case.what}: nothing has changed", rest[0], "same")


# Locks many files, and then now and again unlocks a hundred of them and locks them again.
LOCKING = """import fcntl, os, random, sys
files = [open(f"{sys.argv[1]}/{os.getpid()}.{i}", "w") for i in range(150)]
for file in files:
    fcntl.flock(file, fcntl.LOCK_EX)
print("locked", flush=True)
while True:
    some = random.sample(files, 100)
    for what in (fcntl.LOCK_UN, fcntl.LOCK_EX):
        for file in some:
            fcntl.flock(file, what)
"""


def check_busy_locks(bench):
    """The lock of a front is found while others lock and unlock their files, so that Linux's list of locks is never read at one moment."""
    why = importlib.machinery.SourceFileLoader("why", str(WHY)).load_module()
    path, busy = bench.write("office.lock", b""), bench.path("busy")
    os.mkdir(busy)
    with contextlib.ExitStack() as kept:
        for _ in range(2):
            child = kept.enter_context(subprocess.Popen([sys.executable, "-c", LOCKING, busy], stdout=subprocess.PIPE))
            kept.callback(child.kill)
            child.stdout.readline()
        fcntl.flock(kept.enter_context(open(path, "rb")), fcntl.LOCK_EX)
        found = [why.locks_of(Path(path)) for _ in range(300)]
    bench.same("how often it isn't found", found.count(set()), 0)


def check_invalid_arguments(bench):
    """Without an office, and with a user that this process can't become, the status is 2."""
    for words in ([], ["a", "b"], ["--user", "no such user", "office"]):
        bench.same(f"the status of {words}", run([WHY, *words]).status, 2)
    if os.geteuid() != 0:
        bench.same("the status of --user root", run([WHY, "--user", "root", "office"]).status, 2)
