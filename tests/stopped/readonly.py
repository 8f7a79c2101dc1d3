"""Files and folders that can't be written, or lose their permissions while a replay has them open, as a user who is not root
sees them. These checks work on the disk.
"""

import os
import shutil
import subprocess
from contextlib import contextmanager

import pytest

from needs import skip
from program.bench import PROGRAM, SECONDS, Done, beside

from .stories import LINES, RECORDS, REFUSED, judge_office, lay, replay_story, small_office

NOBODY = 65_534

# Files in memory can still be written by processes that have them open, without the right to.
ON_DISK = True


class Stranger:
    """Runs the program as a user for whom permissions count: nobody, if this process is root."""

    def __init__(self, bench):
        self.bench = bench
        self.program = beside(bench, "rbac")
        shutil.copy(PROGRAM, self.program)
        os.chmod(self.program, 0o755)
        self.more = {}
        if os.geteuid() == 0:
            self.more = {"user": NOBODY, "group": NOBODY, "extra_groups": []}
            os.chmod(bench.folder.parent, 0o711)

    def start(self, words):
        """Starts the program; its streams are pipes."""
        pipes = {stream: subprocess.PIPE for stream in ("stdin", "stdout", "stderr")}
        return subprocess.Popen([self.program, *words], cwd="/", **pipes, **self.more)

    def run(self, words, given=b""):
        """Runs the program to its end."""
        with self.start(words) as process:
            out, err = process.communicate(given, timeout=SECONDS)
        return Done(out, err, process.returncode)

    def lay(self, content):
        """Writes the office again, as a file of this user. Returns its path."""
        os.chmod(self.bench.folder, 0o755)
        path = lay(self.bench, content)
        if self.more:
            for each in (self.bench.folder, path):
                os.chown(each, NOBODY, NOBODY)
        return path

    def is_let_in(self):
        """Whether permissions do not count for this user either."""
        os.chmod(self.bench.folder, 0o555)
        done = subprocess.run(["touch", self.bench.path("probe")], check=False, capture_output=True, **self.more)
        os.chmod(self.bench.folder, 0o755)
        if done.returncode == 0:
            os.remove(self.bench.path("probe"))
        return done.returncode == 0


def changed_while_open(bench, stranger, path, story, change):
    """Replays lines one by one, with a change made after the first answer: what it prints in the end."""
    with stranger.start(["replay", path]) as process:
        answers = []
        for line in story.lines:
            process.stdin.write(line)
            process.stdin.flush()
            answers.append(process.stdout.readline())
            if len(answers) == 1:
                change()
        out, err = process.communicate(timeout=SECONDS)
    bench.same("the answers", answers, list(story.answers))
    bench.same("the end of the replay", Done(out, err, process.returncode), Done(b"", b"", 0))


def refused_to_all(bench, stranger, path, what):
    """Counts whether each subcommand is refused by the store, and each file stays as it is."""
    before = bench.contents()
    for word, more in [("check", []), ("replay", []), ("migrate", []), ("import", ["/dev/null"]), ("report", [])]:
        done = stranger.run([word, path, *more], b'{"fn":"addUser","user":"new"}\n')
        bench.same(f"{word} of {what}", done, Done(b"", REFUSED, 1))
        bench.same(f"what is left after {word} of {what}", bench.contents(), before)


def check_lose_the_file(bench):
    """A file that becomes read-only while a replay has it open is written to the end; then all are refused."""
    content, state = small_office(bench)
    story = replay_story(state, LINES)
    stranger = Stranger(bench)
    path = stranger.lay(content)
    if stranger.is_let_in():
        return {"permissions that do not count": 1}
    changed_while_open(bench, stranger, path, story, lambda: [os.chmod(one, 0o444) for one in bench.folder.iterdir()])
    bench.same("which files are left", os.listdir(bench.folder), ["office"])
    refused_to_all(bench, stranger, path, "a read-only file")
    os.chmod(path, 0o644)
    judge_office(bench, "a file that was read-only", story, path, [len(LINES)])
    return {"read-only files": 1}


def check_lose_the_folder(bench):
    """A folder that becomes read-only while a replay has a file of it open: all that was answered is kept."""
    content, state = small_office(bench)
    story = replay_story(state, LINES)
    stranger = Stranger(bench)
    path = stranger.lay(content)
    if stranger.is_let_in():
        return {"permissions that do not count": 1}
    changed_while_open(bench, stranger, path, story, lambda: os.chmod(bench.folder, 0o555))
    bench.same("check beside a log that stays", stranger.run(["check", path]), Done(b"good\n", b"", 0))
    os.chmod(bench.folder, 0o755)
    judge_office(bench, "a folder that was read-only", story, path, [len(LINES)])
    return {"read-only folders": 1}


def check_lack_the_folder(bench):
    """In a read-only folder no office is opened or made, and nothing changes."""
    content, state = small_office(bench)
    stranger = Stranger(bench)
    path = stranger.lay(content)
    if stranger.is_let_in():
        return {"permissions that do not count": 1}
    os.chmod(bench.folder, 0o555)
    refused_to_all(bench, stranger, path, "an office in a read-only folder")
    bench.same("init in a read-only folder", stranger.run(["init", bench.path("new")]), Done(b"", REFUSED, 1))
    bench.same("what is left after init", bench.contents(), {"office": content})
    os.chmod(bench.folder, 0o755)
    judge_office(bench, "an office in a folder that was read-only", replay_story(state, LINES), path, [0])
    return {"read-only folders": 1}


def check_lack_the_records(bench):
    """A CSV file that may not be read stops an import before it begins, and doesn't count as an empty one."""
    content, state = small_office(bench)
    stranger = Stranger(bench)
    path = stranger.lay(content)
    if stranger.is_let_in():
        return {"permissions that do not count": 1}
    records = bench.write("records.csv", RECORDS)
    os.chmod(records, 0o000)
    done = stranger.run(["import", path, records])
    bench.same("import of a file that may not be read", done, Done(b"", b"rbac: stop Read after 0\n", 1))
    os.remove(records)
    judge_office(bench, "an import without its records", replay_story(state, LINES), path, [0])
    return {"records that could not be read": 1}


@contextmanager
def unchangeable(paths):
    """Makes files unchangeable for everybody as long as this lasts, even through open files, if the system can do that."""
    subprocess.run(["chattr", "+i", *paths], check=False, capture_output=True)
    try:
        yield
    finally:
        subprocess.run(["chattr", "-i", *paths], check=False, capture_output=True)


def can_be_unchangeable(bench):
    """Returns whether the system refuses writes on a file that was made unchangeable while it was open."""
    path = beside(bench, "probe")
    with open(path, "wb", buffering=0) as file, unchangeable([path]):
        try:
            file.write(b"x")
        except PermissionError:
            return True
    return False


def replay_until_stopped(bench, path, story, names):
    """Replays lines one by one, with these files unchangeable after the first answer: what it prints, and which stay."""
    with subprocess.Popen(
        [PROGRAM, "replay", path], stdin=subprocess.PIPE, stdout=subprocess.PIPE, stderr=subprocess.PIPE
    ) as process:
        process.stdin.write(story.lines[0])
        process.stdin.flush()
        first = process.stdout.readline()
        with unchangeable([bench.path(name) for name in names]):
            out, err = process.communicate(b"".join(story.lines[1:]), timeout=SECONDS)
            left = sorted(os.listdir(bench.folder))
    return Done(first + out, err, process.returncode), left


@pytest.mark.needs("root")
@pytest.mark.parametrize("names, done_by_then", [(["office"], True), (["office-wal"], False), (["office", "office-wal"], False)])
def check_lose_open_files(bench, names, done_by_then):
    """Files that nobody can write any more while a replay has them open: it stops, or what is written is enough."""
    if not can_be_unchangeable(bench):
        skip("unchangeable files")
    content, state = small_office(bench)
    story = replay_story(state, LINES)
    path = lay(bench, content)
    done, left = replay_until_stopped(bench, path, story, names)
    what = " and ".join(names) + " unchangeable"
    bench.same(f"{what}: which files are left", left, ["office", "office-wal"])
    if done_by_then:
        bench.same(f"{what}: the end of the replay", done, Done(b"".join(story.answers), b"", 0))
    else:
        bench.same(f"{what}: the end of the replay", done, Done(story.answers[0], b"rbac: stop Store after 1\n", 1))
    judge_office(bench, what, story, path, story.allowed(done))
    return {"open files that were made unchangeable": len(names)}
