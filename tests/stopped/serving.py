"""A server meets a call on the files of its office that fails, or crashes there, while requests are sent to it."""

import errno
import json
import subprocess
from collections import Counter

import pytest

from program.bench import PROGRAM, SECONDS, Done
from program.offices import STORE
from program.web import connect, free_port, post, read_all, reply

from .shim import ENDED, Stopper
from .stories import LINES, REFUSED, judge_office, lay, replay_story, small_office

# More calls than a server makes.
MOST = 2_000

# The lines that are sent as requests.
SENT = [0, 3, 5, 7, 10]


def request_of(line):
    """Returns the HTTP request that asks for what a line asks for."""
    members = json.loads(line)
    return post(members.pop("fn"), json.dumps(members).encode())


def reply_of(answer):
    """The reply over HTTP for the answer to a line."""
    text = answer.rstrip(b"\n")
    return reply(200 if text.startswith(b'{"ok"') else 409, text)


def replies_of(bench, path, requests, environment):
    """What a server replies to these requests, as long as it listens, and how it ends."""
    port = free_port()
    words = [PROGRAM, "serve", path, "--port", str(port), "--limit", str(len(requests))]
    replies = []
    with subprocess.Popen(
        words, env=environment, cwd=bench.folder, stdout=subprocess.PIPE, stderr=subprocess.PIPE
    ) as process:
        if process.stdout.readline() == f"listening on 127.0.0.1:{port}\n".encode():
            for request in requests:
                try:
                    with connect(port) as client:
                        client.sendall(request)
                        replies.append(read_all(client))
                except OSError:
                    break
        out, err = process.communicate(timeout=SECONDS)
    return replies, Done(out, err, process.returncode)


def judge_replies(bench, what, wanted, replies, done):
    """Counts whether these are the replies and the end of a server that a call of the store stopped, or none did."""
    good = 0
    while good < len(replies) and good < len(wanted) and replies[good] == wanted[good]:
        good += 1
    rest = replies[good:]
    stopped = [reply(500, STORE)]
    if done.status == 0:
        ends = rest == [] and good == len(wanted) and done.err == b""
    elif done.status == 1:
        is_closed = rest[:1] == stopped and b"".join(rest[1:]) == b"" and done.err == b"rbac: closed\n"
        ends = is_closed or (replies == [] and done.err == REFUSED)
    else:
        ends = done.status == ENDED and b"".join(rest) == b""
    bench.judge(f"{what}: the replies", [] if ends else [f"{rest!r} after {good}, and {done}"])
    return good


@pytest.mark.parametrize("like, how", [(errno.EIO, "once"), (errno.ENOSPC, "ever"), ("exit", "once")])
def check_stop_server(bench, like, how):
    """Serves requests with the first call stopped, then the second, and so on, until there are fewer calls."""
    counts = Counter()
    content, state = small_office(bench)
    story = replay_story(state, [LINES[number] for number in SENT])
    requests, wanted = [request_of(line) for line in story.lines], [reply_of(answer) for answer in story.answers]
    stopper = Stopper(bench)
    for number in range(1, MOST):
        path = lay(bench, content)
        stopper.forget()
        environment = stopper.environment(stopper.settings(number, like, ever=how == "ever"))
        replies, done = replies_of(bench, path, requests, environment)
        if stopper.ask() is None:
            break
        what = f"serve, call {number} ({stopper.call}) stopped by {like} {how}"
        good = judge_replies(bench, what, wanted, replies, done)
        judge_office(bench, what, story, path, range(good, min(good + 2, len(story.states))))
        counts[f"serve, status {done.status}"] += 1
    bench.same("an undisturbed server", (replies, done), (wanted, Done(b"", b"", 0)))
    return counts
