"""Calls on standard input and on sockets that a signal interrupts, or that fail."""

import errno
import signal
import time

import pytest

from machine.state import State
from program.bench import Done
from program.offices import SMALL
from program.web import Server, connect, free_port, read_all

from .serving import SENT, replies_of, reply_of, request_of
from .shim import Shim
from .stories import LINES, judge_office, lay, replay_story, small_office

# How often each call is interrupted before it is made.
INTERRUPTIONS = [1, 1_000]

# Calls without which a server can't listen, each with an error that the system knows.
LISTENING = {"socket": errno.EMFILE, "bind": errno.EADDRINUSE, "listen": errno.EADDRINUSE}

# Ports at which it is seen that the system is asked for them: the first and the last below 1024, and those that follow.
PORTS = [1, 1_023, 1_024, 65_535]

# Errors with which a connection can't be accepted, and those with which one that was accepted is lost.
NOT_ACCEPTED = [errno.EMFILE, errno.ECONNABORTED, errno.ENOMEM]
LOST = {"recv": [errno.ECONNRESET, errno.EIO], "send": [errno.EPIPE, errno.EIO]}

# Lines that are accepted, whichever of them come before.
THREE = [0, 1, 6]

# How long a process is stopped, and how long it may take until it waits again.
PAUSE = 0.05


class Failing(Shim):
    """The shim that makes calls on streams and sockets fail."""

    def __init__(self, bench):
        super().__init__(bench, "stopped/streams.c")

    def settings(self, calls, like, times=1, behind=0):
        """Returns the settings that make each of these calls fail `times` times, after `behind` calls that don't fail."""
        return {"FAIL": calls, "FAIL_LIKE": like, "FAIL_TIMES": times, "FAIL_BEHIND": behind, "FAILED": self.file}

    def count(self):
        """How many times calls have failed."""
        return int(self.ask())


@pytest.mark.parametrize("times", INTERRUPTIONS)
def check_interrupt_replay(bench, times):
    """A replay whose reads of standard input are interrupted answers all lines, over a file and in memory."""
    content, state = small_office(bench)
    path, failing = lay(bench, content), Failing(bench)
    over_file = replay_story(state, LINES)
    in_memory = replay_story(State(), [*SMALL, *LINES])
    for where, word, story in (("over a file", path, over_file), ("in memory", "--memory", in_memory)):
        done = failing.run(["replay", word], story.given, **failing.settings("read", errno.EINTR, times))
        what = f"a replay {where}, each read interrupted {times} times"
        bench.same(what, done, Done(b"".join(story.answers), b"", 0))
        bench.same(f"{what}: they were", failing.count() >= 2 * times, True)
    judge_office(bench, "an office after interrupted reads", over_file, path, [len(LINES)])
    return {"replays with interrupted reads": 2}


@pytest.mark.parametrize("calls", ["accept", "recv", "send", "accept,recv,send"])
def check_interrupt_server(bench, calls):
    """A server whose calls on sockets are interrupted replies as usual."""
    times = INTERRUPTIONS[-1]
    content, state = small_office(bench)
    story = replay_story(state, [LINES[number] for number in SENT])
    path, failing = lay(bench, content), Failing(bench)
    environment = failing.environment(failing.settings(calls, errno.EINTR, times))
    replies, done = replies_of(bench, path, [request_of(line) for line in story.lines], environment)
    what = f"a server with {calls} interrupted {times} times"
    bench.same(what, (replies, done), ([reply_of(answer) for answer in story.answers], Done(b"", b"", 0)))
    bench.same(f"{what}: they were", failing.count() >= len(SENT) * times, True)
    judge_office(bench, what, story, path, [len(story.states) - 1])
    return {"servers with interrupted calls": 1}


def pause(process):
    """Stops a process and lets it continue: what it waits for on a socket with a time limit is interrupted by that."""
    time.sleep(PAUSE)
    process.send_signal(signal.SIGSTOP)
    time.sleep(PAUSE)
    process.send_signal(signal.SIGCONT)
    time.sleep(PAUSE)


def check_pause_server(bench):
    """A server that is stopped and continued while it waits for a client, and for each part of a request, replies."""
    content, state = small_office(bench)
    story = replay_story(state, LINES[:1])
    path, request = lay(bench, content), request_of(LINES[0])
    parts = [request[:1], request[1:30], request[30:-10], request[-10:-1], request[-1:]]
    with Server(bench, path, 1) as server:
        pause(server.process)
        with connect(server.port) as client:
            for part in parts:
                pause(server.process)
                client.sendall(part)
            bench.same("the reply of a server that was stopped", read_all(client), reply_of(story.answers[0]))
        server.ends()
    judge_office(bench, "a server that was stopped", story, path, [1])
    return {"servers that were stopped and went on": 1}


@pytest.mark.parametrize("call", LISTENING)
def check_fail_to_listen(bench, call):
    """A server that can't listen reports it in one line, but only if a call has failed, and the office stays as it is."""
    content, state = small_office(bench)
    path, failing = lay(bench, content), Failing(bench)
    # The system itself may refuse a port to those who bind it.
    ports = [free_port()] if call == "listen" else [free_port(), *PORTS]
    for port in ports:
        words = ["serve", path, "--port", str(port), "--limit", "1"]
        done = failing.run(words, **failing.settings(call, LISTENING[call]))
        what = f"a server whose {call} fails for port {port}"
        bench.same(what, done, Done(b"", b"rbac: cannot listen\n", 1))
        bench.same(f"{what}: it failed", failing.count(), 1)
        bench.same(f"{what}: what is left", bench.contents(), {"office": content})
    return {"servers that could not listen": len(ports)}


@pytest.mark.parametrize("like", NOT_ACCEPTED)
def check_fail_to_accept(bench, like):
    """A server that can't accept a connection reports it in one line and ends: it isn't counted as served."""
    content, state = small_office(bench)
    story = replay_story(state, [LINES[number] for number in SENT])
    requests, wanted = [request_of(line) for line in story.lines], [reply_of(answer) for answer in story.answers]
    failing = Failing(bench)
    for behind in range(len(requests)):
        path = lay(bench, content)
        environment = failing.environment(failing.settings("accept", like, behind=behind))
        replies, done = replies_of(bench, path, requests, environment)
        what = f"a server that accepts {behind} connections, and then {errno.errorcode[like]}"
        bench.same(f"{what}: the replies", [one for one in replies if one], wanted[:behind])
        bench.same(f"{what}: the end", done, Done(b"", b"rbac: cannot accept\n", 1))
        judge_office(bench, what, story, path, [behind])
    return {"connections that could not be accepted": len(requests)}


@pytest.mark.parametrize("call, like", [(call, like) for call, causes in LOST.items() for like in causes])
def check_lose_connection(bench, call, like):
    """A connection whose request can't be read, or whose reply can't be sent, counts as served, and the next is accepted.

    The command of a request is done in either case, if the request was read.
    """
    content, state = small_office(bench)
    asked = replay_story(state, [LINES[number] for number in THREE])
    path, failing = lay(bench, content), Failing(bench)
    environment = failing.environment(failing.settings(call, like, behind=1))
    replies, done = replies_of(bench, path, [request_of(line) for line in asked.lines], environment)
    wanted = [reply_of(answer) for answer in asked.answers]
    what = f"a server with {call} of its second connection failing by {errno.errorcode[like]}"
    bench.same(what, (replies, done), ([wanted[0], b"", wanted[2]], Done(b"", b"", 0)))
    bench.same(f"{what}: it failed", failing.count(), 1)
    story = asked if call == "send" else replay_story(state, [asked.lines[0], asked.lines[2]])
    judge_office(bench, what, story, path, [len(story.lines)])
    return {"connections that were lost": 1}
