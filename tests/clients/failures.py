"""Programs that are busy, killed, stopped or missing, and a full store: what the client raises, and what the office holds."""

import contextlib
import fcntl
import json
import os
import pickle
import re
import signal
import struct
import subprocess
import termios
import threading
import time

from machine.state import MOST
from program.bench import PROGRAM, SECONDS
from program.offices import Office, small_office
from program.web import Server, connect, free_port, has_unread

from .client import HASTY, PATIENT, lines_of, office_at, outcome, raised, rbac

CHECK = ("s1", "open", "safe")
USER = b'{"fn":"addUser","user":"%s"}'


def of_class(bench, what, call, wanted, may_be_done=None):
    """Counts whether a call raises an error of exactly this class, which states whether a command may have been done."""
    try:
        given = call()
    except Exception as error:
        given = type(error)
        if may_be_done is not None:
            bench.same(f"{what}: whether it may be done", error.may_be_done, may_be_done)
    bench.same(what, given, wanted)


@contextlib.contextmanager
def once(holds, call):
    """Calls something as soon as something holds, while the test continues."""

    def wait():
        while not holds() and not ended.wait(0.005):
            pass
        call()

    ended = threading.Event()
    thread = threading.Thread(target=wait, daemon=True)
    thread.start()
    yield
    ended.set()
    thread.join()


def unread(connection):
    """How many bytes the other end of a pair of sockets hasn't read, or 0."""
    return struct.unpack("i", fcntl.ioctl(connection, termios.TIOCOUTQ, bytes(4)))[0]


def check_classes_of_errors(bench):
    """Each error is of the class `Error`, states whether a command may have been done, and can be pickled."""
    refused = rbac.Refused(24, "StaticSeparation", {"set": "pay"})
    errors = {rbac.Unanswered: True, rbac.Unreachable: False, rbac.Unexpected: True}
    for error in [refused, *(kind("a") for kind in errors)]:
        bench.same(f"{error!r} is an error", isinstance(error, rbac.Error), True)
        copy = pickle.loads(pickle.dumps(error))
        bench.same(f"a copy of {error!r}", (type(copy), copy.args, vars(copy)), (type(error), error.args, vars(error)))
    for kind, may_be_done in errors.items():
        bench.same(f"{kind.__name__} may be done", kind("a").may_be_done, may_be_done)
    codes = {code for code in range(1, 70) if rbac.Refused(code, "a", {}).may_be_done}
    bench.same("the refusals after which a command may be done", codes, {41, 60, 61})


def check_no_server(bench):
    """If nobody listens, nothing is done and no access is allowed."""
    client = office_at(free_port())
    of_class(bench, "a decision", lambda: client.check_access(*CHECK), rbac.Unreachable, False)
    of_class(bench, "a command", lambda: client.add_user("eve"), rbac.Unreachable, False)


def check_busy_server(bench):
    """A server that another client holds up executes the command of a client that has left, and then the next one."""
    office = small_office(bench)
    with Server(bench, office.path, 6) as server:
        hasty, patient = office_at(server.port, HASTY), office_at(server.port)
        with connect(server.port):
            start = time.monotonic()
            of_class(bench, "a decision", lambda: hasty.check_access(*CHECK), rbac.Unanswered, False)
            of_class(bench, "a command", lambda: hasty.add_user("eve"), rbac.Unanswered, True)
            bench.same("the timeouts are kept", 2 * HASTY <= time.monotonic() - start, True)
        bench.same("the command again", outcome(patient.add_user, "eve"), '{"code":3,"error":"UserExists"}')
        bench.same("a decision again", raised(patient.check_access, *CHECK), True)
        bench.same("another decision", raised(patient.check_access, "s2", "open", "safe"), "Refused")
        server.ends()
    office.model.answer(USER % b"eve")
    office.compare_with_model()


def check_killed_server(bench):
    """A server that is killed before it answers leaves the call unanswered, and the next one without a server."""
    office = small_office(bench)
    with Server(bench, office.path, 2) as server:
        client = office_at(server.port)
        server.process.send_signal(signal.SIGSTOP)
        with once(lambda: has_unread(server.process.pid, server.port), server.process.kill):
            of_class(bench, "a decision", lambda: client.check_access(*CHECK), rbac.Unanswered, False)
        server.process.wait()
        of_class(bench, "a decision after it", lambda: client.check_access(*CHECK), rbac.Unreachable, False)


def check_full_store(bench):
    """If the store fails, a server answers 41 Store and a child nothing. Both end, and the command may have been done."""
    path, port = small_office(bench).path, free_port()
    # The office has fewer bytes, and the log needs more, whether the shell counts blocks of 512 bytes or of 1,024.
    limited = ["sh", "-c", "trap '' XFSZ; ulimit -f 120; exec \"$@\" 2> /dev/null", "sh", PROGRAM]
    serving = ["serve", path, "--port", str(port), "--limit", "9"]
    with subprocess.Popen([*limited, *serving], stdout=subprocess.PIPE) as served:
        served.stdout.readline()
        client = office_at(port)
        bench.same("access before", raised(client.check_access, *CHECK), True)
        bench.same("a command over HTTP", outcome(client.add_user, "eve"), '{"code":41,"error":"Store"}')
        bench.same("the status of the server", served.wait(SECONDS), 1)
        of_class(bench, "a decision after it", lambda: client.check_access(*CHECK), rbac.Unreachable, False)
    with rbac.Lines([*limited, "replay", path], PATIENT) as client:
        bench.same("access before, by lines", raised(client.check_access, *CHECK), True)
        of_class(bench, "a command by lines", lambda: client.add_user("eve"), rbac.Unanswered, True)
        of_class(bench, "a decision by lines after it", lambda: client.check_access(*CHECK), rbac.Unreachable, False)


def check_stopped_child(bench):
    """A child that does not answer in time is killed, so that no later call gets its answer."""
    office = small_office(bench)
    with lines_of(office.path) as client:
        bench.same("a decision in time", raised(client.check_access, *CHECK), True)
        client.timeout = HASTY
        os.kill(client._child.pid, signal.SIGSTOP)
        of_class(bench, "a decision", lambda: client.check_access(*CHECK), rbac.Unanswered, True)
        bench.same("the child is killed", client._child.poll(), -signal.SIGKILL)
        of_class(bench, "the next decision", lambda: client.check_access(*CHECK), rbac.Unreachable, False)
        of_class(bench, "a command", lambda: client.add_user("eve"), rbac.Unreachable, False)
    bench.same("what `check` prints", bench.run(["check", office.path]).out, b"good\n")
    office.compare_with_model()


def check_killed_child(bench):
    """A child that is killed during a call leaves it unanswered. One that has ended before a call can't be reached."""
    path = small_office(bench).path
    with lines_of(path) as client:
        client.check_access(*CHECK)
        os.kill(client._child.pid, signal.SIGSTOP)
        with once(lambda: unread(client._connection), client._child.kill):
            of_class(bench, "a decision", lambda: client.check_access(*CHECK), rbac.Unanswered, True)
    with lines_of(path) as client:
        client.check_access(*CHECK)
        client._child.kill()
        client._child.wait()
        of_class(bench, "a decision of a dead child", lambda: client.check_access(*CHECK), rbac.Unreachable, False)
    with lines_of(path) as client:
        bench.same("the status of a child without a call", client.close(), 0)
        of_class(bench, "a decision after the end", lambda: client.check_access(*CHECK), rbac.Unreachable, False)


def check_no_office(bench):
    """A child that can't open its office answers nothing."""
    quiet = ["sh", "-c", 'exec "$@" 2> /dev/null', "sh", PROGRAM]
    with rbac.Lines([*quiet, "replay", bench.path("nothing")], PATIENT) as client:
        try:
            client.check_access(*CHECK)
        except (rbac.Unanswered, rbac.Unreachable) as error:
            bench.same("the error about a child that has ended", "the child has ended with status 1" in str(error), True)
        else:
            bench.same("a decision without an office", True, False)
    bench.same("a program that does not exist", raised_by_start(), FileNotFoundError)


def raised_by_start():
    """Returns what is raised if the program of a child does not exist."""
    try:
        rbac.Lines(["/nothing"]).close()
    except Exception as error:
        return type(error)
    return None


def check_unsendable(bench):
    """What can't be sent raises ValueError before anything is sent, and the client still works."""
    office = small_office(bench)
    with lines_of(office.path) as client:
        bench.same("a line that is too long", raised(client.add_user, "e" * 65_536), "ValueError")
        bench.same("a lone surrogate", raised(client.add_user, "\ud800"), "ValueError")
        bench.same("no number", raised(client.set_ssd_set_cardinality, "pay", float("nan")), "ValueError")
        bench.same("a name for a list of names", raised(client.create_session, "ann", "boss", "s3"), "ValueError")
        bench.same("a decision about bytes", client.check(b"s1", "open", "safe").reason, "invalid_request")
        bench.same("a decision after it", raised(client.check_access, *CHECK), True)
        longest = 65_536 - len('{"user":"","fn":"addUser"}')
        bench.same("the longest line", outcome(client.add_user, "e" * longest), '{"code":1,"error":"BadName"}')
    with Server(bench, office.path, 4) as server:
        client = office_at(server.port)
        bench.same("a body that is too long", outcome(client.add_user, "e" * 65_536), '{"code":34,"error":"BadRequest"}')
        bench.same("a body with a lone surrogate", raised(client.add_user, "\ud800"), "ValueError")
        for size in (3_000_000, 16_000_000):  # The server reads one of these to its end, but not the other.
            given = outcome(client.import_assignments, "user,role\n".ljust(size, "\n"))
            bench.same(f"CSV of {size} bytes", given, '{"code":34,"error":"BadRequest"}')
        bench.same("a decision after all that", raised(client.check_access, *CHECK), True)
        server.ends()
    office.compare_with_model()


def check_refusals(bench):
    """Refusals with a further key, and names of unusual characters, are those of the plain model."""
    office = small_office(bench)
    names = ['a"b\\c', "é\u2028\ufeff\x85", "\U0001f600 x", " ", "/", "\x7f", "a\nb", "n" * 64, "n" * 65, "é" * 33]
    many = [f"r{number}" for number in range(MOST["activeRole"] + 1)]
    requests = [("addUser", {"user": name}) for name in names]
    requests += [("addRole", {"role": name}) for name in [*names, *many]]
    requests += [("assignUser", {"user": "bob", "role": name}) for name in [*names, *many]]
    requests += [("assignedUsers", {"role": name}) for name in names]
    requests += [
        ("authorizedRoles", {"user": "bob"}),
        ("createSession", {"user": "bob", "roles": many, "session": "s2"}),
        ("createSession", {"user": "bob", "roles": many[1:], "session": "s2"}),
        ("addInheritance", {"asc": "boss", "desc": "temp"}),
        ("createSession", {"user": "ann", "roles": ["temp"], "session": "s3"}),
        ("importAssignments", {"csv": "user,role\nann\n"}),
        ("importAssignments", {"csv": "role,user\n"}),
        ("importAssignments", {"csv": 'user,role\n"a""b\\c",clerk\nzoe,clerk\nann,temp\n'}),
        ("sessionPermissions", {"session": "s2"}),
        ("ssdRoleSetCardinality", {"set": "pay"}),
    ]
    with lines_of(office.path) as client:
        for function, arguments in requests:
            line = json.dumps({"fn": function, **arguments}).encode()
            method = getattr(client, re.sub("([A-Z])", r"_\1", function).lower())
            bench.same(line, outcome(method, **arguments).encode(), office.model.answer(line))
        client.close()
    office.compare_with_model()


def check_shared_by_threads(bench):
    """Threads that share a client each get their own answers."""
    path = small_office(bench).path
    users = {f"user {number}": f"role {number}" for number in range(8)}

    def asks(client, user, role, given):
        given[user] = {tuple(client.authorized_roles(user)) for _ in range(60)} | {client.check_access(*CHECK)}

    def ask_all(what, client):
        given = {}
        threads = [threading.Thread(target=asks, args=(client, *pair, given)) for pair in users.items()]
        for thread in threads:
            thread.start()
        for thread in threads:
            thread.join()
        bench.same(what, given, {user: {(role,), True} for user, role in users.items()})

    with lines_of(path) as client:
        for user, role in users.items():
            client.add_user(user)
            client.add_role(role)
            client.assign_user(user, role)
        ask_all("the answers of one child", client)
        client.close()
    with Server(bench, path, 8 * 61) as server:
        ask_all("the answers of one server", office_at(server.port))
        server.ends()


def check_shared_by_processes(bench):
    """A forked process can't use the child of its parent process, which can still use it."""
    with lines_of(small_office(bench).path) as client:
        bench.same("a decision before", raised(client.check_access, *CHECK), True)
        process = os.fork()
        if process == 0:
            os._exit(0 if raised(client.check_access, *CHECK) == "Unreachable" else 1)
        bench.same("what the forked process gets", os.waitpid(process, 0)[1], 0)
        bench.same("a decision after", raised(client.check_access, *CHECK), True)
