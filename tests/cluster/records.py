"""The records of the nodes, which are the same on all of them: compared with one another, with the log and with the answers."""

import hashlib
import http.client
import json
import random
import signal
import sqlite3
import subprocess
import threading
import time
from contextlib import closing
from pathlib import Path

import pytest

from front.identities import bearer, rules, tokens
from front.recorded import BOUNDED, Entry, Model, digest, files_with, link
from program.bench import PROGRAM

from .answers import exchange, post
from .fronts import Nodes
from .keeping import log_of, registered
from .machines import PREFIX, SECONDS, Cluster
from .networks import MACHINES
from .rows import snapshots_of
from .running import build

# Commands from one snapshot to the next.
EVERY = 60

# Who asks, with the tokens.
CALLERS = {"desk": "secret-of-the-desk", "boss": "secret-of-the-boss"}

# What they may do everywhere.
ALLOWED = ["addUser", "deleteUser", "addRole", "assignUser", "deassignUser", "createSession", "deleteSession", "addActiveRole"]

# What verify says of a node that began with a snapshot.
MISSING = "rbac-node: what is here is good, but entries are missing\n"

# What a node logs that begins its record with a snapshot.
BEGINS_LATE = "the record begins with a snapshot: earlier entries are not here"

# Names of sessions that are found nowhere by chance.
SECRETS = [f"session-that-nobody-may-see-{number}" for number in range(8)]


def files_of(data):
    """The files of the record in the folder of a node, in their order."""
    parts = sorted(Path(data).glob("record/record-*.db"), key=lambda path: int(path.name.split("-")[1]))
    return [*parts, Path(data, "record/record.db")]


def parts_of(data):
    """The files of the record in the folder of a node, in their order: of each the number of its first entry, and its entries."""
    found = []
    for path in files_of(data):
        if path.exists():
            with closing(sqlite3.connect(f"file:{path}?mode=ro", uri=True, timeout=SECONDS)) as opened:
                (first,) = opened.execute("SELECT min(first) FROM part").fetchone()
                found.append((first, [Entry(*row) for row in opened.execute("SELECT * FROM entry ORDER BY n")]))
    return found


def entries_of(data):
    """All entries of the record in the folder of a node."""
    return [entry for _, entries in parts_of(data) for entry in entries]


def tool(node, *words):
    """The status and the outputs of a command about a record."""
    if words[0] == "verify":
        words = ("verify", "--program", PROGRAM, *words[1:])
    done = subprocess.run([node, "record", *words], capture_output=True, text=True, timeout=10 * SECONDS, check=False)
    return done.returncode, done.stdout, done.stderr


def recorded_text(line):
    """The text of a request of the log as the record has it."""
    request = json.loads(line)
    if "session" in request:
        request["session"] = digest(request["session"])
    return json.dumps(request, separators=(",", ":"), ensure_ascii=False)


def joined(records, copies=()):
    """The entries that any node has or an earlier copy of its record, by their numbers, and what is wrong with them: two have another one
    at a number, a link does not follow from the one before it, or a node lacks the end. After the nodes come the copies."""
    found, faults = {}, []
    for i, record in enumerate([*records, *copies]):
        for before, entry in zip([None, *record], record):
            if found.setdefault(entry.n, entry) != entry:
                faults.append(f"node {i} has {entry}, and another one {found[entry.n]}")
            if before and before.n + 1 == entry.n and link(before.chain, entry) != entry.chain:
                faults.append(f"at node {i} entry {entry.n} does not follow")
    if len({record[-1].n if record else 0 for record in records}) != 1:
        faults.append(f"the records end at {[record[-1].n if record else 0 for record in records]}")
    return [found[n] for n in sorted(found)], faults


def lacking(parts, log):
    """What the record of a node lacks without a reason. What is before a file may be missing only if the node has begun it with a snapshot,
    as its log says: it had lost its record, or had one that ended before a snapshot that it fetched."""
    begun = {json.loads(line)["first"] for line in log.splitlines() if BEGINS_LATE in line}
    faults, last = [], 0
    for first, entries in parts:
        if first <= last or first > last + 1 and first not in begun:
            faults.append(f"after entry {last} comes a file that begins with entry {first}")
        numbers = [entry.n for entry in entries]
        last = first + len(numbers) - 1
        if numbers != list(range(first, last + 1)):
            faults.append(f"the file that begins with entry {first} has {len(numbers)} entries, from {numbers[0]} to {numbers[-1]}")
    return faults


def unlike(entries, wanted, judge):
    """How entries differ from the lines of a log, and from what was asked and answered. The first entry says that the record begins, and
    each later one is the command of one line, also if nobody has those before it."""
    faults, by_reason, recorded = [], {one.reason: one for one in judge.asked}, set()
    for entry in reversed(entries):
        if (entry.n == 1) != ('"record":' in entry.request) or entry.n > len(wanted) + 1:
            faults.append(f"{entry} is not the command of a line: the log has {len(wanted)}")
            continue
        if entry.n == 1:
            continue
        revision, place, line = wanted[entry.n - 2]
        asked = judge.asked_at.get((revision, place))
        if asked is None or not asked.is_answered:  # Of several that are the same and were not answered it may be any.
            asked = by_reason.get(entry.reason)
        if entry.request != recorded_text(line):
            faults.append(f"{entry} is not the command at {revision}, {place}: {line}")
        elif not asked or (entry.caller, entry.reason) != (asked.caller, asked.reason):
            faults.append(f"{entry} was asked for by {asked}")
        elif json.loads(entry.request) != json.loads(recorded_text(json.dumps(asked.line))):
            faults.append(f"{entry} is not what was asked for: {asked}")
        elif asked.is_answered and entry.answer.encode() != asked.answer:
            faults.append(f"{entry} has another answer than {asked}")
        elif entry.reason in recorded:
            faults.append(f"{entry} is recorded once more: {asked}")
        recorded.add(entry.reason)
    return faults


def faults_of(cluster, judge):
    """What is wrong with the records of a cluster whose nodes have ended, when a judge has compared its log with the answers."""
    parts = [parts_of(cluster.data(f"node{i}")) for i in range(MACHINES)]
    entries, faults = joined([[entry for _, found in one for entry in found] for one in parts], map(entries_of, cluster.copies))
    wanted = [(revision, place, line) for revision, lines, _ in judge.entries for place, line in enumerate(lines)]
    last, missing = entries[-1].n if entries else 0, len(wanted) + 1 - len(entries) if wanted else 0
    print(f"{len(wanted):9,}  commands in the log since the records began, which end at entry {last:,}: {missing:,} are in none", flush=True)
    if last != (len(wanted) + 1 if wanted else 0):
        faults.append(f"the records end at entry {last}, and the log has {len(wanted)} commands since they began")
    faults += unlike(entries, wanted, judge)
    for i, found in enumerate(parts):
        faults += [f"node {i}: {fault}" for fault in lacking(found, log_of(cluster, i))]
        status, out, said = tool(cluster.node, "verify", "--data", cluster.data(f"node{i}"))
        if (status, said) not in ((0, ""), (2, MISSING)) and wanted:
            faults.append(f"verify of node {i}: {out}{said}")
    return faults[:20]


class Asker:
    """Sends random commands to all nodes, as several callers and for several reasons, and keeps what was answered."""

    def __init__(self, cluster, seed):
        self.cluster, self.random = cluster, random.Random(seed)
        self.answered, self.number = [], 0

    def drawn(self):
        pick = self.random.choice
        user, role, session = pick("abcdef"), pick("rstuv"), pick(SECRETS)
        return pick([
            {"fn": "addUser", "user": user}, {"fn": "addRole", "role": role}, {"fn": "deleteUser", "user": user},
            {"fn": "assignUser", "user": user, "role": role}, {"fn": "deassignUser", "user": user, "role": role},
            {"fn": "createSession", "user": user, "roles": [], "session": session},
            {"fn": "addActiveRole", "user": user, "session": session, "role": role},
            {"fn": "deleteSession", "user": user, "session": session},
        ])  # fmt: skip

    def send(self, line):
        """Sends a command to any node, as any caller, for a reason of its own. Whether it is answered."""
        self.number += 1
        caller, reason = self.random.choice(sorted(CALLERS)), f"ticket {self.number} \u00e9"
        fields = {**bearer(CALLERS[caller]), "Office-Reason": reason.encode()}
        address = self.cluster.network.address(self.random.randrange(MACHINES), 8080)
        connection = http.client.HTTPConnection(address, timeout=10)
        body = json.dumps({key: value for key, value in line.items() if key != "fn"})
        try:
            connection.request("POST", f"/v1/{line['fn']}", body, fields)
            reply = connection.getresponse()
            text = reply.read().decode()
        except (OSError, http.client.HTTPException):
            return False  # It may be done or not.
        finally:
            connection.close()
        if reply.status in (200, 409):
            self.answered.append((f"token:{caller}", reason, recorded_text(json.dumps(line)), text))
        return reply.status in (200, 409)

    def ask(self, count):
        """Sends random commands until this many are answered."""
        wanted, deadline = len(self.answered) + count, time.monotonic() + 5 * SECONDS
        while len(self.answered) < wanted:
            if time.monotonic() > deadline:
                raise TimeoutError(f"{count} commands are not answered")
            self.send(self.drawn())


def same_head(cluster):
    """Whether the records of all nodes end with the same entry, which is that of the log's last command."""
    heads = {tool(cluster.node, "head", "--data", cluster.data(f"node{i}"))[1] for i in range(MACHINES)}
    if len(heads) > len({head.split(":")[0] for head in heads}):
        raise ValueError(f"the records have different entries of one number: {sorted(heads)}")
    return len(heads) == 1 and cluster.ready() and len({cluster.status(i)["commands"] for i in range(MACHINES)}) == 1


@pytest.mark.seeds()
def check_records(bench, seed, node=None):
    """All nodes have the same record, with callers and reasons, whatever is killed. It is known from where one begins."""
    bench.write("callers.jsonl", rules({f"token:{name}": [(one, "office") for one in ALLOWED] for name in CALLERS}).encode())
    bench.write("tokens", tokens(**CALLERS).encode())
    words = ("--callers", bench.path("callers.jsonl"), "--tokens", bench.path("tokens"), "--etcd-open")
    with Cluster(bench.folder, node or build(bench.shared), every=EVERY, more=words) as cluster:
        asker = Asker(cluster, seed)
        for _ in range(6):
            asker.ask(40)
            cluster.nodes[asker.random.randrange(MACHINES)].send(signal.SIGKILL)
        asker.ask(40)
        cluster.until(lambda: same_head(cluster), "all have the same head")
        judge_same(bench, cluster, asker)
        judge_bounded(bench, cluster)
        judge_shown(bench, cluster)
        judge_cut(bench, cluster, asker)
        judge_backup(bench, cluster, asker)
        judge_joined(bench, cluster, asker)
        judge_written(bench, cluster, asker)
        judge_secret(bench, cluster, asker)


def end_of(name):
    """The body of a request that ends a review."""
    return json.dumps({"review": name, "sha256": "0" * 64, "kept": 1, "removed": 0, "open": 0}, separators=(",", ":"))


def check_reviews(bench):
    """The end of a review at any node is once in the record of each, also if a node reads the log again. It has who has ended it and why,
    changes nothing, and needs the right."""
    allowed = {name: [("addUser", "office"), ("review", "office")][: 2 if name == "boss" else 1] for name in CALLERS}
    bench.write("callers.jsonl", rules({f"token:{name}": rights for name, rights in allowed.items()}).encode())
    bench.write("tokens", tokens(**CALLERS).encode())
    words = ("--callers", bench.path("callers.jsonl"), "--tokens", bench.path("tokens"), "--etcd-open")
    with Cluster(bench.folder, build(bench.shared), every=5, more=words) as cluster:
        nodes, ended = Nodes(cluster).each, []
        desk, boss = bearer(CALLERS["desk"]), bearer(CALLERS["boss"])
        for round_number in range(3):
            for i, node in enumerate(nodes):
                name = f"Q{round_number}{i}"
                bench.same("a command", node.ask("addUser", {"user": name}, **desk)[0], 200)
                bench.same("without the right", node.exchange("POST", "/reviews", end_of(name), **desk)[0], 403)
                status, text = node.exchange("POST", "/reviews", end_of(name), **boss, Office_Reason=f"ticket {name}")
                bench.same(f"the end of {name}", status, 200)
                wanted = ("token:boss", f"ticket {name}", f'{{"record":"reviewed",{end_of(name)[1:]}', '{"ok":true}')
                ended.append((json.loads(text)["value"]["number"], *wanted))
            if round_number == 1:
                cluster.nodes[1].send(signal.SIGKILL)
                cluster.until(lambda: len(registered(cluster)) == MACHINES, "all nodes have snapshots")
                cluster.lose_node(2)
                cluster.heal()
        cluster.until(lambda: same_head(cluster), "all have the same head")
        records = [entries_of(cluster.data(f"node{i}")) for i in range(MACHINES)]
        entries, faults = joined(records)
        bench.judge("the records", faults)
        found = [(entry.n, entry.caller, entry.reason, entry.request, entry.answer) for entry in entries if '"reviewed"' in entry.request]
        bench.same("the ends of reviews", found, ended)
        bench.same("the entries of node 1", records[1], records[0])
        bench.same("how many there are", len(records[0]), 1 + 2 * len(ended))
        for i in range(MACHINES):
            status, _, said = tool(cluster.node, "verify", "--data", cluster.data(f"node{i}"))
            bench.same(f"verify of node {i} says {said}", (status, said) in ((0, ""), (2, MISSING)), True)


def judge_same(bench, cluster, asker):
    """The records have each answered command once, with who has asked, why, and the answer; the model gives the same answers."""
    records = [entries_of(cluster.data(f"node{i}")) for i in range(MACHINES)]
    bench.same("the record of node 1", records[1], records[0])
    bench.same("the record of node 2", records[2], records[0])
    bench.judge("the records", joined(records)[1] + Model().go_on(records[0]))
    given = {entry.reason: (entry.caller, entry.reason, entry.request, entry.answer) for entry in records[0]}
    bench.same("no reason comes twice", len(given), len(records[0]))
    bench.judge("who has asked", [f"{one}: {given.get(one[1])}" for one in asker.answered if given.get(one[1]) != one])
    bench.same("no answer was found later", {entry.found for entry in records[0]}, {0})


def judge_bounded(bench, cluster):
    """Of a long request that is refused each node records the beginning, whichever has got it, and also if it reads the log again."""
    before = len(entries_of(cluster.data("node0")))
    lines = [f'{{"user":"{letter * 60_000}"}}'.encode() for letter in "abc"]
    fields = ["{}: {}".format(*field) for field in bearer(CALLERS["boss"]).items()]
    for i, line in enumerate(lines):
        bench.same("a long name", exchange(cluster, post("addUser", line, *fields), i)[0], 400)
    cluster.nodes[1].send(signal.SIGKILL)
    cluster.until(lambda: same_head(cluster), "all have the same head")
    records = [entries_of(cluster.data(f"node{i}"))[before:] for i in range(MACHINES)]
    bench.same("the entries of node 1", records[1], records[0])
    bench.same("the entries of node 2", records[2], records[0])
    wanted = [f'{{"fn":"addUser",{line.decode()[1:]}' for line in lines]
    given = [json.loads(entry.request) for entry in records[0]]
    sums = [(len(line), hashlib.sha256(line.encode()).hexdigest(), line[:256]) for line in wanted]
    bench.same("what they have", [(one["bytes"], one["sha256"], one["begins"]) for one in given], sums)
    bench.judge("they are short", [entry.request for entry in records[0] if not BOUNDED.match(entry.request) or len(entry.request) > 1024])


def judge_shown(bench, cluster):
    """Each command about a record works on the folder of a node that runs; the head is in its metrics and in its log."""
    data = cluster.data("node0")
    entries = entries_of(data)
    head = f"{entries[-1].n}:{entries[-1].chain}"
    bench.same("head", tool(cluster.node, "head", "--data", data), (0, head + "\n", ""))
    status, out, said = tool(cluster.node, "show", "--data", data, "--caller", "token:boss")
    wanted = [str(entry.n) for entry in entries if entry.caller == "token:boss"]
    bench.same("show", (status, [line.split("\t")[0] for line in out.splitlines()], said), (0, wanted, ""))
    status, out, said = tool(cluster.node, "verify", "--data", data, "--head", head)
    says = f"entries 1 to {entries[-1].n}: the chain holds, and librbac gives the same answers"
    bench.judge("verify", [] if status == 0 and says in out and "the newest snapshot has the rows" in out else [out + said])
    cluster.until(lambda: "rbac_node_record_head{" in cluster.get(0, "/metrics", 8081)[1].decode(), "the head was logged")
    text = cluster.get(0, "/metrics", 8081)[1].decode()
    bench.judge("metrics", [] if "rbac_node_record_failing 0" in text else [text])
    cluster.nodes[0].stop(signal.SIGTERM)
    bench.same("the head is logged", f'"entry":{entries[-1].n},"chain":"{entries[-1].chain}"' in log_of(cluster, 0), True)
    cluster.nodes[0].start()
    cluster.until(cluster.ready, "the node is ready")


def judge_cut(bench, cluster, asker):
    """The record of a node is divided while the others go on. All have the same entries."""
    data = cluster.data("node1")
    says = "rbac-node: a node has the folder: stop it first, or let it divide its record by itself, with --record-part\n"
    bench.same("while it runs", tool(cluster.node, "cut", "--data", data)[::2], (1, says))
    cluster.nodes[1].stop(signal.SIGTERM)
    status, out, said = tool(cluster.node, "cut", "--data", data, "--program", PROGRAM)
    bench.judge("cut", [] if (status, said) == (0, "") and Path(out.strip()).exists() else [f"{status} {out}{said}"])
    asker.ask(5)
    cluster.nodes[1].start()
    cluster.until(lambda: same_head(cluster), "all have the same head")
    bench.same("the files", len(files_of(data)), 2)
    bench.same("the entries", entries_of(data), entries_of(cluster.data("node0")))
    bench.same("verify", tool(cluster.node, "verify", "--data", data)[::2], (0, ""))


def judge_backup(bench, cluster, asker):
    """A backup of a node that runs is complete, whatever is asked meanwhile: what it has is as verify wants it."""
    folder = bench.folder / "backups"
    folder.mkdir()
    asking = threading.Thread(target=asker.ask, args=(2 * EVERY,))
    asking.start()
    for _ in range(4):
        words = [cluster.node, "backup", "--data", cluster.data("node0"), "--program", PROGRAM, folder]
        done = subprocess.run(words, capture_output=True, text=True, check=False)
        bench.same("backup", (done.returncode, done.stderr), (0, ""))
        bench.same("verify of the backup", tool(cluster.node, "verify", "--data", done.stdout.strip())[::2], (0, ""))
    asking.join()
    bench.same("what is there", len(list(folder.iterdir())), 4)


def judge_joined(bench, cluster, asker):
    """A node without its folder has the record of another node, from its first entry on."""
    cluster.until(lambda: asker.ask(EVERY) or cluster.read_log()[1], "the log is trimmed")
    cluster.lose_node(1)
    cluster.until(cluster.ready, "the node is ready")
    asker.ask(5)
    cluster.until(lambda: same_head(cluster), "all have the same head")
    data = cluster.data("node1")
    bench.same("what it has", entries_of(data), entries_of(cluster.data("node0")))
    bench.same("verify", tool(cluster.node, "verify", "--data", data)[::2], (0, ""))


# What is done to the record of a node, whether the links are computed anew, and what the node says then.
WRITTEN = [
    ("an entry is edited", "UPDATE entry SET reason = 'another' WHERE n = 9", False, "the chain breaks at entry 9"),
    ("an entry is left out", "DELETE FROM entry WHERE n = 9", False, "the chain breaks at entry 9"),
    ("the links are computed anew", "UPDATE entry SET caller = 'token:other' WHERE n = 9", True, "is not the one that the snapshot has"),
    ("the end is cut off", "DELETE FROM entry WHERE n > 9", False, "it ends at entry 9"),
]


def write(data, statement, is_anew):
    """Changes the record of a node behind its back, and may compute all links anew. Returns the entries."""
    with closing(sqlite3.connect(f"{data}/record/record.db")) as opened:
        opened.execute(statement)
        before, found = "", []
        for row in opened.execute("SELECT * FROM entry ORDER BY n").fetchall():
            entry = Entry(*row)
            before = link(before, entry) if is_anew else entry.chain
            opened.execute("UPDATE entry SET chain = ? WHERE n = ?", (before, entry.n))
            found.append(entry._replace(chain=before))
        opened.commit()
    return found


def evens(cluster, asker):
    """Whether all nodes have made and registered three snapshots of the same places. If not for a while, it sends commands."""
    deadline = time.monotonic() + 10
    while time.monotonic() < deadline:
        places = list(registered(cluster, made=True).values())
        if len(places) == MACHINES and all(len(one) == 3 and one == places[0] for one in places):
            return True
        time.sleep(0.1)
    asker.ask(EVERY)
    return False


def judge_written(bench, cluster, asker):
    """A node whose record somebody has written does not start, or is outvoted. The others go on."""
    asker.ask(2 * EVERY)
    # If only two nodes have made a snapshot of a place, and they differ, both refuse.
    cluster.until(lambda: evens(cluster, asker), "all have registered snapshots of the same places", 3 * SECONDS)
    cluster.until(lambda: same_head(cluster), "all have the same head")
    data = cluster.data("node2")
    cluster.nodes[2].stop(signal.SIGTERM)
    kept = Path(data, "record/record.db").read_bytes()
    for what, statement, is_anew, says in WRITTEN:
        write(data, statement, is_anew)
        begin = len(log_of(cluster, 2))
        cluster.nodes[2].start()
        cluster.until(lambda begin=begin, says=says: says in log_of(cluster, 2)[begin:], f"{what}: {says}")
        cluster.nodes[2].stop()
        bench.judge(f"{what}: it is not ready", [] if not cluster.status(2).get("ready") else ["it is"])
        Path(data, "record/record.db").write_bytes(kept)
    # Whoever computes all links anew may give the snapshots other names, too.
    entries = {entry.n: entry for entry in write(data, "UPDATE entry SET caller = 'token:other' WHERE n IN (8, 9)", True)}
    for says, path in snapshots_of(cluster, 2).values():
        number = int(says["record"].split(":")[0])
        path.rename(path.with_name(path.name.replace(says["record"], f"{number}:{entries[number].chain}")))
    cluster.nodes[2].start()
    cluster.until(lambda: "differs" in cluster.status(2).get("why", ""), "the node is outvoted")
    asker.cluster.nodes[2].stop()
    for i in range(2):
        cluster.until(lambda i=i: cluster.status(i).get("ready"), f"node {i} goes on")
    cluster.ctl("del", f"{PREFIX}/nodes/n2")
    cluster.lose_node(2)
    cluster.until(cluster.ready, "the node is ready again")
    asker.ask(3)
    cluster.until(lambda: same_head(cluster), "all have the same head")


def judge_secret(bench, cluster, asker):
    """No name of a session is in a record, in what a node logs, or in what a command about a record says."""
    # Random commands may have deleted all sessions: here is one again, whoever has it.
    for line in {"fn": "addUser", "user": "a"}, {"fn": "createSession", "user": "a", "roles": [], "session": SECRETS[0]}:
        cluster.until(lambda line=line: asker.send(line), f"{line} is answered")
    cluster.until(lambda: same_head(cluster), "all have the same head")
    for i in range(MACHINES):
        data = cluster.data(f"node{i}")
        said = "".join(str(tool(cluster.node, *words, "--data", data)) for words in (["show"], ["verify"], ["head"]))
        if i == 0:  # The others have lost their beginnings.
            bench.judge("node 0 has digests", [] if digest(SECRETS[0]) in said else [said[:300]])
        for name in SECRETS:
            found = files_with(f"{data}/record", name) + [name for text in (said, log_of(cluster, i)) if name in text]
            bench.judge(f"node {i} has no name of a session", found)
    folders = [cluster.data("node0/office"), cluster.data("node0/snapshots")]
    found = [file for folder in folders for name in SECRETS for file in files_with(folder, name)]
    bench.judge("the office has some", [] if found else ["the test finds nothing"])
