"""docs/howto/cluster.md: its commands are run on three machines, which are loopback addresses here."""

import os
import re
import select
import signal
import subprocess
import time

from pages import markdown
from program.bench import PROGRAM, SECONDS

from .running import build

PAGE = markdown.page("howto/cluster.md")

NAMES = "abc"
END = b"\0"


class Machine:
    """A shell on a machine of the page, in a folder of its own."""

    def __init__(self, bench, name, addresses):
        self.name, self.addresses = name, addresses
        self.folder = folder = bench.folder / name
        folder.mkdir()
        (folder / ".curlrc").write_text("silent\n", encoding="ascii")
        programs = bench.folder / "bin"
        self.shell = subprocess.Popen(
            ["sh"], stdin=subprocess.PIPE, stdout=subprocess.PIPE, stderr=subprocess.STDOUT, cwd=folder, start_new_session=True,
            env={**os.environ, "PATH": f"{programs}:{os.environ['PATH']}", "CURL_HOME": str(folder), "NO_PROXY": "*",
                 "ETCDCTL_API": "3", "NAME": name, "ME": addresses[NAMES.index(name)]},
        )  # fmt: skip

    def here(self, text):
        """Returns a text with the addresses of the test in place of the page's."""
        return re.sub(r"10\.0\.0\.([123])", lambda match: self.addresses[int(match[1]) - 1], text)

    def type(self, text):
        """Returns what the shell prints until the typed command has ended."""
        self.shell.stdin.write(f"{self.here(text)}\nprintf '\\0'\n".encode())
        self.shell.stdin.flush()
        said, deadline = b"", time.monotonic() + SECONDS
        while END not in said:
            if not select.select([self.shell.stdout], [], [], deadline - time.monotonic())[0]:
                raise TimeoutError(f"{text} has printed {said} in {SECONDS} seconds{self.logs()}")
            piece = os.read(self.shell.stdout.fileno(), 65_536)
            if not piece:
                raise EOFError(f"the shell has ended with {text}")
            said += piece
        return said.replace(END, b"").decode()

    def logs(self):
        """What the programs of the machine have written last, for the report of a failure."""
        return "".join(f"\n{it.name}:\n{it.read_text(errors='replace')[-2000:]}" for it in sorted(self.folder.glob("*.log")))

    def close(self):
        os.killpg(self.shell.pid, signal.SIGKILL)
        self.shell.wait()
        self.shell.stdin.close()
        self.shell.stdout.close()


def runs(lines):
    """The commands of a block, each with the machine and the lines that it prints."""
    text = "".join(f"{line}\n" for line in lines)
    return re.findall(r"^([abc])\$ (.*)\n((?:(?![abc]\$ ).*\n)*)", text, re.M)


# These wait until a member of etcd and until a node are ready, and print nothing. A node ends if etcd doesn't answer for 5 seconds
# when it starts; systemd starts it again, and a shell doesn't.
MEMBER_READY = "until curl -f http://$ME:2379/health > /dev/null; do sleep 0.1; done"
READY = "until curl -f http://$ME:8080/healthz > /dev/null; do sleep 0.1; done"
# After a restore more commands than there are places of snapshots whose rows nodes compare.
MORE = """for i in $(seq 50); do curl -f http://$ME:8080/v1/addPermObj -d "{\\"object\\":\\"$1 $i\\"}" > /dev/null || echo "$i"; done"""


def check_commands(bench):
    """The commands of the page print what the page shows, from its beginning to its end."""
    programs = bench.folder / "bin"
    programs.mkdir()
    (programs / "rbac").symlink_to(PROGRAM)
    (programs / "rbac-node").symlink_to(build(bench.shared))
    addresses = [f"127.{1 + os.getpid() // 250 % 250}.{1 + os.getpid() % 250}.{number}" for number in (1, 2, 3)]
    machines = {name: Machine(bench, name, addresses) for name in NAMES}
    member, node = ("\n".join(block) for block in markdown.blocks(PAGE, "sh"))

    def everywhere(command):
        for machine in machines.values():
            bench.same(f"what {command} prints", machine.type(command), "")

    def start(command):
        everywhere(command)
        everywhere(READY if command == node else MEMBER_READY)

    try:
        start(member)
        start(node)
        for block in markdown.blocks(PAGE, "console"):
            for name, command, shown in runs(block):
                if "rbac-node adopt" in command:
                    # The page says that b does the same, and that the members are started again.
                    machines["b"].type("kill $MEMBER; wait; mkdir away; mv node etcd away")
                    start(member)
                if "snapshot restore" in command:
                    # The page says that all end, and that each has the file.
                    everywhere("kill $NODE $MEMBER; wait; mkdir older; mv node etcd older; cp ../a/etcd.backup . 2> /dev/null")
                    for other in "bc":
                        bench.same(f"what {command} prints", machines[other].type(command), "")
                bench.same(f"what {command} prints", machines[name].type(command), machines[name].here(shown))
                if command == "mv backup node":
                    start(member)
                if "rbac-node adopt" in command or "del rbac/first" in command:
                    start(node)
                    bench.same("more commands", machines["c"].type(f"set -- {command.split()[0]}; {MORE}"), "")
                    everywhere(READY)
    finally:
        for machine in machines.values():
            machine.close()
