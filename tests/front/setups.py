"""`rbac-node setup`, whose files give a front callers and TLS, and bin/demo."""

import os
import re
import shlex
import shutil
import signal
import subprocess
from pathlib import Path

import pytest

from program.bench import PROGRAM as RBAC
from program.bench import SECONDS, TESTS
from program.web import free_port

from .program import HOST, Asking, Front, over_tls, until
from .running import PROGRAM

OK = '{"ok":true}'
TOKEN = re.compile(r"\b[0-9a-f]{64}\b")


def set_up(bench, *words):
    """The status, and what `rbac-node setup` prints on both outputs."""
    done = subprocess.run([os.environ[PROGRAM], "setup", *words], capture_output=True, text=True, check=False, timeout=SECONDS)
    return done.returncode, done.stdout, done.stderr


def files_of(folder):
    """The files of a folder and what they hold."""
    return {path.name: path.read_bytes() for path in sorted(Path(folder).iterdir())}


def check_full_output(bench):
    """A command whose output can't be written ends with an error, and `setup`, whose tokens nobody has seen, leaves no file."""
    office, folder = bench.path("office"), bench.folder / "etc"
    with Front(bench) as front:
        bench.same("a command", front.ask("addUser", {"user": "ann"}), (200, OK))
        bench.same("the end", front.end(), 0)
    folder.mkdir()
    callers = bench.write("callers", b'{"fn":"addUser","user":"token:a"}\n')
    for words in (
        ["--version"], ["--help"], ["serve", "--help"], ["record", "--help"], ["callers", callers],
        ["record", "head", "--office", office], ["record", "verify", "--office", office, "--program", RBAC],
        ["record", "show", "--office", office], ["backup", "--office", office, "--program", RBAC, str(bench.folder)],
        ["setup", "--folder", str(folder), "--listen", f"{HOST}:1", "bank"],
    ):  # fmt: skip
        with open("/dev/full", "wb") as full:
            done = subprocess.run([os.environ[PROGRAM], *words], stdout=full, stderr=subprocess.PIPE, check=False, timeout=SECONDS)
        lines = done.stderr.decode().splitlines()
        wanted = (1, 1, "no space left on device" in done.stderr.decode())
        bench.same(f"{' '.join(words[:2])}: the status, and one line", (done.returncode, len(lines), True), wanted)
    bench.same("what setup leaves", files_of(folder), {})


def check_setup(bench):
    """The files that it makes give a front with TLS, whose administrator may do everything, and Prometheus nothing but read metrics."""
    folder, listen = bench.folder / "etc", f"{HOST}:{free_port()}"
    folder.mkdir()
    words = ["--folder", str(folder), "--dns", f"localhost,{HOST}", "--listen", listen, "bank"]
    status, said, _ = set_up(bench, *words)
    bench.same("the status", status, 0)
    made = files_of(folder)
    bench.same("the files", set(made), {f"bank.{ending}" for ending in ("callers", "tokens", "key", "crt", "conf")})
    administrator, prometheus = dict.fromkeys(TOKEN.findall(said))
    bench.same("files that have a token", [name for name, text in made.items() if administrator.encode() in text or prometheus.encode() in text], [])
    bench.same("where the console is", f"https://localhost:{listen.rpartition(':')[2]}/console/" in said, True)

    options = shlex.split(re.fullmatch(r'OPTIONS="(.*)"\n', made["bank.conf"].decode())[1])
    ends = {option: options[options.index(option) + 1] for option in ("--session-idle", "--session-age") if option in options}
    bench.same("what ends sessions", ends, {"--session-idle": "8h", "--session-age": "24h"})
    bench.same("it is said", "A session ends after 8h in which nobody uses it, and 24h after it was made." in said, True)
    front = Front(bench, *options[2:], listen=listen)
    front.port = int(listen.rpartition(":")[2])
    front.connection = lambda: over_tls(bench, front.port, authority="etc/bank.crt")
    with front:
        asked = {"Authorization": f"Bearer {administrator}"}
        bench.same("the administrator", front.ask("addUser", {"user": "ann"}, **asked), (200, OK))
        bench.same("the record", front.exchange("GET", "/record", **asked)[0], 200)
        bench.same("nobody", front.ask("addUser", {"user": "bob"})[0], 401)
        asked = {"Authorization": f"Bearer {prometheus}"}
        bench.same("Prometheus, metrics", front.exchange("GET", "/metrics", **asked)[0], 200)
        bench.same("Prometheus, a command", front.ask("addUser", {"user": "bob"}, **asked)[0], 403)
        bench.same("Prometheus, a list", front.exchange("GET", "/lists/users", **asked)[0], 403)

    status, said, errors = set_up(bench, *words)
    bench.same("a second setup", (status, said, f"{folder}/bank.callers exists: nothing was made" in errors), (1, "", True))
    bench.same("the files after it", files_of(folder), made)
    undo = re.search(r"^  (rm .*)$", set_up(bench, *words[:-1], "other")[1], re.M)[1]
    subprocess.run(shlex.split(undo), check=True)
    bench.same("the files after it was undone", files_of(folder), made)
    for wrong in ([], ["a", "b"], ["../a"], ["--csr", "a"], ["--listen", "nowhere", "a"], ["--listen", "0.0.0.0:8443", "a"]):
        status, said, errors = set_up(bench, "--folder", str(folder), *wrong)
        bench.same(f"{wrong}: refused by one line", (status, said, errors.count("\n")), (1, "", 1))
    bench.same("the files after them", files_of(folder), made)


@pytest.mark.needs("openssl")
def check_certificate(bench):
    """The certificate is good for its own names, and whoever trusts it trusts no other certificate that its key has signed."""
    folder = bench.folder / "etc"
    status, said, errors = set_up(bench, "--folder", str(folder), "--dns", "bank.example", "bank")
    bench.same("a folder that isn't there", (status, said, errors.count("\n"), f"there is no folder {folder}: " in errors), (1, "", 1, True))
    folder.mkdir()
    set_up(bench, "--folder", str(folder), "--dns", "bank.example", "bank")
    script = """set -e
    openssl req -newkey ec -pkeyopt ec_paramgen_curve:P-256 -nodes -keyout evil.key -out evil.csr -subj /CN=evil.example
    printf 'subjectAltName=DNS:evil.example\\nextendedKeyUsage=serverAuth\\n' > ext
    openssl x509 -req -in evil.csr -CA bank.crt -CAkey bank.key -CAcreateserial -out evil.crt -days 2 -extfile ext"""
    subprocess.run(["sh", "-c", script], cwd=folder, capture_output=True, check=True)

    def verified(name, host):
        words = ["openssl", "verify", "-CAfile", "bank.crt", "-purpose", "sslserver", "-verify_hostname", host, f"{name}.crt"]
        return subprocess.run(words, cwd=folder, capture_output=True, check=False).returncode == 0

    bench.same("its own name", (verified("bank", "bank.example"), verified("bank", "evil.example")), (True, False))
    bench.same("what its key has signed", verified("evil", "evil.example"), False)


@pytest.mark.needs("root")
def check_group(bench):
    """The group of the front may read what root makes, and nobody else but the certificate."""
    folder = bench.folder / "etc"
    folder.mkdir()
    set_up(bench, "--folder", str(folder), "--dns", "localhost", "--group", "daemon", "bank")
    about = {path.suffix: (path.stat().st_mode & 0o777, path.group()) for path in folder.iterdir()}
    wanted = {suffix: (0o640, "daemon") for suffix in (".callers", ".tokens", ".key", ".conf")} | {".crt": (0o644, "daemon")}
    bench.same("modes and groups", about, wanted)


class Demo(Asking):
    """A demo in a folder of a bench."""

    def __init__(self, bench, port):
        self.folder, self.front, self.log = bench.path("demo"), Front(bench), bench.path("demo.said")
        self.front.port = port
        self.environment = {**os.environ, "RBAC_PROGRAM": RBAC, "RBAC_NODE": os.environ[PROGRAM], "PORT": str(port)}

    def connection(self):
        return self.front.connection()

    def run(self, *words):
        """The status, and what it prints."""
        done = subprocess.run(
            [TESTS.parent / "bin/demo", *words, self.folder], env=self.environment, capture_output=True, text=True, check=False, timeout=SECONDS
        )
        return done.returncode, done.stdout + done.stderr

    def said(self):
        """What it has printed."""
        return Path(self.log).read_text(encoding="utf-8")

    def start(self):
        """Starts it, and returns its process."""
        with open(self.log, "wb") as log:
            return subprocess.Popen([TESTS.parent / "bin/demo", self.folder], env=self.environment, stdin=subprocess.DEVNULL, stdout=log, stderr=log)


def check_demo(bench):
    """It serves the bank's policy and the console at this machine, with the token that it prints. It never writes over what is there."""
    demo = Demo(bench, free_port())
    process = demo.start()

    def is_ready():
        if process.poll() is not None:
            raise RuntimeError(demo.said())
        try:
            return demo.exchange("GET", "/healthz") == (200, '{"ready":true}\n')
        except OSError:
            return False

    until(is_ready, "the demo answers", demo.said)
    (token,) = TOKEN.findall(demo.said())
    asked = {"Authorization": f"Bearer {token}"}
    bench.same("a question", demo.ask("assignedRoles", {"user": "ann"}, **asked), (200, '{"ok":true,"value":["branch manager"]}'))
    bench.same("nobody", demo.ask("assignedRoles", {"user": "ann"})[0], 401)
    connection = demo.connection()
    connection.request("GET", "/")
    reply = connection.getresponse()
    bench.same("the root leads to the console", (reply.status, reply.getheader("Location")), (301, "/console/"))
    connection.close()
    bench.same("the console", demo.exchange("GET", "/console/")[0], 200)
    bench.same("the record", demo.exchange("GET", "/record", **asked)[0], 200)
    bench.same("files that have the token", [path for path in Path(demo.folder).iterdir() if path.is_file() and token.encode() in path.read_bytes()], [])
    status, said = demo.run()
    bench.same("a second demo", (status, f"{demo.folder} exists" in said), (1, True))
    other = Demo(bench, demo.front.port)
    other.folder = bench.path("other")
    status, said = other.run()
    bench.same("a demo at the same port", (status, "bind: address already in use" in said), (1, True))
    bench.same("removed", (other.run("--remove")[0], os.path.exists(other.folder)), (0, False))
    process.send_signal(signal.SIGTERM)
    bench.same("the end", process.wait(SECONDS), 0)
    bench.same("removed", (demo.run("--remove")[0], os.path.exists(demo.folder)), (0, False))
    os.mkdir(demo.folder)
    bench.same("a folder of somebody else", (demo.run("--remove")[0], os.path.exists(demo.folder)), (1, True))
    Path(demo.folder, "bank.conf").touch()
    bench.same("a folder of settings", (demo.run("--remove")[0], os.listdir(demo.folder)), (1, ["bank.conf"]))


@pytest.mark.parametrize("missing", ["go", "python3"])
def check_demo_lacks(bench, missing):
    """On a machine that lacks what the front is built with, one line of the demo says what installs it, and nothing is made."""
    commands = bench.folder / "commands"
    commands.mkdir()
    for name in ("dirname", "readlink", "realpath", "sed"):
        (commands / name).symlink_to(shutil.which(name))
    for name in {"go", "gcc", "python3"} - {missing}:
        (commands / name).symlink_to("/bin/true")
    script, folder = [shutil.which("bash"), TESTS.parent / "bin/demo"], bench.path("demo")
    done = subprocess.run([*script, folder], env={"PATH": str(commands)}, capture_output=True, text=True, timeout=SECONDS, check=False)
    wanted = f"demo: there is no {missing}: bin/setup --build installs what this needs\n"
    bench.same("what it says", (done.returncode, done.stdout, done.stderr, os.path.exists(folder)), (1, "", wanted, False))
