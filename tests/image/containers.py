"""Containers: podman, and bubblewrap in its place, run what is in the image with a read-only root, as the user of the image."""

import os
import resource
import shutil
import signal
import subprocess
import time
from pathlib import Path

from needs import skip
from program.bench import SECONDS

from .contents import OPTIONS, opened
from .running import IMAGE, VERSION

NAME = f"localhost/rbac-node:{VERSION}"
USER = 10001

# Where podman mounts something in each container.
MADE = ("/etc", "/etc/rbac", "/run", "/tmp", "/var", "/var/lib", "/var/lib/rbac", "/var/tmp")


def hard_limits():
    """The limits of a container. Those of podman are higher than a process may have that may not raise its own."""
    limits = {"nofile": (resource.RLIMIT_NOFILE, 20_000), "nproc": (resource.RLIMIT_NPROC, 4_096)}
    return [f"--ulimit={name}={min(most, resource.getrlimit(limit)[1])}" for name, (limit, most) in limits.items()]


class Podman:
    """Containers of podman, with a store of their own below a folder."""

    how = "podman"

    def __init__(self, folder, runtime):
        self.folder = folder
        store = ["--root", folder / "store", "--runroot", folder / "run", "--tmpdir", folder / "tmp", "--storage-driver", "vfs"]
        self.words = [
            "podman",
            "--log-level",
            "error",
            *store,
            "--cgroup-manager",
            "cgroupfs",
            "--events-backend",
            "file",
            *runtime,
        ]
        self.name = None

    def call(self, *words):
        """Runs a command of podman, and returns how it ended."""
        command = [str(word) for word in [*self.words, *words]]
        return subprocess.run(
            command, stdin=subprocess.DEVNULL, capture_output=True, text=True, timeout=SECONDS * 3, check=False
        )

    def load(self):
        """Loads the image. Returns what went wrong, or nothing."""
        done = self.call("load", "-q", "-i", Path(os.environ[IMAGE]) / "image.tar")
        return "" if done.returncode == 0 else done.stderr

    def options(self, volume, settings, port):
        """What a container gets: a read-only root, a volume, the settings, a port, and no right.

        Only systemd runs health checks by themselves.
        """
        return [
            "--health-interval=disable", *OPTIONS, "--network=slirp4netns", *hard_limits(),
            f"--publish=127.0.0.1:{port}:8443",
            f"--volume={volume}:/var/lib/rbac", f"--volume={settings}:/etc/rbac:ro",
        ]  # fmt: skip

    def try_run(self, volume, settings, port):
        """Runs a container that ends at once. Returns its status and what it printed, without what podman says of systemd."""
        done = self.call("run", "--rm", *self.options(volume, settings, port), NAME)
        return done.returncode, "".join(line for line in done.stderr.splitlines(True) if "systemd" not in line)

    def create(self, volume, settings, port):
        """Starts a container. Returns what went wrong, or nothing."""
        self.name = f"front{port}"
        done = self.call("run", "-d", "--name", self.name, *self.options(volume, settings, port), NAME)
        return done.stderr if done.returncode else ""

    def pid(self):
        """The process of the front, as this machine numbers it."""
        return int(self.call("inspect", "-f", "{{.State.Pid}}", self.name).stdout)

    def stop(self):
        """Ends the front by the signal of the image. Returns its status."""
        self.call("stop", "-t", SECONDS, self.name)
        return int(self.call("inspect", "-f", "{{.State.ExitCode}}", self.name).stdout)

    def start(self):
        """Starts the container again that has ended."""
        return self.call("start", self.name).stderr

    def kill(self):
        """Kills the front."""
        self.call("kill", "-s", "KILL", self.name)
        self.call("wait", self.name)

    def remove(self):
        """Removes the container, and keeps its volume."""
        self.call("rm", "-f", "-t", 0, self.name)

    def is_healthy(self):
        """The status of the health check of the image."""
        return self.call("healthcheck", "run", self.name).returncode == 0

    def changes(self):
        """What has changed in the root, besides the places at which podman mounts something."""
        return [line for line in self.call("diff", self.name).stdout.splitlines() if line.split()[1] not in MADE]

    def close(self):
        """Ends what runs, and removes the store."""
        self.call("rm", "-f", "-a", "-t", 0)
        self.call("rmi", "-f", "-a")


class Bubblewrap:
    """The same for what is in the image, by bubblewrap, in the network of this machine: the port is given to the front."""

    how = "bubblewrap"

    def __init__(self, folder):
        self.folder = folder
        self.root = folder / "root"
        self.config = opened()[1]["config"]
        self.process = self.words = None

    def load(self):
        """Unpacks the layer, as root with its owners."""
        self.root.mkdir()
        words = ["tar", "-x", "-C", self.root]
        done = subprocess.run(words, input=opened()[2].read(), capture_output=True, check=False)
        return done.stderr.decode()

    def command(self, volume, settings, port, *more):
        """What runs the program of the image, or another command in it."""
        program = [*self.config["Entrypoint"], "--listen", f"unix:/tmp/rbac/socket,127.0.0.1:{port}", *self.config["Cmd"]]
        kept = ["--ro-bind", self.root, "/", "--bind", volume, "/var/lib/rbac", "--ro-bind", settings, "/etc/rbac"]
        made = ["--dev", "/dev", "--proc", "/proc", "--bind", self.folder / "socket", "/tmp"]
        user = ["setpriv", f"--reuid={USER}", f"--regid={USER}", "--clear-groups"] if os.geteuid() == 0 else []
        own = ["--unshare-pid", "--unshare-user", "--uid", USER, "--gid", USER, "--die-with-parent"]
        return [str(word) for word in [*user, "bwrap", *own, *kept, *made, *(more or program)]]

    def try_run(self, volume, settings, port):
        """Runs the program, which ends at once. Returns its status and what it printed on standard error."""
        self.make_socket_folder()
        words = self.command(volume, settings, port)
        done = subprocess.run(words, stdin=subprocess.DEVNULL, capture_output=True, text=True, timeout=SECONDS, check=False)
        return done.returncode, done.stderr

    def make_socket_folder(self):
        """A folder in place of a new file system for the socket."""
        folder = self.folder / "socket"
        folder.mkdir(exist_ok=True)
        if os.geteuid() == 0:
            os.chown(folder, USER, USER)

    def create(self, volume, settings, port):
        """Starts the program. Returns what went wrong, or nothing."""
        self.make_socket_folder()
        self.words = self.command(volume, settings, port), self.command(
            volume, settings, port, *self.config["Healthcheck"]["Test"][1:]
        )
        return self.start()

    def start(self):
        """Starts the program again."""
        self.process = subprocess.Popen(self.words[0], stdin=subprocess.DEVNULL, stderr=open(self.folder / "log", "ab"))
        return ""

    def pid(self):
        """The process of the front, a child of bubblewrap's."""
        deadline = time.monotonic() + SECONDS
        while time.monotonic() < deadline:
            for pid in filter(str.isdigit, os.listdir("/proc")):
                try:
                    words = Path(f"/proc/{pid}/cmdline").read_bytes().split(b"\0")
                except OSError:
                    continue
                if words[0] == b"/usr/bin/rbac-node" and self.has_volume(words):
                    return int(pid)
            time.sleep(0.1)
        raise TimeoutError("the front has not started")

    def has_volume(self, words):
        """Whether the command line is that of this front: no other has its port."""
        return any(word.encode() in words for word in self.words[0] if word.startswith("unix:/tmp/rbac/socket,"))

    def stop(self):
        """Ends the front by the signal of the image. Returns its status."""
        os.kill(self.pid(), signal.Signals[self.config["StopSignal"]])
        return self.process.wait(SECONDS)

    def kill(self):
        """Kills the front."""
        os.kill(self.pid(), signal.SIGKILL)
        self.process.wait(SECONDS)

    def remove(self):
        """Ends what still runs."""
        if self.process.poll() is None:
            self.kill()

    def is_healthy(self):
        """The status of the health check of the image."""
        return (
            subprocess.run(
                self.words[1], stdin=subprocess.DEVNULL, capture_output=True, timeout=SECONDS, check=False
            ).returncode
            == 0
        )

    def changes(self):
        """What has changed in the root: nothing can, since it belongs to another user."""
        return []

    def close(self):
        """Nothing is left to end."""


def podman(folder):
    """Returns podman with the image loaded, or None, and why it can't run here."""
    said = ""
    runtimes = [[], *(["--runtime", name] for name in ("crun", "runc") if shutil.which(name))]
    for runtime in runtimes:
        runner = Podman(folder, runtime)
        said = runner.load()
        done = said or runner.call(
            "run", "--rm", "--network=slirp4netns", "--no-healthcheck", *hard_limits(), NAME, "--help"
        )
        if not said and "-office" in done.stdout:
            return runner, ""
        said = said or done.stderr
    return None, said


def bubblewrap(folder):
    """Returns bubblewrap over what is in the image, or None, and why it can't run here."""
    runner = Bubblewrap(folder)
    said = runner.load()
    if not said:
        for name in ("volume", "settings", "socket"):
            (folder / name).mkdir(exist_ok=True)
        words = runner.command(folder / "volume", folder / "settings", 1, "/usr/bin/rbac-node", "serve", "--help")
        done = subprocess.run(words, capture_output=True, text=True, check=False)
        if "-office" in done.stdout:
            return runner, ""
        said = done.stderr
    return None, said


def runner_of(bench):
    """What can run the image here: podman, or else bubblewrap."""
    said = []
    for make in (podman, bubblewrap):
        folder = bench.folder / make.__name__
        folder.mkdir()
        runner, why = make(folder)
        if runner:
            return runner
        said.append(f"{make.__name__}: {' '.join(why.split())[:200]}")
        bench.leave_out("containers", said[-1])
    skip("containers", "; ".join(said))


def shown(status):
    """The status of a process, as /proc has it, by its keys."""
    return {line.partition(":")[0]: line.partition(":")[2].split() for line in status.splitlines()}


def state(pid):
    """As whom a process runs, with which rights, and whether its root is read-only."""
    found = shown(Path(f"/proc/{pid}/status").read_text(encoding="utf-8"))
    mounts = [line.split() for line in Path(f"/proc/{pid}/mountinfo").read_text(encoding="utf-8").splitlines()]
    (root,) = {line[5].split(",")[0] for line in mounts if line[4] == "/"}
    return {"user": set(found["Uid"]), "group": set(found["Gid"]), "rights": int(found["CapEff"][0], 16), "root": root}
