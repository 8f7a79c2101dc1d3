"""SIGHUP, by which a node reads its callers again, while it starts."""

import signal
import socket
import subprocess
import time

from program.bench import PROGRAM

from .machines import SECONDS
from .running import build


def check_early(bench):
    """It doesn't end a node that waits for etcd. The node ends since etcd doesn't answer, and says so."""
    bench.write("password", b"secret")
    with socket.create_server(("127.0.0.1", 0)) as silent:
        etcd = f"http://127.0.0.1:{silent.getsockname()[1]}"
        words = ["serve", "--etcd", etcd, "--name", "n0", "--data", bench.path("data"), "--program", PROGRAM, "--etcd-user", "rbac",
                 "--etcd-password-file", bench.path("password")]  # fmt: skip
        node = subprocess.Popen([build(bench.shared), *words], stderr=subprocess.PIPE)
        silent.accept()
        for _ in range(3):
            node.send_signal(signal.SIGHUP)
            time.sleep(0.2)
        said = node.communicate(timeout=SECONDS)[1].decode()
    bench.same("its status", node.returncode, 1)
    bench.judge("it says why", [] if "etcd: " in said else [said])
