#!/usr/bin/env python3
"""bench/clients.py: measures a decision by each client beside the same request made by hand with the language's own library.

    clients.py [FOLDER]

A front without callers answers over kept connections, for the bank of examples/ in a file in FOLDER, or else in TMPDIR. Each line has
the medians of 10,000 decisions in microseconds, by hand and by the client, which take turns. The programs are in clients/. A language
that isn't installed is left out.
"""

import os
import shutil
import subprocess
import sys
import tempfile
import time
import urllib.request
from pathlib import Path

ROOT = Path(__file__).resolve().parent.parent
OWN = ROOT / "bench/clients"
PROGRAM = os.path.abspath(os.environ.get("RBAC_PROGRAM", ROOT / "release/rbac"))


def programs(folder):
    """What is run in each language."""
    yield [sys.executable, OWN / "decide.py"]
    if shutil.which("go"):
        environment = {**os.environ, "GOFLAGS": "-mod=mod", "GOPROXY": "off", "CGO_ENABLED": "0"}
        subprocess.run(["go", "build", "-o", f"{folder}/decide", "."], cwd=OWN / "go", env=environment, check=True)
        yield [f"{folder}/decide"]
    if shutil.which("node"):
        yield ["node", OWN / "decide.mjs"]
    if shutil.which("javac"):
        sources = [*(ROOT / "clients/java/src/main/java/rbac/client").glob("*.java"), OWN / "Decide.java"]
        subprocess.run(["javac", "--release", "11", "-d", f"{folder}/java", *sources], check=True)
        yield ["java", "-cp", f"{folder}/java", "Decide"]


def post(address, function, body):
    """Sends a request, and waits for a front that starts."""
    for _ in range(600):
        try:
            with urllib.request.urlopen(urllib.request.Request(f"{address}/v1/{function}", body.encode())) as reply:
                return reply.read()
        except OSError:
            time.sleep(0.1)
    raise TimeoutError("the front doesn't answer")


def main(words):
    with tempfile.TemporaryDirectory(dir=words[0] if words else None) as folder:
        front, office, address = f"{folder}/rbac-node", f"{folder}/office", "http://127.0.0.1:18081"
        subprocess.run([ROOT / "bin/node", "--build", front], check=True)
        subprocess.run([PROGRAM, "init", office], check=True)
        bank = (ROOT / "examples/bank.jsonl").read_bytes()
        subprocess.run([PROGRAM, "replay", office], input=bank, stdout=subprocess.DEVNULL, check=True)
        adopting = ["--by", "bench", "--reason", "new", "--program", PROGRAM]
        subprocess.run([front, "record", "adopt", "--office", office, *adopting], stdout=subprocess.DEVNULL, check=True)
        serving = [front, "serve", "--office", office, "--program", PROGRAM, "--listen", address.removeprefix("http://")]
        with subprocess.Popen(serving, stderr=subprocess.DEVNULL) as served:
            try:
                post(address, "createSession", '{"user":"ann","roles":["branch manager"],"session":"measured"}')
                environment = {**os.environ, "RBAC": address, "SESSION": "measured", "PYTHONPATH": str(ROOT / "clients/python")}
                for command in programs(folder):
                    subprocess.run(command, env=environment, check=True)
            finally:
                served.terminate()


if __name__ == "__main__":
    main(sys.argv[1:])
