"""The guards of docs/howto/integrate.md, section 8: each decides by the user, over a front with the policy of the bank."""

import os
import shutil
import subprocess
import sys

import pytest

from front.program import Front
from pages import markdown
from program.bench import SECONDS
from program.offices import Office
from program.web import HOST

from .client import PAGE
from .driving import BUILT, DRIVERS, FRONT, JAVA, JAVAC, ROOT, go_environment
from .users import BANK

# The programs are built and run on the disk: a file system in memory may forbid running them.
ON_DISK = True

SECTION = markdown.section(PAGE, "## 8. Guards")

# Requests, as a path and a user, and the status of the answer to each: 200 if it passes.
REQUESTS = [("/vault", "ann", 200), ("/vault", "erin", 403), ("/vault", "nobody", 503), ("/vault", "", 401), ("/", "", 200)]
ASKED = " ".join(f"{path}={user}" for path, user, _ in REQUESTS)

PYTHON = """
import sys
import rbac_client

office = rbac_client.Client(sys.argv[1])
for request in sys.argv[2:]:
    path, _, user = request.partition("=")
    app = guarded(lambda environ, start: start("200 OK", []) or [], office, lambda environ: user)
    list(app({"PATH_INFO": path}, lambda line, _: print(line[:3])))
"""

GO = """package main

import (
	"fmt"
	"log"
	"net/http"
	"net/http/httptest"
	"os"
	"strings"

	"rbac/clients/go/rbacclient"
)

%s
func main() {
	office, err := rbacclient.New(rbacclient.Config{Addresses: []string{os.Args[1]}})
	if err != nil {
		log.Fatal(err)
	}
	app := http.HandlerFunc(func(http.ResponseWriter, *http.Request) {})
	for _, request := range os.Args[2:] {
		path, user, _ := strings.Cut(request, "=")
		recorder := httptest.NewRecorder()
		handler := guarded(office, app, func(*http.Request) string { return user })
		handler.ServeHTTP(recorder, httptest.NewRequest(http.MethodGet, path, nil))
		fmt.Println(recorder.Code)
	}
}
"""

JAVASCRIPT = """
import { Client } from "rbac-client";

const office = new Client({ addresses: process.argv[2] });
for (const request of process.argv.slice(3)) {
  const [url, name] = request.split("=");
  const answer = { statusCode: 200, setHeader() {}, end() {} };
  await guarded(office, () => name)({ url }, answer, () => {});
  console.log(answer.statusCode);
}
process.exit(0);
"""

JAVA_SOURCE = """import com.sun.net.httpserver.*;
import java.net.HttpURLConnection;
import java.net.InetSocketAddress;
import java.net.URL;
import java.util.function.Function;
import rbac.client.*;

class App {
    %s

    public static void main(String[] arguments) throws Exception {
        var office = Client.of(arguments[0]).build();
        for (var at = 1; at < arguments.length; at++) {
            var parts = arguments[at].split("=", 2);
            var server = HttpServer.create(new InetSocketAddress("127.0.0.1", 0), 0);
            var context = server.createContext("/", exchange -> exchange.sendResponseHeaders(200, -1));
            context.getFilters().add(guarded(office, exchange -> parts[1]));
            server.start();
            var url = new URL("http://127.0.0.1:" + server.getAddress().getPort() + parts[0]);
            System.out.println(((HttpURLConnection) url.openConnection()).getResponseCode());
            server.stop(0);
        }
        System.exit(0);
    }
}
"""


def block(language):
    """The example of the page in a language."""
    (lines,) = markdown.blocks(SECTION, language)
    return "\n".join([*lines, ""])


def in_python(folder):
    (folder / "app.py").write_text(block("python") + PYTHON, encoding="utf-8")
    return [sys.executable, "app.py"], {"PYTHONPATH": str(ROOT / "clients/python")}


def in_go(folder):
    module = (DRIVERS / "go/go.mod").read_text(encoding="utf-8").replace("../../../../clients", str(ROOT / "clients"))
    for name, text in (("main.go", GO % block("go")), ("go.mod", module)):
        (folder / name).write_text(text, encoding="utf-8")
    subprocess.run(["go", "build", "-o", "app", "."], cwd=folder, env=go_environment(), timeout=600, check=True)
    return ["./app"], {}


def in_javascript(folder):
    (folder / "app.mjs").write_text(block("javascript") + JAVASCRIPT, encoding="utf-8")
    (folder / "node_modules").mkdir()
    (folder / "node_modules/rbac-client").symlink_to(ROOT / "clients/javascript")
    return ["node", "app.mjs"], {}


def in_java(folder):
    (folder / "App.java").write_text(JAVA_SOURCE % block("java"), encoding="utf-8")
    classes = f"{os.environ[BUILT]}/java:."
    subprocess.run([*JAVAC, "-cp", classes, "App.java"], cwd=folder, timeout=600, check=True)
    return [*JAVA, "-cp", classes, "App"], {}


@pytest.mark.needs(*FRONT)
@pytest.mark.parametrize(
    "prepare",
    [
        in_python,
        pytest.param(in_go, marks=pytest.mark.needs("go")),
        pytest.param(in_javascript, marks=pytest.mark.needs("node")),
        pytest.param(in_java, marks=pytest.mark.needs("javac")),
    ],
)
def check_guards(bench, prepare):
    """The example passes what the user may do, and answers the rest with its status."""
    folder = bench.folder.parent / "app"
    folder.mkdir()
    Office(bench).replay(BANK)
    with Front(bench) as front:
        command, more = prepare(folder)
        done = subprocess.run(
            [*command, f"http://{HOST}:{front.port}", *ASKED.split()],
            cwd=folder,
            env={**os.environ, **more},
            capture_output=True,
            text=True,
            timeout=SECONDS,
            check=False,
        )
    shutil.rmtree(folder)
    wanted = "".join(f"{status}\n" for *_, status in REQUESTS)
    bench.same(f"what it answers: {done.stderr[-2000:]}", (done.returncode, done.stdout), (0, wanted))
