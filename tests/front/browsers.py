"""A page of a foreign site in Chromium can neither change the office nor read from it."""

import http.server
import os
import subprocess
import threading
import time

import pytest

from .program import HOST, Front

PAGE = """<!doctype html>
<title>foreign</title>
<form id="plain" method="POST" enctype="text/plain" action="{front}/v1/addUser" target="frame">
<input name='{{"user":"form","x":"' value='"}}'></form><iframe name="frame"></iframe>
<script>
const body = JSON.stringify({{user: "fetched"}});
const report = (name, text) => fetch("/said?" + name + "=" + encodeURIComponent(text));
fetch("{front}/v1/addUser", {{method: "POST", body}}).then(reply => reply.text())
    .then(text => report("read", text), () => report("read", "-"));
fetch("{front}/v1/addUser", {{method: "POST", body, mode: "no-cors"}})
    .then(() => report("blind", "sent"), () => report("blind", "-"));
navigator.sendBeacon("{front}/v1/addUser", JSON.stringify({{user: "beacon"}}));
const image = new Image();
image.onerror = () => report("image", "-");
image.src = "{front}/healthz";
document.getElementById("plain").submit();
setTimeout(() => report("done", "yes"), 1500);
</script>
"""


class Site(http.server.BaseHTTPRequestHandler):
    """A foreign site: its page, and what the page reports."""

    def do_GET(self):
        if self.path.startswith("/said?"):
            self.server.said.append(self.path[len("/said?") :])
        text = self.server.page.encode()
        self.send_response(200)
        self.send_header("Content-Type", "text/html")
        self.send_header("Content-Length", str(len(text)))
        self.end_headers()
        self.wfile.write(text)

    def log_message(self, *_):
        pass


def browser_of(bench):
    """The command of a browser without a window."""
    return ["chromium", "--headless=new", "--no-sandbox", "--disable-gpu", "--disable-dev-shm-usage", "--no-first-run",
            f"--user-data-dir={bench.path('profile')}", "--host-resolver-rules=MAP evil.example 127.0.0.1"]  # fmt: skip


@pytest.mark.needs("chromium")
def check_foreign_page(bench):
    """A form, a script, a beacon and an image of a foreign page do nothing, and the page reads nothing."""
    browser = browser_of(bench)
    with Front(bench) as front, http.server.ThreadingHTTPServer((HOST, 0), Site) as site:
        site.said, site.page = [], PAGE.format(front=f"http://{HOST}:{front.port}")
        threading.Thread(target=site.serve_forever, daemon=True).start()
        words = [*browser, f"http://localhost:{site.server_port}/"]
        with open(bench.path("chromium.log"), "wb") as log:
            process = subprocess.Popen(
                words, stdin=subprocess.DEVNULL, stdout=log, stderr=log, env={**os.environ, "HOME": str(bench.folder)}
            )
        deadline = time.monotonic() + 60
        while "done=yes" not in site.said and time.monotonic() < deadline and process.poll() is None:
            time.sleep(0.1)
        process.kill()
        process.wait()
        bench.same("the page has run", "done=yes" in site.said, True)
        bench.same("what it could read", [one for one in site.said if one.startswith("read=")], ["read=-"])
        for user in ("form", "fetched", "beacon"):
            bench.same(f"the user {user}", front.ask("assignedRoles", {"user": user})[0], 409)
        refused = [
            line
            for line in front.exchange("GET", "/metrics")[1].splitlines()
            if line.startswith('rbac_node_refused_total{status="403"}')
        ]
        bench.same("the front has refused some requests", len(refused), 1)
        site.shutdown()


def check_foreign_name(bench):
    """A page of a site that has made its name mean this machine reads nothing from the front."""
    browser = browser_of(bench)
    with Front(bench) as front:
        for name, says in (("evil.example", "ForeignHost"), ("localhost", "ready")):
            words = [*browser, "--dump-dom", f"http://{name}:{front.port}/healthz"]
            done = subprocess.run(
                words, stdin=subprocess.DEVNULL, capture_output=True, text=True, timeout=60, check=False,
                env={**os.environ, "HOME": str(bench.folder)},
            )  # fmt: skip
            bench.same(f"what {name} shows", says in done.stdout, True)
