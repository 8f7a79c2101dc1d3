"""Who asks: by tokens, certificates, JWTs and sockets, each with what is to be refused; files that are read again by SIGHUP."""

import base64
import hashlib
import http.client
import json
import os
import re
import signal
import ssl
import subprocess
import time

import pytest

from pages import markdown
from program.bench import PROGRAM as RBAC
from program.bench import TESTS

from .program import HOST, Front, over_tls, refused_start, until
from .recorded import digest
from .sources import keys_of_functions

# Makes two authorities of the same name, and certificates: CN by the first name, and what is wrong by the second.
CERTIFICATES = r"""
set -e
ec='-newkey ec -pkeyopt ec_paramgen_curve:P-256 -nodes'
for name in ca other; do
    openssl req -x509 $ec -keyout $name.key -out $name.crt -subj /CN=ca -days 2
done
make() { # NAME AUTHORITY SUBJECT EXTENSIONS DAYS
    openssl req $ec -keyout $1.key -out $1.csr -subj "$3"
    printf "$4" > ext
    openssl x509 -req -in $1.csr -CA $2.crt -CAkey $2.key -CAcreateserial -out $1.crt $5 -extfile ext
}
both='extendedKeyUsage=serverAuth,clientAuth\n'
make server ca /CN=rbac "subjectAltName=IP:127.0.0.1\n$both" '-days 2'
make shop ca /CN=shop "$both" '-days 2'
make twice ca /CN=shop/CN=desk "$both" '-days 2'
make nameless ca /O=shop "$both" '-days 2'
make serving ca /CN=shop 'extendedKeyUsage=serverAuth\n' '-days 2'
make foreign other /CN=shop "$both" '-days 2'
openssl req -x509 $ec -keyout own.key -out own.crt -subj /CN=shop -days 2
make expired ca /CN=shop "$both" '-days 0'
make longest ca /CN=$(printf '%059d' 0) "$both" '-days 2'
make longer ca /CN=$(printf '%060d' 0) "$both" '-days 2'
"""

# The operations that are no functions.
OTHERS = ["decideByUser", "lists", "metrics", "record", "reports", "review", "snapshot", "watch", "whatIf"]

# Whom the callers' office of these checks lets do what: the caller, and pairs of a function and a scope.
RIGHTS = {
    "token:desk": [("assignUser", "role clerk"), ("assignedRoles", "office")],
    "token:admin": [("addUser", "office"), ("addRole", "office"), ("assignUser", "office"), ("metrics", "office")],
    "cert:shop": [("assignedRoles", "user ann")],
    "oidc:shop": [("assignedRoles", "user ann")],
    f"unix:{os.getuid()}": [("assignedRoles", "user ann")],
}


def rules(rights):
    """The lines of a file of callers by whom each caller has a role of its own."""
    lines, objects, permissions = [], set(), set()
    for caller, pairs in rights.items():
        lines += [("addUser", {"user": caller}), ("addRole", {"role": caller}), ("assignUser", {"user": caller, "role": caller})]
        for function, scope in pairs:
            if scope not in objects:
                lines.append(("addPermObj", {"object": scope}))
            if (function, scope) not in permissions:
                lines.append(("addPermission", {"object": scope, "operation": function}))
            objects.add(scope)
            permissions.add((function, scope))
            lines.append(("grantPermission", {"object": scope, "operation": function, "role": caller}))
    return "".join(json.dumps({"fn": function, **values}) + "\n" for function, values in lines)


def tokens(**names):
    """The file of these tokens, by their names."""
    return "".join(f"{hashlib.sha256(token.encode()).hexdigest()} {name}\n" for name, token in names.items())


def secured(bench, *more, rights=RIGHTS, **front):
    """A front with callers."""
    bench.write("callers.jsonl", rules(rights).encode())
    bench.write("tokens", tokens(desk="secret", admin="another").encode())
    return Front(bench, "--callers", bench.path("callers.jsonl"), "--tokens", bench.path("tokens"), *more, **front)


def bearer(token):
    return {"Authorization": f"Bearer {token}"}


def openssl(bench, script, text=None):
    """Runs a script that uses openssl, in the folder of a bench."""
    done = subprocess.run(["sh", "-c", script], cwd=bench.folder, input=text, capture_output=True, check=False)
    if done.returncode != 0:
        raise RuntimeError(done.stderr[-2000:])
    return done.stdout


def check_tokens(bench):
    """A token is known only as a whole, and does what its caller may do; what is refused is in a file of its own."""
    ann = {"user": "ann"}
    with secured(bench) as front:
        for function, arguments in [("addUser", ann), ("addRole", {"role": "clerk"}), ("addRole", {"role": "boss"})]:
            bench.same(f"admin: {function}", front.ask(function, arguments, **bearer("another")), (200, '{"ok":true}'))
        for what, fields, status in [
            ("the token", bearer("secret"), 200),
            ("a prefix of it", bearer("secre"), 401),
            ("the token and more", bearer("secrets"), 401),
            ("its sum", bearer(hashlib.sha256(b"secret").hexdigest()), 401),
            ("another scheme", {"Authorization": "Basic secret"}, 401),
            ("nothing", {}, 401),
        ]:
            bench.same(what, front.ask("assignedRoles", ann, **fields)[0], status)
        for role, status in [("clerk", 200), ("boss", 403)]:
            given = front.ask("assignUser", {"user": "ann", "role": role}, **bearer("secret"))
            bench.same(f"desk: {role}", given[0], status)
        given = front.ask("createSession", {"user": "ann", "roles": ["boss"], "session": "secret name"}, **bearer("secret"))
        bench.same("desk: a session", given[0], 403)
        lines = f'{json.dumps({"fn": "assignUser", "user": "ann", "role": "clerk"})}\n{json.dumps({"fn": "deleteUser", "user": "ann"})}\n'
        given = front.exchange("POST", "/v1/batch", lines, Office_Reason="ticket 7", **bearer("secret"))
        bench.same("desk: a batch", given[0], 403)
        odd = b'{"user":"ann","role":"boss","ROLE":"clerk","Role":"clerk"}'
        bench.same("ROLE for role", front.ask("assignUser", odd, **bearer("secret"))[0], 403)
        bench.same(
            "the role is not assigned", front.ask("assignedRoles", ann, **bearer("secret"))[1], '{"ok":true,"value":["clerk"]}'
        )
        bench.same("health needs no identity", front.exchange("GET", "/healthz"), (200, '{"ready":true}\n'))
        for token, status in [("secret", 403), ("another", 200)]:
            bench.same(f"metrics with {token}", front.exchange("GET", "/metrics", **bearer(token))[0], status)
        bench.same("metrics without identity", front.exchange("GET", "/metrics")[0], 401)
        front.exchange("POST", "/v1/addUser?x=%0A%22", "{}", **bearer("x\x7f"))
    known, unknown = refusals(front)
    bench.same("callers in their file", ({line["caller"] for line in known}, {line["status"] for line in known}), ({"token:desk"}, {403}))
    bench.same("others in theirs", ({line.get("caller", "") for line in unknown}, {line["status"] for line in unknown}), ({""}, {401}))
    asked = [line.get("asked") for line in known]
    for what, wanted in {
        "an assignment": {"function": "assignUser", "user": "ann", "role": "boss"},
        "a session": {"function": "createSession", "user": "ann", "roles": ["boss"], "session": digest("secret name")},
        "the line of a batch, and why": {"function": "deleteUser", "user": "ann", "reason": "ticket 7"},
    }.items():
        bench.same(f"what was asked for: {what}", wanted in asked, True)
    lines = known + unknown
    bench.same("what is noted", sorted({line["status"] for line in lines}), [401, 403])
    bench.same("callers in it", sorted({line.get("caller", "") for line in lines}), ["", "token:desk"])
    bench.same("tokens in it", "secre" in str(lines), False)


def refusals(front):
    """What is noted of refused requests of callers, and of others."""
    found = []
    for name in (".refused", ".refused.unknown"):
        with open(front.office + name, encoding="utf-8") as file:
            found.append([json.loads(line) for line in file])
    return found


def tls_words(bench):
    return ["--tls-cert", bench.path("server.crt"), "--tls-key", bench.path("server.key"), "--tls-ca", bench.path("ca.crt")]


def outcome(bench, port, name, fields, authority="ca.crt"):
    """The status of a question with a certificate and some fields, or None if there is no connection."""
    try:
        connection = over_tls(bench, port, name, authority)
        try:
            connection.request("POST", "/v1/assignedRoles", '{"user":"ann"}', fields)
            return connection.getresponse().status
        finally:
            connection.close()
    except (OSError, http.client.HTTPException):
        return None


def check_certificates(bench):
    """A certificate of the authority with exactly one name shows who asks; an Authorization field decides alone."""
    openssl(bench, CERTIFICATES)
    with secured(bench, *tls_words(bench)) as front:
        for what, name, fields, status in [
            ("a good one", "shop", {}, 409),
            ("none", "", {}, 401),
            ("one with two names", "twice", {}, 401),
            ("one without a name", "nameless", {}, 401),
            ("one for servers", "serving", {}, None),
            ("another authority of the same name", "foreign", {}, None),
            ("one that signs itself", "own", {}, None),
            ("an expired one", "expired", {}, None),
            ("a name of 64 bytes with its kind", "longest", {}, 403),
            ("a longer one", "longer", {}, 401),
            ("a token", "", bearer("secret"), 409),
            ("a good one and a token", "shop", bearer("secret"), 409),
            ("a good one and a wrong token", "shop", bearer("wrong"), 401),
            ("a good one and an empty field", "shop", {"Authorization": ""}, 401),
        ]:
            bench.same(f"a certificate: {what}", outcome(bench, front.port, name, fields), status)
        bench.same("no TLS", front.raw(b"GET /healthz HTTP/1.1\r\nHost: a\r\n\r\n")[:12], b"HTTP/1.0 400")
        bench.same("the version of HTTP", protocol(bench, front.port), (None, b"HTTP/1.1 200"))
        judge_old_tls(bench, front.port)
        # Another authority comes into force on a connection that is kept.
        kept = over_tls(bench, front.port, "shop")
        ask = lambda: front.ask("assignedRoles", {"user": "ann"}, kept)[0]  # noqa: E731
        bench.same("on a kept connection", ask(), 409)
        os.replace(bench.path("ca.crt"), bench.path("ca.old"))
        os.link(bench.path("other.crt"), bench.path("ca.crt"))
        reload(front, "the callers are in force")
        bench.same("after another authority is in force", ask(), 401)
        kept.close()
        bench.same("a certificate of the new one", outcome(bench, front.port, "foreign", {}, "ca.old"), 409)
        bench.same("a certificate of the old one", outcome(bench, front.port, "shop", {}, "ca.old"), None)


def protocol(bench, port):
    """What a client that would rather speak HTTP/2 is told, and the answer to its request of HTTP/1.1."""
    context = ssl.create_default_context(cafile=bench.path("ca.crt"))
    context.set_alpn_protocols(["h2"])
    connection = http.client.HTTPSConnection(HOST, port, timeout=20, context=context)
    try:
        connection.connect()
    except ssl.SSLError:
        context.set_alpn_protocols(["h2", "http/1.1"])
        connection = http.client.HTTPSConnection(HOST, port, timeout=20, context=context)
        connection.connect()
        chosen = connection.sock.selected_alpn_protocol()
        connection.sock.sendall(b"GET /healthz HTTP/1.1\r\nHost: a\r\n\r\n")
        said = connection.sock.recv(12)
        connection.close()
        return (None if chosen == "http/1.1" else chosen), said
    connection.close()
    return "h2", b""


def judge_old_tls(bench, port):
    """Counts whether TLS 1.1 is refused."""
    context = ssl.create_default_context(cafile=bench.path("ca.crt"))
    context.minimum_version = context.maximum_version = ssl.TLSVersion.TLSv1_1
    connection = http.client.HTTPSConnection(HOST, port, timeout=20, context=context)
    try:
        connection.connect()
        bench.same("TLS 1.1", "accepted", "refused")
    except (ssl.SSLError, OSError):
        bench.same("TLS 1.1", "refused", "refused")
    finally:
        connection.close()


def encoded(data):
    return base64.urlsafe_b64encode(data).rstrip(b"=").decode()


def jwt(bench, claims, head=None, key="jwt.key"):
    """A JWT that openssl signs."""
    first = encoded(json.dumps(head or {"alg": "RS256", "kid": "k1"}).encode())
    signed = f"{first}.{encoded(json.dumps(claims).encode())}"
    return f"{signed}.{encoded(openssl(bench, f'openssl dgst -sha256 -sign {key}', signed.encode()))}"


@pytest.mark.needs("openssl")
def check_jwts(bench):
    """A JWT shows who asks; what is wrong with one is tried in Go, and here once with a signature of openssl."""
    openssl(bench, "for key in jwt other; do openssl genrsa -out $key.key 2048; done")
    modulus = openssl(bench, "openssl rsa -in jwt.key -noout -modulus").decode().strip().partition("=")[2]
    keys = {
        "keys": [{"kty": "RSA", "kid": "k1", "use": "sig", "alg": "RS256", "e": "AQAB", "n": encoded(bytes.fromhex(modulus))}]
    }
    bench.write("keys.json", json.dumps(keys).encode())
    words = ["--oidc-keys", bench.path("keys.json"), "--oidc-issuer", "https://id.example", "--oidc-audience", "rbac"]
    good = {"iss": "https://id.example", "aud": "rbac", "sub": "shop", "exp": int(time.time()) + 600}
    public = openssl(bench, "openssl rsa -in jwt.key -pubout")
    forged = f"{encoded(json.dumps({'alg': 'HS256', 'kid': 'k1'}).encode())}.{encoded(json.dumps(good).encode())}"
    mac = openssl(bench, f"openssl dgst -sha256 -mac HMAC -macopt hexkey:{public.hex()} -binary", forged.encode())
    with secured(bench, *words) as front:
        for what, token, status in [
            ("a good one", jwt(bench, good), 409),
            ("another subject", jwt(bench, {**good, "sub": "desk"}), 403),
            ("a subject with another kind in it", jwt(bench, {**good, "sub": "token:admin"}), 403),
            ("expired", jwt(bench, {**good, "exp": int(time.time()) - 1}), 401),
            ("without exp", jwt(bench, {name: value for name, value in good.items() if name != "exp"}), 401),
            ("not yet valid", jwt(bench, {**good, "nbf": int(time.time()) + 600}), 401),
            ("another issuer", jwt(bench, {**good, "iss": "https://evil.example"}), 401),
            ("another audience", jwt(bench, {**good, "aud": ["other"]}), 401),
            ("another key", jwt(bench, good, key="other.key"), 401),
            ("an unknown kid", jwt(bench, good, {"alg": "RS256", "kid": "k2"}), 401),
            ("crit", jwt(bench, good, {"alg": "RS256", "kid": "k1", "crit": ["exp"]}), 401),
            ("none", f"{encoded(json.dumps({'alg': 'none', 'kid': 'k1'}).encode())}.{encoded(json.dumps(good).encode())}.", 401),
            ("HS256 with the public key", f"{forged}.{encoded(mac)}", 401),
            ("over 8 kB", jwt(bench, {**good, "x": "x" * 6_200}), 401),
            ("almost 8 kB", jwt(bench, {**good, "x": "x" * 5_500}), 409),
            ("a space behind the head", jwt(bench, good).replace(".", ". ", 1), 401),
            ("a space in the signature", jwt(bench, good)[:-9] + " " + jwt(bench, good)[-9:], 401),
            ("a tab at the end", jwt(bench, good) + "\t.", 401),
            ("a name of 64 bytes with its kind", jwt(bench, {**good, "sub": "x" * 59}), 403),
            ("a longer one", jwt(bench, {**good, "sub": "x" * 60}), 401),
        ]:
            bench.same(f"a JWT: {what}", front.ask("assignedRoles", {"user": "ann"}, **bearer(token))[0], status)


def check_without_identity(bench):
    """What is answered to somebody who doesn't show who asks is what callers.md names, and nothing else."""
    with secured(bench, "--public-url", "https://office.example", rights={"token:admin": [("reports", "office")]}) as front:
        ticket = json.loads(front.exchange("POST", "/reports/room", "", **bearer("another"))[1])["value"]["ticket"]
        for method, path, status in [
            ("GET", "/healthz", 200), ("GET", "/console/", 200), ("GET", "/", 301), ("GET", f"/reports/{ticket}", 200),
            ("GET", f"/reports/{ticket}", 404), ("GET", f"/reports/{'0' * 64}", 404), ("GET", "/.well-known/authzen-configuration", 200),
            ("OPTIONS", "*", 200), ("POST", "/access/v1/evaluation", 401), ("POST", "/access/v1/evaluations", 401), ("GET", "/metrics", 401),
            ("HEAD", "/metrics", 401), ("POST", "/reports/room", 401), ("GET", "/lists/users", 401), ("GET", "/nothing", 401),
            ("POST", "/v1/checkAccess", 401), ("POST", "/decide", 401), ("GET", "/watch", 401), ("GET", "/record", 401),
        ]:  # fmt: skip
            bench.same(f"{method} {path[:24]}", front.exchange(method, path)[0], status)
        (said,) = re.findall(r"- \*\*Requests without identity\*\* (.*?)All others get 401", markdown.in_one_line(markdown.page("howto/callers.md")))
        for words in ("/healthz", "/console/", "`/` leads (301)", "/reports/TICKET", "/.well-known/authzen-configuration", "OPTIONS *"):
            bench.same(f"the page names {words}", words in said, True)
        old = front.raw(b"POST /v1/addUser HTTP/1.0\r\nTransfer-Encoding: chunked\r\n\r\n0\r\n\r\nGET /healthz HTTP/1.1\r\nHost: a\r\n\r\n")
        bench.same("a coding in HTTP/1.0", (old[:12], old.count(b"HTTP/1")), (b"HTTP/1.0 401", 1))


def check_sockets(bench):
    """The user of the other end of a socket is a caller; the socket is for the user and the group of the front."""
    path = bench.path("run/socket")
    with secured(bench, listen=f"unix:{path}") as front:
        bench.same("a question", front.ask("assignedRoles", {"user": "ann"})[0], 409)
        bench.same("another question", front.ask("assignedRoles", {"user": "bob"})[0], 403)
        bench.same("a wrong token", front.ask("assignedRoles", {"user": "ann"}, **bearer("wrong"))[0], 401)
        bench.same("the mode of the socket", oct(os.stat(path).st_mode), "0o140660")
        bench.same("the mode of its folder", oct(os.stat(os.path.dirname(path)).st_mode), "0o40750")
        if os.geteuid() == 0 and os.path.exists("/usr/bin/setpriv"):
            os.chmod(bench.folder, 0o755)
            os.chmod(bench.folder.parent, 0o755)
            os.chmod(os.path.dirname(path), 0o755)
            command = ["setpriv", "--reuid=65534", "--regid=0", "--clear-groups", "curl", "-s", "-o", "/dev/null",
                       "-w", "%{http_code}", "--unix-socket", path, "-d", '{"user":"ann"}', "http://localhost/v1/assignedRoles"]  # fmt: skip
            given = subprocess.run(command, capture_output=True, text=True, check=False).stdout
            bench.same("nobody", given, "401")
        bench.same("the end", front.end(), 0)
    bench.same("the socket is gone", os.path.exists(path), False)


def reload(front, says):
    """Sends SIGHUP, and waits until the front has said this once more."""
    before = front.said().count(says)
    front.process.send_signal(signal.SIGHUP)
    until(lambda: front.said().count(says) > before, says, lambda: front.said()[-1000:])


def check_reload(bench):
    """SIGHUP puts all files in force together, or none if one has a bad line; no request is refused or lost meanwhile."""
    with secured(bench) as front:
        desk = lambda role: front.ask("assignUser", {"user": "ann", "role": role}, **bearer("secret"))[0]  # noqa: E731
        since = lambda: metric(front, "rbac_node_callers_refused_timestamp_seconds")  # noqa: E731
        bench.same("before", (desk("clerk"), desk("boss"), since()), (409, 403, 0))
        changed = {**RIGHTS, "token:desk": [("assignUser", "role boss")]}
        bench.write("callers.jsonl", (rules(changed) + '{"fn":"fly"}\n').encode())
        bench.write("tokens", tokens(desk="new", admin="another").encode())
        start = time.time()
        reload(front, "the callers are refused")
        bench.same("after a bad line", (desk("clerk"), desk("boss")), (409, 403))
        bench.same("the metric says since when", start <= since() <= time.time(), True)
        words = [
            "callers",
            "--check",
            "--callers",
            bench.path("callers.jsonl"),
            "--tokens",
            bench.path("tokens"),
            *program_words(front),
        ]
        status, _, said = refused_start(*words)
        bench.same("what --check says", (status, "UnknownFunction" in said, said.count("\n")), (1, True, 1))
        bench.write("callers.jsonl", rules(changed).encode())
        bench.same("what --check says of good files", refused_start(*words), (0, "", ""))
        reload(front, "the callers are in force")
        bench.same("the old token", desk("boss"), 401)
        desk = lambda role: front.ask("assignUser", {"user": "ann", "role": role}, **bearer("new"))[0]  # noqa: E731
        bench.same("after a good file", (desk("clerk"), desk("boss"), since()), (403, 409, 0))
        judge_gapless(bench, front)


def program_words(front):
    words = front.words()
    return words[words.index("--program") : words.index("--program") + 2]


def metric(front, name):
    """The value of a metric without labels."""
    for line in front.exchange("GET", "/metrics", **bearer("another"))[1].splitlines():
        if line.startswith(name + " "):
            return float(line.split()[1])
    return None


def judge_gapless(bench, front):
    """Counts whether requests are answered while files are read again, and never by the earlier callers after the log says so."""
    faults = []
    kept = front.connection()
    for round_number in range(8):
        may = round_number % 2 == 0
        right = [("assignUser", "role clerk")] if may else [("assignUser", "role boss")]
        bench.write("callers.jsonl", rules({**RIGHTS, "token:desk": right}).encode())
        before = front.said().count("the callers are in force")
        front.process.send_signal(signal.SIGHUP)
        while True:
            is_in_force = front.said().count("the callers are in force") > before
            given = front.ask("assignUser", {"user": "ann", "role": "clerk"}, kept, **bearer("new"))[0]
            if given not in (403, 409):
                faults.append(f"status {given}")
            if is_in_force:
                if given != (409 if may else 403):
                    faults.append(f"round {round_number}: {given} after the callers are in force")
                break
    kept.close()
    bench.judge("requests while files are read again", faults)


def check_example(bench):
    """The example is accepted, and `callers FILE` prints who may do what by it."""
    path = str(TESTS.parent / "examples/callers/callers.jsonl")
    status, printed, said = refused_start("callers", "--program", RBAC, path)
    bench.same("its status", (status, said), (0, ""))
    rows = [line.split("\t") for line in printed.splitlines()]
    bench.same("each line has a caller, a scope and functions", {len(row) for row in rows}, {3})
    callers = {row[0] for row in rows}
    kinds = {caller.partition(":")[0] for caller in callers}
    bench.same("kinds of callers", kinds, {"token", "cert", "oidc", "unix"})
    desk = [row[1] for row in rows if "assignUser" in row[2].split() and row[1] != "office"]
    bench.same("somebody may assign some roles only", len(desk) > 0, True)


def check_installed(bench):
    """What is installed lets root do everything and names nobody else: neither a person nor a program of an example."""
    path = TESTS.parent / "deploy/callers.jsonl"
    status, printed, said = refused_start("callers", "--program", RBAC, str(path))
    bench.same("its status", (status, said), (0, ""))
    callers = [line.split("\t") for line in printed.splitlines()]
    bench.same("the callers and their scopes", [row[:2] for row in callers], [["unix:0", "office"]])
    everything = {*keys_of_functions(), *OTHERS}
    bench.same("what root may do", sorted(callers[0][2].split()), sorted(everything))
    named = {value["user"] for value in map(json.loads, path.read_text(encoding="utf-8").splitlines()) if "user" in value}
    bench.same("the users in it", named, {"unix:0"})
    for other in sorted((TESTS.parent / "deploy").rglob("*")):
        if other.is_file():
            bench.same(f"people in {other.name}", re.findall(rb"[\w.]+@example\.\w+", other.read_bytes()), [])
