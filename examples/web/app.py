"""A bank's pages, in Python: whoever is logged in may open the vault or count what is in it, if the office says so.

RBAC has the address of the office, RBAC_TOKEN this application's token, and RBAC_CA the file of the authority, if they are needed.
"""

import hmac
import http.cookies
import os
import secrets
from urllib.parse import parse_qs
from wsgiref.simple_server import make_server

import rbac_client
from rbac_client.middleware import WsgiGuard

NEEDS = {"/vault": ("open", "vault"), "/count": ("count", "vault")}
PASSWORDS = {"ann": "apple", "erin": "elder"}  # An application keeps digests of them, or leaves logins to another server.

office = rbac_client.Client(os.environ["RBAC"], token=os.environ.get("RBAC_TOKEN"), ca=os.environ.get("RBAC_CA"), timeout=5)
sessions = {}  # by the cookie


def cookie(environ):
    """The cookie of a request."""
    found = http.cookies.SimpleCookie(environ.get("HTTP_COOKIE", "")).get("login")
    return found.value if found else ""


def session_name(environ):
    """The name of a request's session, which stays here."""
    session = sessions.get(cookie(environ))
    return session.name if session else None


def pages(environ, start_response):
    """Answers a request that may pass."""
    path, method, status, fields = environ["PATH_INFO"], environ["REQUEST_METHOD"], "200 OK", [("Content-Type", "text/plain")]
    if method == "POST" and path == "/login":
        form = parse_qs(environ["wsgi.input"].read(min(int(environ.get("CONTENT_LENGTH") or 0), 1000)).decode())
        user, password = form.get("user", [""])[0], form.get("password", [""])[0]
        if hmac.compare_digest(PASSWORDS.get(user, secrets.token_hex()).encode(), password.encode()):
            new = secrets.token_urlsafe()
            sessions[new] = office.open_session(user)
            fields.append(("Set-Cookie", f"login={new}; HttpOnly; SameSite=Strict; Path=/"))
        else:
            status = "401 Unauthorized"
    elif method == "POST" and path == "/logout":
        session = sessions.pop(cookie(environ), None)
        if session:
            session.close()
    elif path not in NEEDS:
        status = "404 Not Found"
    start_response(status, fields)
    return [f"{status} {path}\n".encode()]


guarded = WsgiGuard(pages, office, lambda environ: NEEDS.get(environ["PATH_INFO"]), session_name)
with make_server("127.0.0.1", int(os.environ.get("PORT", "0")), guarded) as server:
    print(f"http://127.0.0.1:{server.server_port}", flush=True)
    server.serve_forever()
