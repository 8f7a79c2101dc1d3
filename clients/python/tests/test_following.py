"""Snapshots and watches are read strictly: what isn't one as the front writes it is none. clients/conformance/watches.json."""

import pytest

import rbac_client

from fake import shared

CASES = shared("watches.json")
HEAD = b"HTTP/1.1 200 OK\r\nContent-Type: text/event-stream\r\nConnection: close\r\n\r\n"


@pytest.mark.parametrize("case", CASES, ids=[case["name"] for case in CASES])
def test_watch(server, case):
    server.answer = HEAD + case["text"].encode()
    watch = rbac_client.Client(server.address).watch(7)
    found = []
    with pytest.raises(rbac_client.Error) as raised:
        for event in watch:
            line = None if event.line is None else event.line.decode()
            found.append([event.number, line] + ([] if event.revision is None else [event.revision]))
    assert found == case.get("events", [])
    # After its events the watch ends, since the connection does.
    assert raised.type is (rbac_client.Unanswered if "events" in case else rbac_client.Unexpected)


GOOD = {"Office-Number": ["7"], "Policy-Revision": ["5"]}


def snapshot(fields, body=b'{"fn":"addUser","user":"ann"}\n'):
    lines = [f"{name}: {value}" for name, values in fields.items() for value in values]
    return "\r\n".join(["HTTP/1.1 200 OK", f"Content-Length: {len(body)}", *lines, "", ""]).encode() + body


def test_snapshot(server):
    server.answer = snapshot(GOOD)
    found = rbac_client.Client(server.address).snapshot()
    assert (found.number, found.revision, found.lines) == (7, 5, [b'{"fn":"addUser","user":"ann"}'])
    server.answer = snapshot({name.lower(): values for name, values in GOOD.items()})
    assert (
        rbac_client.Client(server.address).snapshot().number == 7
    ), "names of fields in small letters, as some proxies write them"


@pytest.mark.parametrize("name", GOOD)
@pytest.mark.parametrize(
    "values", [[], ["-1"], ["+7"], ["1e2"], ["0x7"], ["7.0"], [""], ["7 7"], ["7", "7"], ["7", "8"], ["9" * 19]], ids=str
)
def test_wrong_number(server, name, values):
    server.answer = snapshot({**GOOD, name: values})
    with pytest.raises(rbac_client.Unexpected):
        rbac_client.Client(server.address).snapshot()


def test_half_of_a_line(server):
    server.answer = snapshot(GOOD, b'{"fn":"addUser","user":"ann"}')
    with pytest.raises(rbac_client.Unexpected):
        rbac_client.Client(server.address).snapshot()
