"""What no client may take for a permission, and what it says about it: clients/conformance/wrong_answers.json."""

import re
import traceback

import pytest

import rbac_client

from fake import RIGHT, bytes_of, shared

DATA = shared("wrong_answers.json")
SECRETS = DATA["token"], DATA["session"]


def is_harmless(text):
    """Whether a text is one line of printable ASCII, not long, and has neither the token nor the session's name."""
    return re.fullmatch(r"[\x20-\x7e]{0,400}", text) and not any(secret in text for secret in SECRETS)


@pytest.fixture
def office(server, made):
    return made(server.address, token=DATA["token"], pause=60)


@pytest.mark.parametrize("case", DATA["cases"], ids=[case["name"][:50] for case in DATA["cases"]])
def test_wrong_answer(server, office, case, caplog):
    server.answer = None if case.get("reset") else bytes_of(case["answer"], server.port)
    decision = office.check(DATA["session"], "open", "safe")
    assert (decision.allowed, decision.reason.value, len(server.requests)) == (False, case["reason"], 1)
    assert [record.name for record in caplog.records] == ["rbac_client"]
    for text in caplog.messages[0], decision.detail, repr(decision):
        assert is_harmless(text), text
    with pytest.raises(rbac_client.Error) as raised:
        office.session_roles(DATA["session"])
    assert is_harmless(str(raised.value)) and is_harmless(repr(raised.value)), repr(raised.value)
    shown = "".join(traceback.format_exception(raised.type, raised.value, raised.tb))
    assert not any(secret in shown for secret in SECRETS), shown


def test_right_answer(server, office, caplog):
    server.answer = RIGHT
    assert office.check(DATA["session"], "open", "safe").allowed is True
    assert caplog.records == []
    assert f"Bearer {DATA['token']}".encode() in server.requests[0]


CONNECTIONS = shared("connections.json")


@pytest.mark.parametrize("case", CONNECTIONS, ids=[case["name"] for case in CONNECTIONS])
def test_connection_is_kept(server, made, case):
    """clients/conformance/connections.json."""
    office = made(server.address, pause=60)
    server.keeps, server.answer = True, case["answer"].encode()
    assert office.check("s1", "open", "safe").reason.value == case["reason"]
    server.answer = RIGHT
    assert office.may("s1", "open", "safe") is True
    assert server.connections == (1 if case["keeps"] else 2)
    office.close()
