"""What the judge of the records finds in entries that are right, and in wrong ones. It needs no cluster."""

import json

from .histories import COMMAND, Asked
from .judging import Judge
from .records import BEGINS_LATE, Entry, lacking, recorded_text, unlike

LINE = {"fn": "addUser", "user": "ann"}
OK, REFUSED = b'{"ok":true}', b'{"code":1,"error":"UserExists"}'


def asked(number, node, status, answer=b"", revision=0):
    """A request of the client of this number."""
    who = {"caller": f"token:client{number}", "reason": f"{number}-1"}
    return Asked(COMMAND, node, LINE, float(number), number + 0.5, status, answer, revision, **who)


def entry_of(number, one, answer):
    """The entry of a request."""
    return Entry(number, "now", one.caller, one.reason, recorded_text(json.dumps(LINE)), answer.decode(), 0, "")


def check_matching(bench):
    """Requests with the same line that were not answered may be in the log in any order. Each is recorded as it was asked, once."""
    first, second, third = asked(1, 0, 0), asked(2, 0, 503), asked(3, 1, 200, OK, 12)
    line = json.dumps(LINE).encode()
    # The second one came before the first, both of node 0. The third one was answered.
    log = [(10, [line], 0), (12, [line], 1), (14, [line], 0)]
    judge = Judge(log, [[first], [second], [third]])
    judge.judge_places()
    bench.judge("the places of the requests", judge.faults)
    bench.same("the judge can't tell them apart", judge.asked_at[10, 0], first)
    wanted = [(revision, 0, line) for revision, _, _ in log]
    right = [entry_of(2, second, OK), entry_of(3, third, OK), entry_of(4, first, REFUSED)]
    begins = Entry(1, "now", "front", "", '{"record":"begins","rows":""}', OK.decode(), 0, "")
    bench.judge("the records", unlike([begins, *right], wanted, judge))
    bench.judge("the records without their beginning", unlike(right[1:], wanted, judge))
    bench.judge("the records without what came between", unlike([begins, right[0], right[2]], wanted, judge))
    for what, place, entry in (
        ("another caller of one without an answer", 0, right[0]._replace(caller=first.caller)),
        ("no caller of one without an answer", 2, right[2]._replace(caller="")),
        ("another caller of one with an answer", 1, right[1]._replace(caller=first.caller)),
        ("the request of another one", 1, right[1]._replace(caller=first.caller, reason=first.reason)),
        ("a reason that nobody gave", 0, right[0]._replace(reason="another")),
        ("another answer", 1, right[1]._replace(answer=REFUSED.decode())),
        ("another command", 2, right[2]._replace(request='{"fn":"addUser","user":"bob"}')),
        ("the same one twice", 2, right[0]._replace(n=4)),
        ("another number", 2, right[2]._replace(n=5)),
        ("a beginning in the middle", 1, begins._replace(n=3)),
    ):
        wrong = [*right[:place], entry, *right[place + 1 :]]
        bench.same(f"{what}: how many faults", len(unlike(wrong, wanted, judge)), 1)


def check_lacking(bench):
    """What a node lacks of its record is right only before a file that it has begun with a snapshot, as its log says."""
    part = lambda first, last: (first, [entry_of(n, asked(1, 0, 200), OK) for n in range(first, last + 1)])  # noqa: E731
    log = f'{{"time":"now","msg":"another line"}}\n{{"msg":"{BEGINS_LATE}","first":6}}\n'
    for what, parts, log_has, is_right in [
        ("one file", [part(1, 9)], "", True),
        ("two files", [part(1, 5), part(6, 9)], "", True),
        ("a file without an entry yet", [part(1, 5), part(6, 5)], "", True),
        ("a late beginning", [part(6, 9)], log, True),
        ("a late beginning that the log doesn't have", [part(6, 9)], "", False),
        ("a late beginning at another entry", [part(7, 9)], log, False),
        ("a snapshot after what was there before", [part(1, 3), part(6, 9)], log, True),
        ("nothing between two files", [part(1, 3), part(6, 9)], "", False),
        ("nothing between two files, at another entry", [part(1, 3), part(5, 9)], log, False),
        ("the same entries in two files", [part(1, 6), part(6, 9)], log, False),
        ("an entry that is left out", [(1, part(1, 4)[1] + part(6, 9)[1])], log, False),
    ]:
        bench.same(what, lacking(parts, log_has) == [], is_right)
