"""Does with the replica in Python what each line of its input says, and prints what came of it. replica/driving.py has the lines."""

import asyncio
import itertools
import json
import logging
import sys
import threading
import time

import rbac_client
from rbac_client.middleware import AsgiGuard
from rbac_client.replica import AsyncReplica, Otherwise, Replica


class Driver:
    """The replica that is driven, its client and its last session."""

    def __init__(self):
        self.client = self.replica = self.session = None

    def open(self, addresses, token, oldest, otherwise, limit, silence, ca):
        self.client = rbac_client.Client(addresses, token=token or None, ca=ca or None)
        self.settings = {"oldest": oldest, "otherwise": Otherwise(otherwise), "wait": limit, "silence": silence}
        self.replica = Replica(self.client, **self.settings)
        return {}

    def ready(self, seconds):
        return {"ready": self.replica.ready(seconds)}

    def check(self, session, operation, object, at_least):
        made = self.replica.check(session, operation, object, at_least)
        if self.replica.may(session, operation, object, at_least) != made.allowed and made.number:
            made = self.replica.check(session, operation, object, at_least)  # The copy may have changed between the two.
            if self.replica.may(session, operation, object, at_least) != made.allowed:
                raise ValueError("may and check differ")
        age = min(made.age, 1e9)
        return {"allowed": bool(made), "reason": made.reason.value, "code": made.code or 0, "age": age, "number": made.number}

    def user(self, user, operation, object):
        made = self.replica.decide_by_user(user, operation, object)
        return {"allowed": bool(made), "reason": made.reason.value, "number": made.number}

    def guarded(self, asked, by_user):
        return {"statuses": asyncio.run(self.statuses(asked, AsgiGuard.by_user if by_user else AsgiGuard))}

    async def statuses(self, asked, guard):
        """The statuses of requests, and at the end how many decisions were counted. The loop goes on while it waits."""
        found = []

        async def application(scope, receive, send):
            await send({"type": "http.response.start", "status": 200})

        async def send(message):
            if "status" in message:
                found.append(message["status"])

        async with AsyncReplica(self.client, **self.settings) as replica:
            await replica.ready(60 if self.settings["oldest"] > 1 else 0.1)
            app = guard(application, replica, lambda scope: scope["need"], lambda scope: scope["holder"])
            for holder, *need in asked:
                await app({"type": "http", "holder": holder, "need": need}, None, send)
            return [*found, sum(replica.counts.values())]

    def status(self):
        status = self.replica.status
        reason = status.reason.value if status.reason else ""
        seen = self.client.policy_revision
        return {"number": status.number, "revision": status.revision, "age": min(status.age, 1e9), "reason": reason, "seen": seen}

    def call(self, user):
        self.client.add_user(user)
        return {"revision": self.client.policy_revision}

    def login(self, user, roles, renews):
        self.session = self.replica.open_session(user, roles, renews)
        return {"name": self.session.name}

    def ask(self, operation, object):
        decision = self.session.check(operation, object)
        return {"reason": decision.reason.value, "name": self.session.name}

    def decide(self, questions, seconds, file):
        """Decides in two threads, a thousand times a second or so in each."""
        found = [[], []]

        def run(own, first):
            end = time.time() + seconds
            for number in itertools.cycle([*range(first, len(questions)), *range(first)]):
                start = time.time()
                if start > end:
                    return
                made = self.replica._decide(*questions[number])
                own.append((start, made.age, made.number, made.reason.value, number))
                time.sleep(0.001)

        threads = [threading.Thread(target=run, args=(own, 7 * at)) for at, own in enumerate(found)]
        for thread in threads:
            thread.start()
        for thread in threads:
            thread.join()
        with open(file, "w", encoding="utf-8") as lines:
            for start, age, *more in found[0] + found[1]:
                lines.write(json.dumps([start, min(age, 1e9), *more]) + "\n")
        return {"count": len(found[0]) + len(found[1])}

    def close(self):
        self.replica.close()
        return self.status()


driver = Driver()
logging.basicConfig(format="%(message)s", level=logging.INFO)
for line in sys.stdin:
    request = json.loads(line)
    try:
        answer = getattr(driver, request.pop("do"))(**request)
    except rbac_client.Error as error:
        answer = {"error": str(error), "reason": error.reason.value}
    print(json.dumps(answer), flush=True)
