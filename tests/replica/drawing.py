"""Random commands that an office accepts one after the other, with the states of the plain model after them."""

import json

from machine.commands import COMMANDS, apply
from machine.drawing import POOLS, Draws
from machine.questions import check_access
from machine.state import Refused, authorized_roles

# How many of the commands are drawn from all functions; the later ones change what decisions depend on.
BUILDING = 500

# What a decision is if the office refuses it, by the code.
REASONS = {26: "ended_session", 6: "unknown_name", 33: "unknown_name"}

QUESTIONS = [(session, op, ob) for session in POOLS["session"] for op in POOLS["operation"][:4] for ob in POOLS["object"][:4]]


class Drawn:
    """Commands as lines, and the states of the model: before the first one, and after each."""

    def __init__(self, seed, count):
        self.draws = Draws(seed)
        self.lines, self.states = [], [self.draws.state]
        while len(self.lines) < min(count, BUILDING):
            _, line, answer = self.draws.draw()
            if answer.startswith(b'{"ok"') and json.loads(line)["fn"] in COMMANDS:
                self.keep(line, self.draws.state)
        while len(self.lines) < count:
            self.draw()

    def keep(self, line, state):
        self.lines.append(line)
        self.states.append(state)

    def draw(self):
        """Draws a command that changes decisions, and keeps it if the office accepts it."""
        random, state = self.draws.random, self.states[-1]
        function, arguments = self.change(random, state)
        if function is None:
            return
        keys = COMMANDS[function][1].split()
        try:
            after, _ = apply(state, function, arguments)
        except Refused:
            return
        values = dict(zip(keys, [list(one) if isinstance(one, (set, frozenset, tuple)) else one for one in arguments]))
        self.keep(json.dumps({"fn": function, **values}).encode(), after)

    def change(self, random, state):
        """A function and its arguments: to add something if it isn't there, or to remove it."""
        one = lambda items: random.choice(sorted(items)) if items else None  # noqa: E731
        kind = random.randrange(10)
        if kind < 4 and state.permissions and state.roles:
            ob, op = one(state.permissions)
            role = one(state.roles)
            return ("revokePermission" if (ob, op, role) in state.grants else "grantPermission"), (ob, op, role)
        if kind < 6 and state.users and state.roles:
            user, role = one(state.users), one(state.roles)
            return ("deassignUser" if (user, role) in state.assignments else "assignUser"), (user, role)
        session = random.choice(POOLS["session"])
        if session in state.sessions:
            user, active = state.sessions[session]
            role = one(authorized_roles(state, user))
            if kind == 9 or role is None:
                return "deleteSession", (user, session)
            return ("dropActiveRole" if role in active else "addActiveRole"), (user, session, role)
        user = one(state.users)
        if user is None:
            return "addUser", (random.choice(POOLS["user"]),)
        roles = sorted(authorized_roles(state, user))
        return "createSession", (user, tuple(random.sample(roles, min(len(roles), 3))), session)


def reason_of(state, question):
    """The reason of the decision that the model makes."""
    try:
        return "allowed" if check_access(state, *question) else "denied"
    except Refused as refused:
        return REASONS[refused.code]
