"""Policies of Casbin: models of roles without domains, with exact comparisons."""

import configparser
import csv
import re
from pathlib import Path

from .imported import Imported, Permission
from .model import Stop, listed, shown

# Casbin follows a chain of roles no further.
_DEEPEST = 10

# The parts of a matcher that an office can judge, without spaces.
_SUBJECTS = ("g(r.sub,p.sub)", "r.sub==p.sub")
_OTHERS = {"r.obj==p.obj", "r.act==p.act"}

_EFFECTS = {
    "some(where(p.eft==allow))": False,
    "some(where(p.eft==allow))&&!some(where(p.eft==deny))": True,
    "priority(p.eft)||deny": True,
}


def from_casbin(model: str, policy: str) -> Imported:
    """Reads a model and its rules. Raises `Stop` for a model that no office can have."""
    found = Imported()
    has_groups, denies = _read_model(model, found)
    rules, groups = _read_rules(policy, found)
    if not has_groups and groups:
        found.leave(f"{len(groups)} lines of g", "the matcher doesn't use them")
        groups = []
    roles = {role for _, role in groups}
    for name, role in groups:
        if name not in roles:
            found.users[name] = False
    # Whoever has a rule of their own and is no role is a user, with a role of that user alone.
    for subject, *_ in rules:
        if subject not in roles:
            found.users[subject] = False
    found.roles |= roles
    found.edges |= {(name, role) for name, role in groups if name in roles}
    found.assignments |= {(name, role) for name, role in groups if name not in roles}
    if found.roles:
        names = listed(found.roles)
        found.leave(f"requests whose subject is a role ({names})", "only users ask an office")
    denied: dict[str, set[Permission]] = {}
    for subject, ob, op, effect in rules:
        if effect == "allow":
            found.grants.add((ob, op, _role_of(found, subject)))
        elif denies:
            denied.setdefault(subject, set()).add((ob, op))
            found.leave(
                f"the rule that denies {shown(op)} on {shown(ob)} to {shown(subject)}", "an office has no rules that deny"
            )
        else:
            found.leave(f"a rule with the effect {shown(effect)}", "this model ignores it")
    reached = _reached(groups, set(found.users))
    found.deny({user: set().union(*(denied.get(name, set()) for name in {user} | reached[user])) for user in found.users})
    return found


def _role_of(found: Imported, subject: str) -> str:
    """The role that has what a subject has."""
    if subject in found.roles:
        return subject
    role = f"of {subject}"
    while role in found.roles and (subject, role) not in found.assignments:
        role = f"of {role}"
    found.roles.add(role)
    found.assignments.add((subject, role))
    return role


def _read_model(path: str, found: Imported) -> tuple[bool, bool]:
    """Whether a model has roles, and whether rules deny."""
    parser = configparser.RawConfigParser(strict=True, delimiters=("=",), comment_prefixes=("#", ";"))
    try:
        parser.read_string(Path(path).read_text(encoding="utf-8").replace("\\\n", " "))
        values = {
            section: {key: re.sub(r"\s+", "", text) for key, text in parser.items(section)} for section in parser.sections()
        }
        request, rule = values["request_definition"]["r"], values["policy_definition"]["p"]
        effect, matcher = values["policy_effect"]["e"], values["matchers"]["m"]
    except OSError as error:
        raise Stop(f"{path}: {error.strerror}") from None
    except (KeyError, configparser.Error, UnicodeDecodeError) as error:
        raise Stop(f"{path}: this is no model of Casbin: {error}") from None
    if request != "sub,obj,act" or rule not in ("sub,obj,act", "sub,obj,act,eft"):
        raise Stop(
            f"{path}: only requests of sub, obj, act and rules of sub, obj, act, eft can be carried over, and not {rule}"
        )
    if effect not in _EFFECTS:
        raise Stop(f"{path}: the effect {effect} can't be carried over: what no rule allows has to be denied")
    groups = values.get("role_definition", {})
    if any(text != "_,_" for text in groups.values()):
        raise Stop(f"{path}: roles in domains can't be carried over")
    has_groups = _judge_matcher(path, matcher, found)
    for name in sorted(groups.keys() - {"g"}):
        found.leave(f"the roles of {name}", "an office has roles of users alone")
    return has_groups, _EFFECTS[effect]


def _judge_matcher(path: str, matcher: str, found: Imported) -> bool:
    """Whether a matcher uses roles. Each of its alternatives but one may be left out: then less is allowed."""
    chosen = None
    for alternative in matcher.split("||"):
        parts = alternative.split("&&")
        subject = next((part for part in parts if part in _SUBJECTS), None)
        if chosen is None and subject is not None and len(parts) == 3 and {*parts} == {subject, *_OTHERS}:
            chosen = subject
        else:
            found.leave(f"the alternative {alternative} of the matcher", "an office compares names alone")
    if chosen is None:
        wanted = "g(r.sub, p.sub) && r.obj == p.obj && r.act == p.act"
        raise Stop(f"{path}: only the matcher {wanted} can be carried over, and not {matcher}")
    return chosen == _SUBJECTS[0]


def _read_rules(path: str, found: Imported) -> tuple[list[tuple[str, str, str, str]], list[tuple[str, str]]]:
    """The rules of a policy, with their effects, and the pairs of its roles."""
    rules, groups = [], []
    try:
        lines = Path(path).read_text(encoding="utf-8").splitlines()
    except OSError as error:
        raise Stop(f"{path}: {error.strerror}") from None
    except UnicodeDecodeError:
        raise Stop(f"{path}: it is not UTF-8") from None
    for number, line in enumerate(lines, 1):
        if not line.strip() or line.strip().startswith("#"):
            continue
        kind, *fields = next(csv.reader([line.strip()], skipinitialspace=True))
        if kind == "p" and len(fields) in (3, 4):
            rules.append((fields[0], fields[1], fields[2], fields[3] if len(fields) == 4 else "allow"))
        elif kind == "g" and len(fields) == 2:
            groups.append((fields[0], fields[1]))
        elif kind in ("p", "g"):
            raise Stop(f"{path}:{number}: a line {kind} with {len(fields)} fields can't be carried over")
        else:
            found.leave(f"line {number} of {path}", f"an office has no lines {shown(kind)}")
    return rules, groups


def _reached(groups: list[tuple[str, str]], users: set[str]) -> dict[str, set[str]]:
    """The roles that each user has. Raises `Stop` if there are chains that Casbin doesn't follow to their ends."""
    direct: dict[str, set[str]] = {}
    for name, role in groups:
        direct.setdefault(name, set()).add(role)
    found = {}
    for user in users:
        reached: set[str] = set()
        ahead = {user}
        depth = 0
        while ahead := {role for name in ahead for role in direct.get(name, ())} - reached:
            depth += 1
            if depth >= _DEEPEST:
                raise Stop(
                    f"the roles of {shown(user)} are nested {_DEEPEST} deep or deeper, where Casbin denies: flatten them first"
                )
            reached |= ahead
        found[user] = reached
    return found
