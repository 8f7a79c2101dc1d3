"""What the definitions have to say of the rows, as lemmas for the checker.

The plain model follows the state from row to row. A row whose answer is expected gets lemmas about the state before it: what its line
asks for; of a command its verdict, and if it is accepted, all sets afterwards; of a question whether it is refused, and its answer; and
what is written for the line, or replied if it is posted. Expected answers are those of the .answers file. Only the sets after a command,
and decisions about users, which no row asks for, are the model's.
"""

import json
import re
from collections import Counter
from dataclasses import dataclass, field

from machine.commands import COMMANDS, apply
from machine.questions import check_user
from machine.requests import LONGEST_LINE, read_request
from machine.state import Refused, State

# The most members of all sets together, the most records of an import, and the most bytes of a line and its answer together.
MOST_MEMBERS, MOST_RECORDS, MOST_BYTES = 24, 1, 400
PLAIN = re.compile(r"[a-z][a-z0-9]*")
# The names that a lemma has of its own: of names of the office, and of states.
OWN = re.compile(r"\b(?:the_[a-z0-9]+|name_\d+|s\d+)\b")
LINE_FEED = b"\n"
# The codes of refusals whose status is 400.
MALFORMED = (1, 34, 36)
PERMISSIONS = ("rolePermissions", "userPermissions", "sessionPermissions")

SESSION = "seconds geq session_roles"
SET_CHANGES = "after changed end_sessions may_go_on authorized_users seconds geq"
VIOLATIONS = "least_violated is_kept_statically is_kept_dynamically cardinality_of"
RECORDS = "assignment_verdict assignment_refusals after_assignment after_record after_import"
ARGUMENTS = (
    "text_at name name_set name_at names_at three_texts_at three_names three_names_at permission_at assignment_at inheritance_at "
    "member_at owned_session_at grant_at activation_at access_at cardinality_at separation_at separation_keys set_cardinality_at roles_at "
    "new_session_at new_session_keys"
)
READING = (
    "json_of is_utf8 chars lib.Utf8.encode json.value lex punctuate content code_unit short_escape word after_number number_of "
    "scan_numeral float_is_finite lib.Ieee.round function_named request_to "
    + " ".join(f"fields.{it}" for it in ARGUMENTS.split())
)
TEXTS = (
    "outcome_of content_verdict refusal_text done_text value_text refusal_data value_data texts_of pairs_of pair_data escape_byte "
    "digits"
)
# Which definitions are computed for a lemma of each kind.
OPENED = {
    "verdict": f"verdict refusals assignment_refusals after_assignment {VIOLATIONS} {SET_CHANGES}",
    "after": SET_CHANGES,
    "imported": f"{RECORDS} {VIOLATIONS} {SET_CHANGES}",
    "refused": "refused questions.refusals",
    "value": f"value has_access {SESSION} authorized_users authorized_roles authorized_permissions assigned_users assigned_roles "
    "user_permissions session_permissions role_operations_on_object user_operations_on_object permission_roles role_sets "
    "cardinality_of firsts",
    "has_access": f"has_access {SESSION}",
    "could_have_access": "could_have_access stands_alone authorized_roles authorized_users seconds geq",
    "stands_alone": "stands_alone seconds geq",
    "request": f"request {READING}",
    "answer": f"answer_to {TEXTS}",
    "output": "output_for lines answers_to fitting asking with_line_feeds",
    "call": f"body_to {READING}",
    "head": "reply_to judged values_of has_field one_length is_length length_of trim_ows function_in part_of function_named is_utf8 chars "
    "lib.Utf8.encode",
    "reply": TEXTS,
}

USES = """\
use Rattle.std.proofs.Common.{◌≡◌, true, false, List, [], ◌∷◌, refl}
use Rattle.std.specs.Prelude.{Some, None, codes, pos, ℕ}
use Rattle.std.specs.declared.vec.Vec.{Vec}
use Rattle.std.specs.declared.alloc.Global.{Global}
use Rattle.rbac_sets.specs.Sets.{Bytes, Pair, firsts, from_list, seconds}
use Rattle.rbac_sets.specs.SortedSet.{Stored}
use Rattle.rbac_sets.specs.declared.command.Command.TheVariants as commands
use Rattle.rbac_sets.specs.declared.refusal.Refusal.TheVariants as reasons
use Rattle.rbac_sets.specs.declared.kind.Kind.TheVariants as kinds
use Rattle.role_order.specs.Order.{geq}
use Rattle.admin_mgr.specs.RbacState.{cardinality_of}
use Rattle.admin_mgr.specs.Authorization.{authorized_users, authorized_roles, authorized_permissions, session_roles, has_access}
use Rattle.admin_mgr.specs.UserAccess.{could_have_access, stands_alone}
use Rattle.admin_mgr.specs.Separation.{is_kept_statically, is_kept_dynamically, least_violated}
use Rattle.admin_mgr.specs.Assignment.{assignment_verdict, assignment_refusals, after_assignment, after_record, after_import}
use Rattle.admin_mgr.specs.Assignment.{end_sessions, may_go_on}
use Rattle.admin_mgr.specs.After.{changed, after}
use Rattle.admin_mgr.specs.Verdict.{refusals, verdict}
use Rattle.review_mgr.specs.declared.query.Query.TheVariants as queries
use Rattle.review_mgr.specs.Questions as questions
use Rattle.review_mgr.specs.Questions.{refused}
use Rattle.review_mgr.specs.Review.{assigned_users, assigned_roles, user_permissions, session_permissions, permission_roles, role_sets}
use Rattle.review_mgr.specs.Review.{role_operations_on_object, user_operations_on_object}
use Rattle.review_mgr.specs.Answering.{value, AccessContent, CountContent, NamesContent, PermissionsContent}
use Rattle.json.specs.Lex.{lex, punctuate}
use Rattle.json.specs.Text.{content, code_unit, short_escape}
use Rattle.json.specs.Word.{word, after_number}
use Rattle.serde_json.specs.Read.{number_of}
use Rattle.std.specs.Float.{float_is_finite}
use Rattle.std.specs.Float.Numeral.{scan_numeral}
use Rattle.json.specs.Print.{escape_byte}
use Rattle.json.specs.Json as json
use Rattle.rbac_sets.specs.CommandContent.{Single, without_room}
use Rattle.admin_mgr.specs.CommandContent.{content_verdict}
use Rattle.role_json.specs.RequestContent.{Change, Ask}
use Rattle.role_json.specs.Fields as fields
use Rattle.role_json.specs.Calls.{request_to}
use Rattle.role_json.specs.Request.{request, json_of, body_to}
use Rattle.role_functions.specs.Function.{function_named}
use Rattle.role_functions.specs.declared.function.Function.TheVariants as functions
use Rattle.httparse.specs.Grammar.{RequestHead, crlf, trim_ows}
use Rattle.role_http.specs.HeadChecks.{has_field, values_of, is_length, one_length, length_of, judged}
use Rattle.role_http.specs.Route.{part_of, function_in}
use Rattle.role_wire.specs.Reply.{Reply, reply_of, reply_to}
use Rattle.role_json.specs.Answer.{refusal_text, done_text, value_text, refusal_data, value_data, texts_of, pairs_of, pair_data}
use Rattle.role_lines.specs.Outcome.{outcome_of, answer_to}
use Rattle.role_wire.specs.Outcome.{answers_to, lines, output_for}
use Rattle.role_wire.specs.Lines.{asking, fitting, with_line_feeds}
use Rattle.std.specs.Prelude.{Ok, Err}
use Rattle.std.specs.Fmt.{digits}
use Rattle.std.specs.Str.{is_utf8, chars}
use Rattle.rows.proofs.Written.{Lists, no_lists, state_of, lists_of, written}

-- a list of roles that is asked for
abbrev asked : List Bytes → Stored Bytes
asked roles = record { in_order = roles; room = 0 }

-- the head of a request that posts to a target as many bytes as these digits say
abbrev posted : List ℕ → List ℕ → RequestHead
posted target digits = record {
  blank = [];
  method = codes "POST";
  target = target;
  minor = 1;
  line_end = crlf;
  fields = (record { name = codes "Content-Length"; raw = 32 ∷ digits; end = crlf }) ∷ [];
  last = crlf;
}

-- the status and the body of a reply
abbrev replied : Reply → ℕ × List ℕ
replied reply = (reply.status, reply.body)

-- the same, read as a set
abbrev asked_as_set : List Bytes → Stored Bytes
asked_as_set roles = without_room (from_list roles)
"""


def parts(state):
    """The sets of a state, by their fields in the record `Lists`."""
    found = {
        it: getattr(state, it)
        for it in ("users", "locked", "roles", "objects", "permissions", "assignments", "grants", "edges")
    }
    found["sessions"] = {(name, user) for name, (user, _) in state.sessions.items()}
    found["active"] = {(name, role) for name, (_, active) in state.sessions.items() for role in active}
    for kind, sets in (("ssd", state.static_sets), ("dsd", state.dynamic_sets)):
        found[f"{kind}_members"] = {(name, role) for name, (roles, _) in sets.items() for role in roles}
        found[f"{kind}_cardinalities"] = {(name, cardinality) for name, (_, cardinality) in sets.items()}
    return found


def key_of(state, *fields):
    """What two states have in common if these sets of them, or all, are equal."""
    return state.version, tuple(
        (it, tuple(sorted(members))) for it, members in parts(state).items() if not fields or it in fields
    )


def capital(text):
    """The text with a capital at the start, as constructors have."""
    return text[0].upper() + text[1:]


def listed(items):
    """The list of these terms."""
    return "".join(f"{it} ∷ " for it in items) + "[]"


def name_text(text):
    """A name as its bytes."""
    if text.isascii() and text.isprintable() and not set(text) & set('"\\'):
        return f'codes "{text}"'
    return listed(text.encode())


def bytes_text(text):
    """The term of these bytes."""
    return f"({listed(text)})"


@dataclass
class Lemma:
    """A lemma: its kind, the number of its row, what it says, and the lines of its page."""

    kind: str
    row: int
    says: str
    # The rules that compute it; none if it holds as soon as the definitions are opened.
    rules: str
    head: str
    # What else has names that have to be opened.
    about: str = ""
    first: int = 0
    last: int = 0


@dataclass
class Page:
    """The lemmas of one file of rows: a module with the names and the states that they are about."""

    path: str
    names: dict = field(default_factory=dict)
    states: dict = field(default_factory=dict)
    lemmas: list = field(default_factory=list)

    def name(self, text):
        """The term of a name."""
        if text not in self.names:
            self.names[text] = f"the_{text}" if PLAIN.fullmatch(text) else f"name_{len(self.names)}"
        return self.names[text]

    def term(self, value):
        """The term of a name, a number or a tuple of both."""
        if isinstance(value, (tuple, list)):
            return "(" + ", ".join(map(self.term, value)) + ")"
        return str(value) if isinstance(value, int) else self.name(value)

    def argument(self, value):
        """The argument of a command or a question: a name, a number or a set of roles, as a list."""
        if not isinstance(value, list):
            return self.term(value)
        return f"(asked ({listed(map(self.name, sorted(set(value), key=str.encode)))}))"

    def read(self, value):
        """The same as it is read from a line, whose list of roles may have one more than once."""
        return f"(asked_as_set ({listed(map(self.name, value))}))" if isinstance(value, list) else self.term(value)

    def state(self, state):
        """The name of a state, which is written once."""
        sets = "".join(
            f"\n  {it} = {listed(map(self.term, sorted(members)))};" for it, members in parts(state).items() if members
        )
        text = f"record (no_lists {state.version}) {{{sets}\n}}" if sets else f"no_lists {state.version}"
        return self.states.setdefault(text, f"s{len(self.states)}")

    def refusal(self, answer):
        """The refusal that an answer is, or None."""
        if answer.get("ok"):
            return "None"
        details = {
            "set": lambda it: f" {self.name(it)}",
            "kind": lambda it: f" kinds.{capital(it)}",
            "version": lambda it: f" (pos {it})",
        }
        told = "".join(tell(answer[it]) for it, tell in details.items() if it in answer)
        return f"Some (reasons.{answer['error']}{told})"

    def content(self, function, value):
        """The content of an answer to a question."""
        if isinstance(value, bool):
            return f"AccessContent {str(value).lower()}"
        if isinstance(value, int):
            return f"CountContent (Some {value})"
        kind = "PermissionsContent" if function in PERMISSIONS else "NamesContent"
        return f"{kind} ({listed(map(self.term, value))})"

    def says(self, kind, row, text, rules="written", about=""):
        """Adds a lemma, and returns its name."""
        self.lemmas.append(Lemma(kind, row, text, rules, f"row_{row}_{len(self.lemmas)}", about))
        return self.lemmas[-1].head

    def text(self):
        """The module. It notes at which lines each lemma is."""
        defined = {name: name_text(text) for text, name in self.names.items()}
        types = dict.fromkeys(defined, "Bytes")
        defined |= {name: text for text, name in self.states.items()}
        found = [f"-- {self.path}", USES]
        found += [f"{name} : {types.get(name, 'Lists')}\n{name} = {text}\n" for name, text in defined.items()]
        lines = sum(it.count("\n") + 1 for it in found)
        for lemma in self.lemmas:
            used = dict.fromkeys(OWN.findall(lemma.says + lemma.about))
            for state in [it for it in used if it in self.states.values()]:
                used |= dict.fromkeys(OWN.findall(defined[state]))
            given = " pairs items" if "items" in lemma.rules else ""
            proof = f"simp {lemma.rules}" if lemma.rules else "refl"
            opened = " ".join([*used, OPENED[lemma.kind]])
            found.append(f"{lemma.head} : {lemma.says}\nunfolding {opened}\n{lemma.head}{given} = {proof}\n")
            lemma.first, lines = lines + 1, lines + found[-1].count("\n") + 1
            lemma.last = lines
        return "\n".join(found)


class Rows:
    """The lemmas of all rows, each once, and how many rows have none, and why."""

    def __init__(self, folder):
        self.rows, self.without, self.pages, self.known, self.replied = 0, Counter(), [], set(), set()
        for path in sorted(folder.rglob("*.jsonl")):
            self.page = Page(str(path.relative_to(folder)))
            self.read(path, State(version=1 if "version-1" in path.parts else 2))
            if self.page.lemmas:
                self.pages.append(self.page)

    def read(self, path, state):
        """Follows the rows of a file."""
        answers = iter(path.with_suffix(".answers").read_bytes().splitlines())
        for number, line in enumerate(path.read_bytes().split(b"\n"), 1):
            if len(line) > LONGEST_LINE:
                break
            if line.strip(b" \t\r"):
                state = self.follow(state, number, line, next(answers))

    def follow(self, state, number, line, told):
        """Adds the lemmas of a row, and returns the state after it."""
        self.rows += 1
        answer = json.loads(told)
        try:
            function, arguments = read_request(line)
        except Refused:
            if len(line) + len(told) > MOST_BYTES:
                self.without[f"no request, and with its answer more than {MOST_BYTES} bytes"] += 1
                return state
            before = f"(state_of {self.page.state(state)})"
            read = f"Err {self.page.refusal(answer).removeprefix('Some ')}"
            self.add_text(number, before, (line, told), read, [])
            if answer["error"] == "BadName":
                self.add_reply(number, before, json.loads(line)["fn"], (line, told), read, [])
            return state
        after = after_row(state, function, arguments)
        if self.is_left_out(state, function, arguments):
            return after
        before = f"(state_of {self.page.state(state)})"
        if function == "importAssignments":
            self.add_import(number, before, arguments[0], answer, after)
        else:
            if function in COMMANDS:
                read, facts = self.add_command(number, state, before, (function, arguments), answer, after)
            else:
                read, facts = self.add_question(number, before, function, arguments, answer)
            self.add_text(number, before, (line, told), read, facts)
            self.add_reply(number, before, function, (line, told), read, facts)
        self.add_users(number, state)
        return after

    def is_left_out(self, state, function, arguments):
        """Whether a row gets no lemma; counts why."""
        key = key_of(state), function, repr(arguments)
        if function == "importAssignments" and len(arguments[0]) > MOST_RECORDS:
            self.without[f"it imports more than {MOST_RECORDS} record, so that it takes too long"] += 1
        elif sum(map(len, parts(state).values())) > MOST_MEMBERS:
            self.without[f"its sets have more than {MOST_MEMBERS} members together, so that it takes too long"] += 1
        elif key in self.known:
            self.without["the same as an earlier row, on the same state"] += 1
        else:
            self.known.add(key)
            return False
        return True

    def add_command(self, number, state, before, asked, answer, after):
        """The verdict on a command, and all sets after it; whether a role may be activated alone.

        Returns what is asked for, and the rules with which the answer to it is computed.
        """
        function, arguments = asked
        command = f"(commands.{capital(function)} {' '.join(map(self.page.argument, arguments))})"
        rules = "" if answer.get("error") == "Version" else "written"
        fact = self.page.says("verdict", number, f"verdict {before} {command} ≡ {self.page.refusal(answer)}", rules)
        if answer.get("ok"):
            self.page.says("after", number, f"lists_of (after {before} {command}) ≡ {self.page.state(after)}")
        if function == "createSession" and len(arguments[1]) == 1 and (answer.get("ok") or answer["code"] == 25):
            says = f"stands_alone {before} {self.page.name(arguments[1][0])} ≡ {str(answer.get('ok', False)).lower()}"
            self.page.says("stands_alone", number, says)
        sets = ["written"] if any(isinstance(it, list) for it in arguments) else []
        read = f"(commands.{capital(function)} {' '.join(map(self.page.read, arguments))})"
        return f"Ok (Change (Single {read}))", [fact, *sets]

    def add_import(self, number, before, pairs, answer, after):
        """The verdict on an import, and all sets after it."""
        given = f"(pairs : Vec Pair Global) → pairs.items ≡ {listed(map(self.page.term, pairs))} →"
        command = f"{before} (commands.ImportAssignments pairs)"
        refusal = self.page.refusal(answer)
        self.page.says("verdict", number, f"{given} verdict {command} ≡ {refusal}", "(written, items)")
        if answer.get("ok"):
            self.page.says(
                "imported", number, f"{given} lists_of (after {command}) ≡ {self.page.state(after)}", "(written, items)"
            )

    def add_question(self, number, before, function, arguments, answer):
        """Whether a question is refused, and its answer. Returns the same as for a command."""
        words = " ".join([f"queries.{capital(function)}", *map(self.page.argument, arguments)])
        query = f"({words})" if arguments else words
        rules = "written" if arguments else ""
        facts = [self.page.says("refused", number, f"refused {before} {query} ≡ {self.page.refusal(answer)}", rules)]
        if answer.get("ok"):
            facts.append(
                self.page.says("value", number, f"value {before} {query} ≡ {self.page.content(function, answer['value'])}")
            )
        if answer.get("ok") and function == "checkAccess":
            names = " ".join(map(self.page.name, arguments))
            self.page.says("has_access", number, f"has_access {before} {names} ≡ {str(answer['value']).lower()}")
        return f"Ok (Ask {query})", facts

    def add_text(self, number, before, texts, read, facts):
        """What a line asks for, and the answer to it, byte for byte."""
        if sum(map(len, texts)) > MOST_BYTES:
            return
        line, answer = texts
        fact = self.page.says("request", number, f"request {bytes_text(line)} ≡ {read}", "")
        says = f"answer_to {before} {bytes_text(line)} ≡ {bytes_text(answer)}"
        fact = self.page.says("answer", number, says, f"({', '.join([fact, *facts])})", read)
        # In every second row a blank line comes first, which asks for nothing.
        blank = b"\r\n" if number % 2 else b""
        says = f"output_for {before} {bytes_text(blank + line + LINE_FEED)} ≡ {bytes_text(answer + LINE_FEED)}"
        self.page.says("output", number, says, fact)

    def add_reply(self, number, before, function, texts, read, facts):
        """The reply to a request that posts a line to its function, once for each function and refusal."""
        line, told = texts
        code = json.loads(told).get("code", 0)
        if (function, code) in self.replied or sum(map(len, texts)) > MOST_BYTES:
            return
        self.replied.add((function, code))
        fact = self.page.says("call", number, f"body_to functions.{capital(function)} {bytes_text(line)} ≡ {read}", "")
        reply = f'reply_to {before} (posted (codes "/v1/{function}") (codes "{len(line)}")) {bytes_text(line)}'
        called = f"reply_of {before} {len(line)} (body_to functions.{capital(function)} {bytes_text(line)})"
        facts = [self.page.says("head", number, f"{reply} ≡ {called}", ""), fact, *facts]
        status = 200 if not code else 400 if code in MALFORMED else 409
        self.page.says("reply", number, f"replied ({reply}) ≡ ({status}, {bytes_text(told)})", f"({', '.join(facts)})", read)

    def add_users(self, number, state):
        """Decisions about each user and permission of a state, by the plain model, unless an equal state had them."""
        fields = ("users", "locked", "roles", "assignments", "grants", "edges", "dsd_members", "dsd_cardinalities")
        for user in sorted(state.users):
            for ob, op in sorted(state.permissions):
                key = key_of(state, *fields), user, ob, op
                if key not in self.known:
                    self.known.add(key)
                    before = f"(state_of {self.page.state(state)})"
                    says = " ".join(["could_have_access", before, *map(self.page.name, (user, op, ob))])
                    self.page.says("could_have_access", number, f"{says} ≡ {str(check_user(state, user, op, ob)).lower()}")


def after_row(state, function, arguments):
    """The state after a row."""
    if function not in COMMANDS:
        return state
    try:
        return apply(state, function, arguments)[0]
    except Refused:
        return state
