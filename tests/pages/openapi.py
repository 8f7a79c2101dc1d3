"""The description of the HTTP side by OpenAPI: it has what the sources and the pages have, and the program conforms to it.

tests/front/described.py checks that the front does so too.
"""

import json
import re
import subprocess
import sys

import pytest

from machine.state import MOST
from program.web import PHRASES, Server, head, post

from . import markdown, sources, validators, verdicts
from .api import PARTS, all_pairs, sort_of

SPEC = json.loads(markdown.page("openapi.json"))
COMPONENTS = SPEC["components"]

# The schema of each refusal, and those of accepted answers by their sorts.
REFUSAL = {"$ref": "#/components/schemas/Refusal"}
ANSWERS = {
    "Done": "DoneAnswer",
    "Imported": "ImportAnswer",
    "Names": "NamesAnswer",
    "Permissions": "PermissionsAnswer",
    "Count": "CountAnswer",
    "Access": "AccessAnswer",
}

# The schemas of the values at keys, by their types.
TYPES = {
    "text": {"$ref": "#/components/schemas/Name"},
    "list": {"type": "array", "items": {"$ref": "#/components/schemas/Name"}},
    "number": {"$ref": "#/components/schemas/Cardinality"},
}

# The words of a schema.
WORDS = {"$ref", "allOf", "type", "enum", "format", "description", "required", "properties", "items", "pattern"}
WORDS |= {"minLength", "maxLength", "minItems", "maxItems", "uniqueItems", "minimum", "maximum"}

# The types of JSON as Python has them.
PYTHON = {"object": dict, "array": list, "string": str, "boolean": bool, "integer": int}

# What only the front answers: the refusals by the table of docs/reference/front.md and by its sources, and paths of no function.
OF_FRONT = [row[:2] for table in markdown.tables(markdown.section(markdown.page("reference/front.md"), "## 5. What clients see"))
            for row in table if re.fullmatch(r"\d{3} [\w ]+", row[0])]  # fmt: skip
SOURCE = sources.ROOT / "server/internal/api/api.go"
PATHS_OF_FRONT = {
    "/healthz": ["get"],
    "/metrics": ["get"],
    "/v1/batch": ["post"],
    "/v1/decideByUser": ["post"],
    "/decide": ["get", "post"],
    "/access/v1/evaluation": ["post"],
    "/access/v1/evaluations": ["post"],
    "/.well-known/authzen-configuration": ["get"],
    "/explain": ["post"],
    "/caller": ["get"],
    "/sessions": ["post"],
    "/sessions/{digest}": ["delete"],
    "/lists": ["post"],
    "/lists/{list}": ["get"],
    "/snapshot": ["get"],
    "/watch": ["get"],
    "/record": ["get"],
    "/record/links": ["get"],
    "/room": ["get"],
    "/picture": ["get"],
    "/what-if": ["post"],
    "/reviews": ["post"],
    "/reports/{report}": ["post", "get"],
}

# The statuses of a conflict, and of a target or a method that no path here has.
CONFLICT = 409
OF_NO_PATH = {404, 405}


def operations():
    """Returns the description of each function, by its name."""
    paths = {path: methods for path, methods in SPEC["paths"].items() if path not in PATHS_OF_FRONT}
    return {path.removeprefix("/v1/"): methods["post"] for path, methods in paths.items()}


def codes_of_front():
    """The codes with which the front refuses, by their statuses, as its page has them."""
    found = {}
    for status, code in OF_FRONT:
        found.setdefault(int(status[:3]), set()).add(int(code.split()[0]))
    return found


def refusals_of_front():
    """The names of the codes with which the front refuses, as its page has them."""
    return {int(code.split()[0]): code.split()[1] for _, code in OF_FRONT}


def name_of(status):
    """The name of the shared answer with a status."""
    phrases = {**PHRASES, **{int(said[:3]): said[4:] for said, _ in OF_FRONT}}
    return phrases[status].replace(" ", "")


def resolved(value):
    """Returns what a reference leads to; what is no reference is returned unchanged."""
    if "$ref" not in value:
        return value
    place = SPEC
    for step in value["$ref"].removeprefix("#/").split("/"):
        place = place[step]
    return resolved(place)


def references(value):
    """All references in a value."""
    if isinstance(value, list):
        return [one for item in value for one in references(item)]
    if not isinstance(value, dict):
        return []
    return [one for key, item in value.items() for one in ([item] if key == "$ref" else references(item))]


def media_of(holder, sort="application/json"):
    """Returns the description of a body or an answer that has one sort of content."""
    (media,) = resolved(holder)["content"].items()
    if media[0] != sort:
        raise ValueError(f"{media[0]} and not {sort}")
    return media[1]


def schema_of(holder, sort="application/json"):
    """The schema of a body or an answer that has one sort of content."""
    return media_of(holder, sort)["schema"]


def sort_of_body(name):
    """The sort of content that the body of a function has."""
    return "text/csv" if name == "importAssignments" else "application/json"


def example_of(name):
    """The example of a body and that of its answer."""
    operation = operations()[name]
    return media_of(operation["requestBody"], sort_of_body(name))["example"], media_of(operation["responses"]["200"])["example"]


def response_of(name, status):
    """Returns the description of an answer with a status to a request for a function. A status of no path has a shared answer."""
    if status in OF_NO_PATH:
        return COMPONENTS["responses"][name_of(status)]
    return resolved(operations()[name]["responses"][str(status)])


def faults_of(schema, value):
    """Returns what in a value violates a schema."""
    schema = resolved(schema)
    faults = [fault for part in schema.get("allOf", []) for fault in faults_of(part, value)]
    sort = schema.get("type")
    if sort and (not isinstance(value, PYTHON[sort]) or (sort == "integer" and isinstance(value, bool))):
        return [*faults, f"{value} is no {sort}"]
    if "enum" in schema and value not in schema["enum"]:
        faults.append(f"{value} is none of {schema['enum']}")
    if sort == "integer" and not schema.get("minimum", value) <= value <= schema.get("maximum", value):
        faults.append(f"{value} is out of range")
    if sort == "string" and not has_form(schema, "Length", value):
        faults.append(f"{value} has another form")
    if sort == "array":
        faults += [] if has_form(schema, "Items", value) else [f"{value} has another length"]
        if schema.get("uniqueItems") and any(item in value[:place] for place, item in enumerate(value)):
            faults.append(f"{value} has an item twice")
        faults += [fault for item in value for fault in faults_of(schema["items"], item)]
    if sort == "object":
        faults += [f"{key} is missing" for key in schema.get("required", []) if key not in value]
        properties = schema.get("properties", {})
        faults += [fault for key in properties if key in value for fault in faults_of(properties[key], value[key])]
    return faults


def has_form(schema, word, value):
    """Whether a text or a list has a length that its schema allows, and a text its pattern."""
    least, most = schema.get(f"min{word}", 0), schema.get(f"max{word}", len(value))
    pattern = schema.get("pattern")
    return least <= len(value) <= most and (not pattern or bool(re.search(pattern, value)))


def check_written(bench):
    """The description is what bin/openapi writes from docs/reference/api.md."""
    command = [sys.executable, str(sources.ROOT / "bin/openapi"), "--check"]
    done = subprocess.run(command, capture_output=True, text=True, check=False)
    bench.same("what bin/openapi --check prints", (done.returncode, done.stderr), (0, ""))


def check_valid(bench):
    """The description is one of OpenAPI 3.0, by a validator, and has the version of VERSION."""
    bench.same("the version of OpenAPI", SPEC["openapi"], "3.0.3")
    version = (sources.ROOT / "VERSION").read_text(encoding="ascii").strip()
    bench.same("the version of the description", SPEC["info"]["version"], version)
    bench.same("what secures it, if anything does", SPEC["security"], [{}, {"token": []}])
    faults = validators.faults_of_description(SPEC)
    if faults is None:
        bench.leave_out("openapi-specification", "a validator of OpenAPI")
        return
    bench.judge("what a validator reports about the description", faults)
    broken = {**SPEC, "paths": {"/v1/addUser": {"post": {"operationId": 7}}}}
    bench.same("whether it finds a fault", bool(validators.faults_of_description(broken)), True)


def parts_of(schema):
    """A schema and all schemas within it."""
    inner = [*schema.get("properties", {}).values(), *schema.get("allOf", []), schema.get("items")]
    return [schema, *(one for part in inner if part for one in parts_of(part))]


def check_structure(bench):
    """Each part of the description has the keys that such a part has, and no others."""
    bench.same("the parts", set(SPEC), {"openapi", "info", "servers", "security", "tags", "paths", "components"})
    bench.same("the shared parts", set(COMPONENTS), {"schemas", "parameters", "responses", "securitySchemes"})
    bench.same("the security schemes", list(COMPONENTS["securitySchemes"]), ["token"])
    accepted, refused, bodies = [], list(COMPONENTS["responses"].values()), []
    for name, operation in operations().items():
        keys = {"operationId", "tags", "summary", "description", "requestBody", "responses"}
        if operation["tags"] == ["commands"]:
            keys.add("parameters")
            bench.same(f"the parameters of {name}", operation["parameters"], [{"$ref": "#/components/parameters/Reason"}])
        bench.same(f"the parts of {name}", set(operation), keys)
        bench.same(f"the parts of the body of {name}", set(operation["requestBody"]), {"required", "content"})
        accepted.append(operation["responses"]["200"])
        refused += [answer for status, answer in operation["responses"].items() if status != "200" and "$ref" not in answer]
        bodies.append(operation["requestBody"])
    for answer in accepted:
        bench.same("the parts of an accepted answer", set(answer), {"description", "content"})
    for answer in refused:
        parts = set(answer) - {"headers", "x-kinds"}
        bench.same("the parts of a refusing answer", parts, {"description", "x-codes", "content"})
        bench.same("the schema of a refusing answer", media_of(answer), {"schema": REFUSAL})
    medias = [media for holder in [*accepted, *bodies] for media in holder["content"].values()]
    bench.same("bodies without a schema and an example", [one for one in medias if set(one) != {"schema", "example"}], [])
    schemas = [*COMPONENTS["schemas"].values(), *(media["schema"] for media in medias)]
    parts = [part for schema in schemas for part in parts_of(schema)]
    bench.same("schemas with unknown words", [part for part in parts if set(part) - WORDS], [])
    bench.same("words beside a reference", [part for part in parts if "$ref" in part and len(part) > 1], [])


def check_reason(bench):
    """The field for the reason of a command has the name and the length that the front reads."""
    source = (sources.ROOT / "server/internal/endpoints/signing.go").read_text(encoding="utf-8")
    reason = COMPONENTS["parameters"]["Reason"]
    bench.same("its name", f'reasonField   = "{reason["name"]}"' in source, True)
    bench.same("its length", f'longestReason = {reason["schema"]["maxLength"]}\n' in source, True)
    bench.same("where it is", (reason["in"], reason["required"]), ("header", False))


def check_references(bench):
    """Each reference leads somewhere, and each shared part is used, except the answer to another method."""
    used = set(references(SPEC))
    for reference in sorted(used):
        bench.same(f"{reference} leads to something", bool(resolved({"$ref": reference})), True)
    parts = {f"#/components/{sort}/{name}" for sort in ("schemas", "responses") for name in COMPONENTS[sort]}
    bench.same("what is not used", parts - used, {f"#/components/responses/{name_of(405)}"})


def check_paths(bench):
    """Each function has a path with POST alone, and the description that it has on the page."""
    wanted = [*(f"/v1/{name}" for name in sources.functions().values()), *PATHS_OF_FRONT]
    bench.same("the paths", sorted(SPEC["paths"]), sorted(wanted))
    commands = sources.command_keys()
    for path, methods in SPEC["paths"].items():
        bench.same(f"the methods of {path}", list(methods), PATHS_OF_FRONT.get(path, ["post"]))
    for name, operation in operations().items():
        bench.same(f"the name of {name}", operation["operationId"], name)
        bench.same(f"the sort of {name}", operation["tags"], ["commands" if name in commands else "questions"])
        bench.same(f"what {name} is", operation["description"], PARTS[name].text)
        bench.same(f"the summary of {name} is short", bool(re.fullmatch(r"[A-Z][\w ]{5,60}", operation["summary"])), True)
    summaries = [operation["summary"] for operation in operations().values()]
    bench.same("summaries that occur twice", len(summaries) - len(set(summaries)), 0)
    bench.same("the sorts", [tag["name"] for tag in SPEC["tags"]], ["commands", "questions", "condition", "front"])


def check_keys(bench):
    """Each body has the keys of its function, all of them required, with their types; that of an import is CSV."""
    for name, keys in {**sources.command_keys(), **sources.question_keys()}.items():
        body = operations()[name]["requestBody"]
        bench.same(f"whether {name} needs a body", body["required"], bool(keys))
        if name == "importAssignments":
            bench.same("the body of an import", schema_of(body, "text/csv")["$ref"], "#/components/schemas/Assignments")
            continue
        schema = schema_of(body)
        bench.same(f"the body of {name}", schema["type"], "object")
        bench.same(f"what {name} requires", schema.get("required", []), [key for key, _ in keys])
        bench.same(f"the keys of {name}", schema.get("properties", {}), {key: TYPES[sort] for key, sort in keys})


def check_answers(bench):
    """Each function has the answer of its sort, its refusals in order, and each other status that it can have."""
    conflicts = verdicts.codes_by_status()[CONFLICT]
    for name, operation in operations().items():
        answers = operation["responses"]
        words = [word for word in verdicts.refusals()[name] if int(word.split(":")[0]) in conflicts]
        if name == "importAssignments":
            words.remove("32:byte")  # A longer body is refused by 413 with the head.
        wanted = (sources.statuses() | set(codes_of_front())) - OF_NO_PATH - (set() if words else {CONFLICT})
        bench.same(f"the statuses of {name}", sorted(answers), sorted(map(str, wanted)))
        reference = f"#/components/schemas/{ANSWERS[sources.values()[name]]}"
        bench.same(f"the answer of {name}", schema_of(answers["200"]), {"$ref": reference})
        for status in wanted - {200, CONFLICT}:
            reference = f"#/components/responses/{name_of(status)}"
            bench.same(f"{status} of {name}", answers[str(status)], {"$ref": reference})
        if words:
            same_conflict(bench, name, answers[str(CONFLICT)], words)


def same_conflict(bench, name, answer, words):
    """A conflict names the codes and the kinds of its function, and describes them as the page does."""
    codes = list(dict.fromkeys(int(word.split(":")[0]) for word in words))
    kinds = [word.split(":")[1] for word in words if ":" in word]
    bench.same(f"the codes of {name}", answer["x-codes"], codes)
    bench.same(f"the kinds of {name}", answer.get("x-kinds", []), kinds)
    said = PARTS[name].refused if name != "importAssignments" else "32 TooMany `record`"
    bench.same(f"what refuses {name}", answer["description"], f"Refused: {said}.")


def check_refusals(bench):
    """A refusal has each code with its name at the same place, each further key, and each kind of a limit."""
    refusal = COMPONENTS["schemas"]["Refusal"]
    properties = refusal["properties"]
    known = sorted(sources.refusals().items())
    of_front = sorted(refusals_of_front().items())
    bench.same("the codes", properties["code"]["enum"], [code for code, _ in [*known, *of_front]])
    bench.same("the names", properties["error"]["enum"], [*(name for _, (name, _) in known), *(name for _, name in of_front)])
    further = list(dict.fromkeys(key for _, (_, key) in known if key))
    bench.same("the keys of a refusal", list(properties), ["code", "error", *further])
    bench.same("the keys that each refusal has", refusal["required"], ["code", "error"])
    bench.same("the kinds", properties["kind"]["enum"], list(MOST))


def check_refusals_of_front(bench):
    """The page of the front lists its refusals with the statuses, codes and names that its sources have."""
    text = SOURCE.read_text(encoding="utf-8")
    found = re.findall(r'Refusal\{Status: http\.Status(\w+), Code: (\d+), Name: "(\w+)"\}', text)
    wanted = {(status, f"{code} {name}") for status, code, name in found if int(code) not in sources.refusals()}
    bench.same("the refusals of the front", {(status[4:].replace(" ", ""), code) for status, code in OF_FRONT}, wanted)


def check_statuses(bench):
    """Each status by which a request is not accepted has its shared answer, with the codes that it reports."""
    by_status = verdicts.codes_by_status()
    of_front = codes_of_front()
    refusing = (sources.statuses() | set(of_front)) - {200, CONFLICT}
    for status in refusing:
        codes = COMPONENTS["responses"][name_of(status)]["x-codes"]
        own = by_status.get(status, {34}) if status in sources.statuses() else set()
        bench.same(f"the codes of {status}", set(codes), own | of_front.get(status, set()))
    wanted = {name_of(status) for status in refusing}
    bench.same("the shared answers", set(COMPONENTS["responses"]), wanted)
    bench.same("the schemas of accepted answers", set(ANSWERS.values()) - set(COMPONENTS["schemas"]), set())


def check_sizes(bench):
    """The limits that the description states are those of the sources."""
    sizes = {words: f"{size:,}" for words, size in sources.sizes().items()}
    descriptions = {name: answer["description"] for name, answer in COMPONENTS["responses"].items()}
    for words, name in {
        "bytes of a body of JSON": "PayloadTooLarge",
        "bytes of a body of CSV": "PayloadTooLarge",
        "bytes of the head of a request": "RequestHeaderFieldsTooLarge",
        "fields of a head": "RequestHeaderFieldsTooLarge",
    }.items():
        bench.same(f"{words} in {name}", sizes[words] in re.findall(r"[\d,]*\d", descriptions[name]), True)
    said = re.findall(r"[\d,]*\d", COMPONENTS["schemas"]["Assignments"]["description"])
    for kind in ("byte", "record"):
        bench.same(f"the most of {kind}", f"{MOST[kind]:,}" in said, True)


def check_forms(bench):
    """The requests of the page and their answers have the forms that are described here, and wrong requests do not."""
    described = operations()
    for line, answer in all_pairs():
        request, given = json.loads(line), json.loads(answer)
        if given.get("code") in (34, 35, 1):
            continue
        operation = described[request["fn"]]
        if request["fn"] != "importAssignments":
            bench.same(f"the form of {line}", faults_of(schema_of(operation["requestBody"]), request), [])
        holder = response_of(request["fn"], 200 if "ok" in given else CONFLICT)
        bench.same(f"the form of {answer} to {line}", faults_of(schema_of(holder), given), [])
    schema = schema_of(described["addUser"]["requestBody"])
    for wrong in ({}, {"user": 7}, {"user": ""}, {"user": "a\tb"}, {"user": "u" * 65}):
        bench.same(f"whether {wrong} is a fault", bool(faults_of(schema, wrong)), True)


class Answered:
    """Answers of the program beside their schemas: each is judged here, and all of them by jsonschema at the end."""

    def __init__(self, bench, server):
        self.bench = bench
        self.server = server
        self.cases = []

    def ask(self, request, name, what):
        """The status of the answer to a request, and the answer, which has the form that is described for it."""
        said, _, body = self.server.ask(request).partition(b"\r\n\r\n")
        lines = said.decode().split("\r\n")
        status, answer = int(lines[0].split()[1]), json.loads(body)
        described = response_of(name, status)
        schema = schema_of(described)
        self.cases.append([schema, answer])
        faults = faults_of(schema, answer)
        if "code" in answer and answer["code"] not in described["x-codes"]:
            faults.append(f"{answer['code']} is none of {described['x-codes']}")
        if "kind" in answer and answer["kind"] not in described["x-kinds"]:
            faults.append(f"{answer['kind']} is none of {described['x-kinds']}")
        fields = dict(line.split(": ") for line in lines[1:])
        for key, header in described.get("headers", {}).items():
            faults += faults_of(header["schema"], fields[key]) if key in fields else [f"{key} is missing"]
        if fields["Content-Type"] not in described["content"]:
            faults.append(f"the content is {fields['Content-Type']}")
        self.bench.judge(f"the answer {status} {answer} to {what}", faults)
        return status, answer

    def call(self, name, body):
        """The answer to a body for a function."""
        text = body if isinstance(body, str) else json.dumps(body)
        return self.ask(post(name, text.encode()), name, f"{name} of {text}")

    def validated(self):
        """Counts what jsonschema reports about all answers, if it is installed."""
        found = validators.faults_by_schema(SPEC, self.cases)
        if found is None:
            self.bench.leave_out("jsonschema", "a validator of the answers")
            return
        for (_, answer), faults in zip(self.cases, found, strict=True):
            self.bench.judge(f"what jsonschema reports about {answer}", faults)
        wrong = [[schema, {}] for schema, _ in self.cases]
        bad = validators.faults_by_schema(SPEC, wrong)
        self.bench.same("whether jsonschema finds that nothing is an answer", all(bad), True)


def body_of(request):
    """The name of the function of a line, and its body."""
    arguments = {key: value for key, value in request.items() if key != "fn"}
    return request["fn"], arguments["csv"] if request["fn"] == "importAssignments" else arguments


def check_program(bench):
    """Sent with the other requests of the page, each example gets its example answer, and each answer has its form."""
    asked = [body_of(json.loads(line)) for line, _ in all_pairs()]
    path = bench.path("office")
    bench.ends(["init", path], makes=["office"])
    met = {name: [] for name in operations()}
    with Server(bench, path, len(asked)) as server:
        answered = Answered(bench, server)
        for name, body in asked:
            _, answer = answered.call(name, body)
            if name in met and body == example_of(name)[0]:
                met[name].append(answer)
        server.ends()
    for name, answers in met.items():
        bench.same(f"whether the example of {name} gets its example answer", example_of(name)[1] in answers, True)
        bench.same(f"the sort of the example of {name}", sort_of(example_of(name)[1]), sources.values()[name])
    answered.validated()


def check_examples_alone(bench):
    """Sent to a new office, one after the other, the examples get answers of the forms that are described."""
    path = bench.path("office")
    bench.ends(["init", path], makes=["office"])
    with Server(bench, path, len(operations())) as server:
        answered = Answered(bench, server)
        statuses = {answered.call(name, example_of(name)[0])[0] for name in operations()}
        server.ends()
    bench.same("the statuses of the examples alone", statuses, {200, CONFLICT})
    answered.validated()


def wrong_requests():
    """Requests that are refused before a function is, with the status that each gets."""
    body = b'{"user":"ann"}'
    least = sources.sizes()["bytes of a body of JSON"] + 1
    line = "POST /v1/addUser HTTP/1.1"
    yield 400, b"nothing\r\n\r\n"
    yield 400, post("addUser", b"{")
    yield 400, post("addUser", b'{"user":7}')
    yield 400, post("addUser", b'{"user":""}')
    yield 400, post("importAssignments", b"a,b\n")
    yield 404, post("fly", body)
    yield 405, head("GET /v1/addUser HTTP/1.1")
    yield 411, head(line)
    yield 413, head(line, f"Content-Length: {least}")
    yield 413, head("POST /v1/importAssignments HTTP/1.1", f"Content-Length: {sources.sizes()['bytes of a body of CSV'] + 1}")
    yield 431, head(line, *(f"A{number}: b" for number in range(sources.sizes()["fields of a head"] + 1)))
    yield 431, head(line, "A: " + "b" * sources.sizes()["bytes of the head of a request"])
    yield 501, head(line, "Transfer-Encoding: chunked")


def check_wrong_requests(bench):
    """What is no request gets its status, with an answer of the form of this status."""
    path = bench.path("office")
    bench.ends(["init", path], makes=["office"])
    wrong = list(wrong_requests())
    with Server(bench, path, len(wrong)) as server:
        answered = Answered(bench, server)
        for status, request in wrong:
            name = "importAssignments" if b"importAssignments" in request else "addUser"
            got, _ = answered.ask(request, name, request[:60])
            bench.same(f"the status of {request[:60]}", got, status)
        server.ends()
    answered.validated()


def check_bytes(bench):
    """A name may have 64 bytes. A longer one of at most 64 characters conforms to the schema, and is refused with 1 BadName."""
    schema = schema_of(operations()["addUser"]["requestBody"])
    named = COMPONENTS["schemas"]["Name"]
    least, most = map(int, re.search(r"UTF-8 of (\d+) to (\d+) bytes", named["description"]).groups())
    bench.same("the characters of a name", (named["minLength"], named["maxLength"]), (least, most))
    signs = ["u", "\u00e9", "\u20ac", "\U0001f511"]
    names = [size // len(sign.encode()) * sign for sign in signs for size in (most, most + 4)]
    path = bench.path("office")
    bench.ends(["init", path], makes=["office"])
    with Server(bench, path, len(names)) as server:
        answered = Answered(bench, server)
        for name in names:
            keeps, fits = not faults_of(schema, {"user": name}), least <= len(name.encode()) <= most
            _, answer = answered.call("addUser", {"user": name})
            bench.same(f"the answer to {name}", answer.get("code", 0), 0 if fits else 1)
            bench.same(f"whether {name} conforms to the schema", keeps, len(name) <= most)
        server.ends()
    answered.validated()


# Makes a client of a description, calls the functions of standard input in turn, and prints each answer. The client also
# validates each request and each answer by the description: it has an answer of its own, 400 or 500, for a fault.
CALLING = r"""
use strict; use warnings; use OpenAPI::Client; use Mojo::JSON qw(decode_json encode_json);
my ($path, $base) = @ARGV;
my $client = OpenAPI::Client->new($path);
$client->base_url(Mojo::URL->new($base));
while (my $line = <STDIN>) {
    my ($name, $body) = @{decode_json $line};
    $client->can($name) or die "no method $name";
    my $tx = $client->$name({body => $body}, ref $body ? (json => $body) : ());
    print encode_json([$tx->res->code + 0, $tx->res->json]), "\n";
}
"""


@pytest.mark.needs("OpenAPI::Client")
def check_client(bench):
    """A client that OpenAPI::Client makes of the description has each function, and gets the answers of the program."""
    asked = [body_of(json.loads(line)) for line, _ in all_pairs()]
    asked = [(name, body) for name, body in asked if name in operations() and not isinstance(body, str)]
    asked = [(name, body) for name, body in asked if not faults_of(schema_of(operations()[name]["requestBody"]), body)]
    lines = "".join(json.dumps({"fn": name, **body}) + "\n" for name, body in asked)
    wanted = [json.loads(answer) for answer in bench.run(["replay", "--memory"], lines.encode()).out.splitlines()]
    path = bench.path("office")
    bench.ends(["init", path], makes=["office"])
    with Server(bench, path, len(asked)) as server:
        done = subprocess.run(
            ["perl", "-e", CALLING, str(markdown.DOCS / "openapi.json"), f"http://127.0.0.1:{server.port}"],
            input="".join(json.dumps(call) + "\n" for call in [("addUser", {"user": ""}), *asked]),
            capture_output=True,
            text=True,
            check=False,
        )
        bench.same("the end of the client", (done.returncode, done.stderr), (0, ""))
        server.ends()
    refused, *received = [json.loads(line) for line in done.stdout.splitlines()]
    bench.same("whether the client itself refuses another form", refused[0] == 400 and "errors" in refused[1], True)
    for call, answer, got in zip(asked, wanted, received, strict=True):
        bench.same(f"what the client gets for {call}", got, [200 if "ok" in answer else CONFLICT, answer])
