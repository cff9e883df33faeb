"""Whether docs/openapi.yaml describes what a desk replied, and the tables of docs/DESK.md say the same: a part of
tools/check_desk. It is no script of its own."""
import json
import re

from desk_client import REFUSED, SEEN, STATUSES, fault
from shared import numbers, quoted, rows_of_page, same, wrong

KINDS = {"array": list, "object": dict, "string": str, "integer": int, "boolean": bool}
# What cannot be had here.
NOT_HERE = {"OfficeFull", "Memory", "Clock"}


def resolve(document, part):
    """A part of the description, behind its reference."""
    while "$ref" in part:
        found = document
        for name in part["$ref"].removeprefix("#/").split("/"):
            found = found[name]
        part = found
    return part


def why_not(document, schema, value):
    """Why a value is not what a schema says, or None."""
    schema = resolve(document, schema)
    if "oneOf" in schema:
        fitting = [one for one in schema["oneOf"] if why_not(document, one, value) is None]
        return None if len(fitting) == 1 else f"{value} fits {len(fitting)} of several"
    if value is None and schema.get("nullable"):
        return None
    if type(value) is not KINDS[schema["type"]]:
        return f"{value!r} is no {schema['type']}"
    if value not in schema.get("enum", [value]):
        return f"{value!r} is none of {schema['enum']}"
    if isinstance(value, str) and (
            not re.search(schema.get("pattern", ""), value)
            or not schema.get("minLength", 0) <= len(value) <= schema.get("maxLength", 1 << 30)):
        return f"{value!r} is outside its rule"
    if isinstance(value, int) and not (
            schema.get("minimum", value) <= value <= schema.get("maximum", value)):
        return f"{value} is outside its range"
    if isinstance(value, list):
        if len(value) > schema["maxItems"]:
            return f"{len(value)} items"
        return next((f"item {place}: {why}" for place, one in enumerate(value)
                     if (why := why_not(document, schema["items"], one))), None)
    if isinstance(value, dict):
        if sorted(value) != sorted(schema["required"]) or set(value) != set(schema["properties"]):
            return f"the members are {sorted(value)}, not {sorted(schema['required'])}"
        for name, member in value.items():
            why = why_not(document, schema["properties"][name], member)
            if why:
                return f"{name}: {why}"
    return None


def errors_in(document, schema):
    """All errors that a schema allows, each with its word, and its number or None."""
    schema = resolve(document, schema)
    if "oneOf" in schema:
        return [error for one in schema["oneOf"] for error in errors_in(document, one)]
    members = schema.get("properties", {})
    return [(word, number) for word in members.get("error", {}).get("enum", [])
            for number in members.get("refusal", {}).get("enum", [None])]


def error_of(body, media):
    """The word and the number of the error that a reply has, or None."""
    members = json.loads(body) if media == "application/json" else {}
    return (members["error"], members.get("refusal")) if "error" in members else None


def check_examples(document, part):
    """Each example of the description is what the schema beside it says."""
    if isinstance(part, dict):
        schema = part.get("schema", part)
        if "example" in part and ("schema" in part or "type" in part):
            why = why_not(document, schema, part["example"])
            if why:
                wrong(f"docs/openapi.yaml: an example: {why}")
        if "$ref" in part:
            resolve(document, part)
        for inner in part.values():
            check_examples(document, inner)
    elif isinstance(part, list):
        for inner in part:
            check_examples(document, inner)


def operations(document):
    """Each operation of the description, behind its method and its path."""
    for path, there in document["paths"].items():
        for name in ("get", "post", "delete"):
            if name in there:
                yield name.upper(), path, there[name]


def targets_of(document, path, operation):
    """A pattern of the targets of an operation, with the query that it asks for."""
    asked = [*document["paths"][path].get("parameters", []), *operation.get("parameters", [])]
    asked = [resolve(document, it) for it in asked]
    query = "&".join(f"{it['name']}=[^&]*" for it in asked if it["in"] == "query")
    return re.sub(r"\{\w+\}", "[^/]+", path) + (rf"\?{query}" if query else "")


def operation_of(document, target):
    """The operation of the description that a target is of, or None: two of one path differ in their queries."""
    fitting = [it for it in operations(document) if re.fullmatch(targets_of(document, *it[1:]), target)]
    return min(fitting, key=lambda it: it[1].count("{"), default=None)


def check_reply(document, method, target, sent, status, fields, body):
    """A reply is as the description has it. Gives its operation, its status and its error, or None where
    the description has no such target."""
    found = operation_of(document, target)
    if found is None:
        same((status, body), (404, fault("NoRoute")), f"{target}, which is not described")
        return None
    own_method, path, operation = found
    where = f"docs/openapi.yaml: {own_method} {path}, {status}"
    if str(status) not in operation["responses"]:
        wrong(f"{where} is not described; {method} {target} got {body}")
    described = resolve(document, operation["responses"][str(status)])
    same([fields["Content-Type"]], list(described["content"]), where)
    parts = []
    same("Date" in described.get("headers", {}), status not in REFUSED, f"{where}: Date")
    for name in ("Allow", "Connection"):
        same(name in fields, name in described.get("headers", {}), f"{where}: {name}")
        if name in fields:
            header = resolve(document, described["headers"][name])
            parts.append((header["schema"], fields[name]))
    if fields["Content-Type"] == "application/json":
        parts.append((described["content"]["application/json"]["schema"], json.loads(body)))
    if status == 200:
        same(method, own_method, where)
        asked = resolve(document, operation.get("requestBody", {"content": {}}))["content"]
        if "application/json" in asked:
            parts.append((asked["application/json"]["schema"], json.loads(sent)))
    for schema, value in parts:
        why = why_not(document, schema, value)
        if why:
            wrong(f"{where}: {why}")
    return (own_method, path), status, error_of(body, fields["Content-Type"])


def errors_described(document):
    """Each operation, status and error of the description; None stands for a reply that is no error."""
    for method, path, operation in operations(document):
        for status, described in operation["responses"].items():
            for content in resolve(document, described)["content"].values():
                for error in errors_in(document, content["schema"]) or [None]:
                    yield (method, path), int(status), error


def check_described(document):
    """What the desk replied in all parts before is what docs/openapi.yaml describes, and all that
    it describes came, but for what cannot be had here. What is refused before the target is looked
    at, and what a failed file gives, need not have come at each operation."""
    check_examples(document, document)
    came = {check_reply(document, *seen) for seen in SEEN} - {None}
    anywhere = {(status, error) for _, status, error in came}
    for operation, status, error in errors_described(document):
        is_anywhere = status in (400, 413, 501, 503)
        found = (status, error) in anywhere if is_anywhere else (operation, status, error) in came
        if not found and not (error and error[0] in NOT_HERE):
            wrong(f"docs/openapi.yaml: {' '.join(operation)}, {status}, {error} never came")
    print(f"docs/openapi.yaml: {len(SEEN)} replies are as it describes them, and all came that it "
          f"describes, but for {', '.join(sorted(NOT_HERE))}")


def errors_of_page():
    """Each status and error of docs/DESK.md; docs/COMMANDS.md has the names of the numbers."""
    lines = [quoted(line)[0].split() for line, *_ in rows_of_page("COMMANDS.md", "Line", "Why", "What to do")]
    names = {int(line[1]): line[2] for line in lines if line[0] == "refused" and line[1].isdigit()}
    errors = set()
    for status, (_, said) in STATUSES.items():
        words, _, refused = said.partition("refusal")
        errors |= {(status, (word, None)) for word in quoted(words)}
        errors |= {(status, (names[number], number)) for number in numbers(refused)}
    same({number for _, (_, number) in errors} - {None}, {*names}, "docs/DESK.md: the refusals")
    faults = {(int(status), (quoted(word)[0], None)) for word, status, _ in
              rows_of_page("DESK.md", "Word", "Status", "Where")}
    same({it for it in errors if it[1][1] is None}, faults, "docs/DESK.md: the words of its tables")
    return errors


def check_tables(document):
    """What the tables of docs/DESK.md say of statuses, words and numbers is what the desk replied in
    all parts before, and what docs/openapi.yaml describes."""
    errors = errors_of_page()
    came = {(status, error_of(body, fields["Content-Type"])) for *_, status, fields, body in SEEN}
    came = {it for it in came if it[1]}
    same(came, {it for it in errors if it[1][0] not in NOT_HERE}, "docs/DESK.md: what came")
    described = {(status, error) for _, status, error in errors_described(document) if error}
    same(described, errors, "docs/openapi.yaml, beside docs/DESK.md")
    causes = {re.sub(r"\d+", "k", json.loads(body)["cause"])
              for *_, body in SEEN if b'"cause"' in body}
    same(causes, {quoted(cause)[0] for cause, _ in rows_of_page("COMMANDS.md", "Cause", "Why")}, "causes of rows")
    print(f"docs/DESK.md: its tables have the {len(errors)} statuses and errors that came and that "
          "docs/openapi.yaml has")
