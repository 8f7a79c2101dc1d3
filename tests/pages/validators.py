"""Validators that others wrote, run by a Python that has them. The one of the system may have what this one lacks."""

import json
import subprocess
import sys
from functools import cache
from pathlib import Path

PYTHONS = [sys.executable, "/usr/bin/python3"]

# The schema of OpenAPI 3.0 in JSON Schema, as the Debian package openapi-specification has it.
OPENAPI = Path("/usr/share/openapi-specification/schemas/v3.0/schema.json")

# Raises an error if a description is not valid. Earlier releases have `validate` only under its second name.
BY_ITSELF = """
import json, sys, openapi_spec_validator as validator
validate = getattr(validator, "validate", None) or validator.validate_spec
validate(json.load(sys.stdin))
"""

# Prints what is wrong with each value by its schema, whose references lead into a document. They are read as JSON Schema, draft 4.
BY_SCHEMA = """
import json, sys, jsonschema
given = json.load(sys.stdin)
resolver = jsonschema.RefResolver(given["document"].get("id", ""), given["document"])
found = []
for schema, value in given["cases"]:
    validator = jsonschema.Draft4Validator(schema, resolver=resolver)
    found.append([error.message[:200] for error in validator.iter_errors(value)])
json.dump(found, sys.stdout)
"""


@cache
def python_with(module):
    """A Python that finds a module, or None."""
    for python in PYTHONS:
        try:
            if subprocess.run([python, "-c", f"import {module}"], capture_output=True, check=False).returncode == 0:
                return python
        except OSError:
            continue
    return None


def run(module, code, given):
    """What the code prints that gets these as JSON, in a Python with a module."""
    command = [python_with(module), "-W", "ignore", "-c", code]
    done = subprocess.run(command, input=json.dumps(given), capture_output=True, text=True, check=False)
    if done.returncode:
        raise ValueError(done.stderr)
    return done.stdout


def faults_by_schema(document, cases):
    """What jsonschema finds wrong with each value, by its schema, or None if there is no jsonschema."""
    if not python_with("jsonschema"):
        return None
    return json.loads(run("jsonschema", BY_SCHEMA, {"document": document, "cases": cases}))


def faults_of_description(spec):
    """Returns what the installed validators find wrong with a description by OpenAPI 3.0, or None if there is none."""
    found = []
    if python_with("openapi_spec_validator"):
        try:
            run("openapi_spec_validator", BY_ITSELF, spec)
            found.append([])
        except ValueError as error:
            found.append([str(error)])
    if OPENAPI.exists() and python_with("jsonschema"):
        schema = json.loads(OPENAPI.read_text(encoding="utf-8"))
        found += faults_by_schema(schema, [[schema, spec]])
    return [fault for faults in found for fault in faults] if found else None
