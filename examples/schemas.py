#!/usr/bin/env python3
"""Validates JSON documents and plan files against the schemas of docs/schema.

usage: examples/schemas.py FILE...

A FILE that ends in .toml is a plan file: the value that tomllib reads is validated against plan.json. Any other is a
document, and its `command` names its schema. It must begin with `command`, `version` and `plan`, in this order. Each
property of a schema must have a description. Prints what is wrong on standard error, with exit status 1.

Without the module jsonschema (Debian: python3-jsonschema), or for plan files without tomllib (Python 3.11), nothing is
validated: one line on standard error says so, and the exit status is 2."""
import json
import os
import sys

SCHEMAS = f"{os.path.dirname(os.path.dirname(os.path.realpath(__file__)))}/docs/schema"
HEAD = ["command", "version", "plan"]


def undescribed(schema, place):
    """Returns the properties of a schema, and of those in it, that have no description."""
    if isinstance(schema, list):
        return [it for index, part in enumerate(schema) for it in undescribed(part, f"{place}/{index}")]
    if not isinstance(schema, dict):
        return []
    found = []
    # (conditions name properties that are described elsewhere)
    for key, part in schema.items():
        if key == "properties":
            found += [f"{place}/{name}" for name, it in part.items() if not it.get("description")]
            found += [it for name, inner in part.items() for it in undescribed(inner, f"{place}/{name}")]
            if schema.get("additionalProperties") is not False:
                found.append(f"{place}: additionalProperties")
        elif key not in ("if", "then", "else", "allOf"):
            found += undescribed(part, f"{place}/{key}")
    return found


def schemas():
    """Returns each schema by its name."""
    found = {}
    for it in sorted(os.listdir(SCHEMAS)):
        with open(f"{SCHEMAS}/{it}", encoding="utf-8") as file:
            found[it.removesuffix(".json")] = json.load(file)
    return found


def value_of(path):
    """Returns the value of a file, and the name of its schema."""
    if path.endswith(".toml"):
        with open(path, "rb") as file:
            return tomllib.load(file), "plan"
    with open(path, encoding="utf-8") as file:
        value = json.load(file)
    return value, value.get("command") if isinstance(value, dict) else None


def faults_of(path, validators):
    """Returns what is wrong with a file."""
    value, name = value_of(path)
    if name not in validators:
        return [f"{path}: no schema is named {name}"]
    found = [f"{path}: /{'/'.join(map(str, it.absolute_path))}: {it.message}" for it in validators[name].iter_errors(value)]
    if name != "plan" and list(value)[: len(HEAD)] != HEAD:
        found.append(f"{path}: it does not begin with {', '.join(HEAD)}")
    return found


def main():
    files = sys.argv[1:]
    if not files:
        sys.exit(__doc__)
    told, validators = [], {}
    for name, schema in schemas().items():
        Draft202012Validator.check_schema(schema)
        validators[name] = Draft202012Validator(schema)
        told += [f"docs/schema/{name}.json: no description: {it}" for it in undescribed(schema, "")]
    for path in files:
        told += faults_of(path, validators)
    for it in told:
        print(it, file=sys.stderr)
    return 1 if told else 0


if __name__ == "__main__":
    try:
        import tomllib

        from jsonschema import Draft202012Validator
    except ImportError as error:
        print(f"schemas: no document is validated: there is no Python module {error.name}", file=sys.stderr)
        sys.exit(2)
    sys.exit(main())
