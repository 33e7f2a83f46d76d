"""Compares the objects that `--json` prints with docs/answers.schema.json: its members, all of them and no others.

Of JSON Schema it knows the words that this schema has, and refuses any other.
"""
import json
import pathlib
import re

SCHEMA = json.loads((pathlib.Path(__file__).resolve().parent.parent.parent / "docs/answers.schema.json").read_text())
TYPES = {"object": dict, "array": list, "string": str, "boolean": bool, "integer": int, "null": type(None)}
WORDS = {"$schema", "$defs", "$ref", "title", "oneOf", "type", "const", "enum", "minimum", "pattern"}
WORDS |= {"properties", "required", "additionalProperties", "items"}


def is_of_type(value, name):
    return isinstance(value, TYPES[name]) and (name != "integer" or not isinstance(value, bool))


def has_members(schema, value):
    """Whether an object has the members that a schema asks for, and no others."""
    known, others = schema.get("properties", {}), schema.get("additionalProperties", True)
    if not set(schema.get("required", [])) <= set(value):
        return False
    return all(fits(known.get(name, others), member) for name, member in value.items())


def fits(schema, value):
    """Whether a value is one of a schema."""
    if isinstance(schema, bool):
        return schema
    if unknown := set(schema) - WORDS:
        raise ValueError(f"the schema has a word that isn't known here: {min(unknown)}")
    if "$ref" in schema:
        return fits(SCHEMA["$defs"][schema["$ref"].removeprefix("#/$defs/")], value)
    if "oneOf" in schema:
        return sum(fits(one, value) for one in schema["oneOf"]) == 1
    if "const" in schema:
        return value == schema["const"]
    if "enum" in schema:
        return value in schema["enum"]
    types = schema["type"] if isinstance(schema["type"], list) else [schema["type"]]
    if not any(is_of_type(value, name) for name in types):
        return False
    if isinstance(value, dict):
        return has_members(schema, value)
    if isinstance(value, list):
        return all(fits(schema.get("items", True), one) for one in value)
    if isinstance(value, str):
        return re.search(schema.get("pattern", ""), value) is not None
    return value is None or isinstance(value, bool) or value >= schema.get("minimum", value)


def without_each(value):
    """The object without one of its members, or of those of the objects in it; but labels may be any."""
    for name in value:
        yield {other: member for other, member in value.items() if other != name}
        if name == "alert":
            yield from ({**value, name: less} for less in without_each(value[name]))


def fault_of(line):
    """What is wrong with a printed line, if anything is; and whether the schema would notice a member more or less."""
    try:
        value = json.loads(line)
    except ValueError:
        return "a line that is no JSON"
    if not isinstance(value, dict) or not fits(SCHEMA, value):
        return "an object that isn't in docs/answers.schema.json"
    if fits(SCHEMA, {**value, "more": 1}):
        return "docs/answers.schema.json allows a member that isn't named"
    # Without `do` the refusal of a call is that of a line, and without `sub` what came by itself is an answer of the line.
    fewer = [less for less in without_each(value) if value.get("answer") != "refused" or "do" in less and "fault" in less]
    fewer = [less for less in fewer if ("sub" in less) == ("sub" in value)]
    if any(fits(SCHEMA, less) for less in fewer):
        return "docs/answers.schema.json doesn't ask for each member"
    return None
