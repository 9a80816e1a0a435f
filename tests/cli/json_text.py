"""JSON that the program writes: read by python's json, by jq where that is there, and by docs/jb.schema.json."""
import json
import os
import shutil
import subprocess

SCHEMA = os.path.join(os.path.dirname(os.path.abspath(__file__)), "..", "..", "docs", "jb.schema.json")
with open(SCHEMA) as file:
    DEFINED = json.load(file)["$defs"]
JQ = shutil.which("jq")
TYPES = {"object": dict, "array": list, "string": str, "boolean": bool, "integer": int, "null": type(None)}


def is_of(value, schema):
    """Whether a value is as a schema says, as far as its words are those of the page."""
    if "$ref" in schema:
        return is_of(value, DEFINED[schema["$ref"].rpartition("/")[2]])
    if "anyOf" in schema and not any(is_of(value, one) for one in schema["anyOf"]):
        return False
    if "const" in schema and (type(value), value) != (type(schema["const"]), schema["const"]) or "enum" in schema and value not in schema["enum"]:
        return False
    if "type" in schema and type(value) is not TYPES[schema["type"]]:
        return False
    if type(value) is int and not schema.get("minimum", value) <= value <= schema.get("maximum", value):
        return False
    if type(value) is list:
        return len(value) <= schema.get("maxItems", len(value)) and all(is_of(one, schema.get("items", {})) for one in value)
    if type(value) is dict and "properties" in schema:
        known = schema["properties"]
        return set(schema.get("required", ())) <= set(value) <= set(known) and all(is_of(one, known[name]) for name, one in value.items())
    return True


def members(pairs):
    """An object's members, of which none comes twice."""
    if len(dict(pairs)) != len(pairs):
        raise ValueError("a member twice")
    return dict(pairs)


def rounded(text):
    """A text's value, its numbers as jq 1.6 has them: as doubles, which are whole up to 2^53."""
    return json.loads(text, parse_int=float)


def is_by_jq(text):
    """Whether jq reads the same value in a text as python does; where there is no jq, nothing is asked of it."""
    if not JQ:
        return True
    ran = subprocess.run([JQ, "-c", "."], input=text.encode(), capture_output=True)
    return ran.returncode == 0 and [rounded(line) for line in ran.stdout.decode().split("\n")[:-1]] == [rounded(text)]


def are_json(kind, wanted):
    """The same of lines with these values, one each."""

    def judge(text):
        lines = text.splitlines(True)
        return len(lines) == len(wanted) and all(is_json(kind, value)(line) for value, line in zip(wanted, lines))

    return judge


def is_json(kind, wanted):
    """Whether a text is one line with just this value, in this order of members, and of this kind by the schema."""

    def judge(text):
        try:
            value = json.loads(text, object_pairs_hook=members)
        except ValueError:
            return False
        compact = json.dumps(value, separators=(",", ":"), ensure_ascii=False) + "\n"
        return (value == wanted and list(value) == list(wanted) and text == compact and is_of(value, DEFINED[kind])
                and is_by_jq(text))

    return judge
