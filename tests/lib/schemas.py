"""Values and the schemas of docs/openapi.json, by the few words of JSON Schema that the file uses."""

import json
import re

from program import TOP

API = json.loads((TOP / "docs" / "openapi.json").read_text())
WORDS = {"type", "pattern", "enum", "minimum", "maximum", "items", "minItems", "required", "properties", "$ref", "anyOf", "example"}
TYPES = {"string": str, "integer": int, "array": list, "object": dict, "null": type(None)}


def named(schema):
    """The schema, or the one that it refers to."""
    if "$ref" in schema:
        return API["components"]["schemas"][schema["$ref"].rpartition("/")[2]]
    return schema


def fits(value, schema):
    """Whether a value is as a schema says. An object has all its properties, and no other."""
    schema = named(schema)
    assert set(schema) <= WORDS, schema
    if "anyOf" in schema:
        return any(fits(value, one) for one in schema["anyOf"])
    if not isinstance(value, TYPES[schema["type"]]) or isinstance(value, bool):
        return False
    if schema["type"] == "null":
        return True
    if schema["type"] == "object":
        properties = schema["properties"]
        assert sorted(schema["required"]) == sorted(properties), schema
        return sorted(value) == sorted(properties) and all(fits(value[name], inner) for name, inner in properties.items())
    if schema["type"] == "array":
        return len(value) >= schema.get("minItems", 0) and all(fits(one, schema["items"]) for one in value)
    if schema["type"] == "integer":
        return schema.get("minimum", value) <= value <= schema.get("maximum", value)
    return re.search(schema.get("pattern", ""), value) is not None and value in schema.get("enum", [value])


# texts of all kinds, among which each pattern finds some that fit it and some that do not
TEXTS = ["", "A", "A1", "a1", "A-1", "-A1", "A 1", "É", "0", "A" * 8, "A" * 9, "A" * 12, "A" * 13, "abs", "Abs", "rel", "int", "link", "rel:KM2", "rel:", "abs:3000", "rel:KM2+5", "rel:KM2 5", "int:1/3", "abs:", "L", "R", "B", "l", "1", "2"]


def examples(schema):
    """Values at the bounds of a schema, as they are written in a query: those that fit it, and those that do not."""
    schema = named(schema)
    if schema["type"] == "array":
        return examples(schema["items"])
    if schema["type"] == "integer":
        least, greatest = schema["minimum"], schema["maximum"]
        return [f"{least}", f"{greatest}", f"00{greatest}"], [f"{least - 1}", f"{greatest + 1}", "", "x", "1.5", "+1", " 1", "1e3"]
    return [text for text in TEXTS if fits(text, schema)], [text for text in TEXTS if not fits(text, schema)]
