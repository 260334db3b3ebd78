"""The published schemas, and how the tools validate by them: whole numbers are no floats, and a pattern has to fit the whole text."""

import json
import math
import os
import re
from collections.abc import Callable, Iterator
from functools import cache
from typing import Any

from steelnewt_client.places import place

FOLDER = place("tools/schemas", "share/steelnewt/schemas")


class NoJsonschema(Exception):
    """Debian's package python3-jsonschema is missing."""


@cache
def whole(pattern: str) -> re.Pattern[str]:
    """The pattern as ECMA-262 reads it: `$` is the end, not the place before a last newline."""
    return re.compile(pattern.replace("$", r"\Z"), re.ASCII)


def inlined(node: Any, named: dict[str, Any]) -> Any:
    """A schema in which each definition stands where it is referred to: to look one up at each value takes most of the time."""
    if isinstance(node, list):
        return [inlined(it, named) for it in node]
    if not isinstance(node, dict):
        return node
    found = {key: inlined(it, named) for key, it in node.items() if key != "$ref"}
    if "$ref" in node:
        return inlined(named[node["$ref"].removeprefix("#/$defs/")], named) | found
    return found


@cache
def document(name: str) -> dict[str, Any]:
    with open(os.path.join(FOLDER, f"{name}.schema.json"), encoding="utf-8") as file:
        found: dict[str, Any] = json.load(file)
    return found


@cache
def day_form() -> re.Pattern[str]:
    return whole(document("roster")["$defs"]["day"]["pattern"])


def has_form(text: str, form: str) -> bool:
    """Whether a text has a form that both schemas define."""
    return whole(document("message")["$defs"][form]["pattern"]).search(text) is not None


@cache
def validator(name: str) -> Any:
    try:
        from jsonschema import Draft202012Validator, ValidationError, validators
    except ImportError:
        raise NoJsonschema from None

    def pattern(_validator: Any, wanted: str, instance: Any, _schema: Any) -> Iterator[Any]:
        if isinstance(instance, str) and not whole(wanted).search(instance):
            yield ValidationError(f"{instance!r} does not match")

    def is_integer(_checker: Any, instance: Any) -> bool:
        return isinstance(instance, int) and not isinstance(instance, bool)

    checker = Draft202012Validator.TYPE_CHECKER.redefine("integer", is_integer)
    strict = validators.extend(Draft202012Validator, {"pattern": pattern}, type_checker=checker)
    schema = document(name)
    return strict(inlined(schema, schema["$defs"]))


Check = Callable[[Any], bool]
TYPES = {"string": str, "object": dict, "array": list, "integer": int}
KNOWN = set(
    "$schema $id $defs title description examples type pattern properties required items "
    "additionalProperties propertyNames minItems maxItems maxProperties minimum maximum".split()
)


@cache
def fits(name: str) -> Check:
    """Whether a value is what the schema says: quick, and without a word on what is not. A schema
    with other keywords than are known here fits nothing, so that the validator is asked."""
    schema = document(name)
    return check_of(inlined(schema, schema["$defs"]))


def check_of(node: Any) -> Check:
    if not isinstance(node, dict) or "type" not in node or set(node) - KNOWN:
        return lambda value: bool(node == {})
    kinds = [node["type"]] if isinstance(node["type"], str) else node["type"]
    makers = {str: text_check, dict: table_check, list: list_check, int: number_check}
    checks = {kind: makers[kind](node) for kind in (TYPES[kind] for kind in kinds)}
    return lambda value: type(value) in checks and checks[type(value)](value)


def text_check(node: dict[str, Any]) -> Check:
    form = whole(node.get("pattern", ""))
    return lambda value: form.search(value) is not None


def number_check(node: dict[str, Any]) -> Check:
    least, most = node.get("minimum", -math.inf), node.get("maximum", math.inf)
    return lambda value: bool(least <= value <= most)


def list_check(node: dict[str, Any]) -> Check:
    least, most = node.get("minItems", 0), node.get("maxItems", math.inf)
    item = check_of(node.get("items", {}))
    return lambda value: least <= len(value) <= most and all(map(item, value))


def table_check(node: dict[str, Any]) -> Check:
    most, required = node.get("maxProperties", math.inf), set(node.get("required", ()))
    members = {key: check_of(it) for key, it in node.get("properties", {}).items()}
    name, other = (check_of(node.get(it, {})) for it in ("propertyNames", "additionalProperties"))

    def check(value: dict[str, Any]) -> bool:
        return (
            len(value) <= most
            and required <= value.keys()
            and all(map(name, value))
            and all(members.get(key, other)(it) for key, it in value.items())
        )

    return check
