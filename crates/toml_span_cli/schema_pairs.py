#!/usr/bin/env python3
"""Compares `toml-span check --schema` with Python's jsonschema on generated pairs of a schema and a value.

    python3 crates/toml_span_cli/schema_pairs.py [--seed N] COUNT [PROGRAM]

PROGRAM is a build of toml_span_cli; by default scripts/native.sh makes one. Prints the first pairs with different
verdicts, and ends with status 1 if there is one.
"""

import json
import random
import sys

import jsonschema
from schema_suite import DEFAULTS, answers, built, toml

VALIDATORS = {
    "draft4": jsonschema.Draft4Validator,
    "draft6": jsonschema.Draft6Validator,
    "draft7": jsonschema.Draft7Validator,
    "draft2019-09": jsonschema.Draft201909Validator,
    "draft2020-12": jsonschema.Draft202012Validator,
}
NAMES = ["a", "b", "ab", "c"]
TYPES = ["boolean", "object", "array", "string", "number", "integer"]
PATTERNS = ["^a", "b$", "^[a-c]+$", ".", "^$", "\\d"]


def value(r, depth=3):
    kind = r.randrange(8 if depth else 5)
    if kind == 0:
        return r.choice([True, False])
    if kind <= 2:
        return r.choice([0, 1, 2, 3, -1, 1.5, 2.5, 10, 0.25, 0.1, 0.3, 2**53, 2**53 + 1, -(2**62), 1e15])
    if kind <= 4:
        return r.choice(["", "a", "b", "ab", "abc", "1", "\u00e9\u00e9"])
    if kind <= 5:
        return [value(r, depth - 1) for _ in range(r.randrange(4))]
    return {name: value(r, depth - 1) for name in r.sample(NAMES, r.randrange(4))}


def schema(r, draft, depth=3):
    if draft != "draft4" and r.random() < 0.08:
        return r.choice([True, False])
    made = {}
    for _ in range(r.choice([0, 1, 1, 2, 2, 3])):
        keyword = r.choice(list(KEYWORDS))
        first, deep, make = KEYWORDS[keyword]
        if list(DEFAULTS).index(draft) >= first and (depth or not deep):
            made[keyword] = make(r, draft, depth - 1)
    if "$ref" not in made and depth == 3 and r.random() < 0.3:
        made["properties"] = {"a": {"$ref": "#"}, "b": schema(r, draft, 2)}
    elif depth == 3 and r.random() < 0.5:
        made |= references(r, draft)
    return made


def references(r, draft):
    """Returns keywords that refer to schemas by a pointer, by an anchor and by a dynamic anchor, as the draft has them."""
    at = list(DEFAULTS).index(draft)
    place = "$defs" if at >= 3 else "definitions"
    made = {place: {"d": schema(r, draft, 2)}, "properties": {"a": {"$ref": f"#/{place}/d"}}}
    for name, first, anchor, word in (("b", 3, "$anchor", "$ref"), ("ab", 4, "$dynamicAnchor", "$dynamicRef")):
        inner = schema(r, draft, 2)
        if at >= first and isinstance(inner, dict):
            made[place][name] = {anchor: f"to_{name}", **inner}
            made["properties"][name] = {word: f"#to_{name}"}
    return made


def schemas(r, draft, depth):
    return [schema(r, draft, depth) for _ in range(r.randrange(1, 4))]


def members(names):
    return lambda r, draft, depth: {name: schema(r, draft, depth) for name in r.sample(names, r.randrange(1, 4))}


def items(r, draft, depth):
    if draft != "draft2020-12" and r.random() < 0.4:
        return schemas(r, draft, depth)
    return schema(r, draft, depth)


def count(r, draft, depth):
    return r.randrange(4)


def number(r, draft, depth):
    return r.choice([0, 1, 1.5, 2, -1, 0.1, 2**53, 2**53 + 1])


# keyword: the first draft, whether it has schemas inside, and how its value is made
KEYWORDS = {
    "type": (0, False, lambda r, *_: r.choice([r.choice(TYPES), r.sample(TYPES, 2)])),
    "enum": (0, False, lambda r, *_: [value(r, 1) for _ in range(3)]),
    "const": (1, False, lambda r, *_: value(r, 2)),
    "minimum": (0, False, number),
    "maximum": (0, False, number),
    "exclusiveMinimum": (1, False, number),
    "exclusiveMaximum": (1, False, number),
    "multipleOf": (0, False, lambda r, *_: r.choice([1, 2, 0.5, 3])),
    "minLength": (0, False, count),
    "maxLength": (0, False, count),
    "pattern": (0, False, lambda r, *_: r.choice(PATTERNS)),
    "minItems": (0, False, count),
    "maxItems": (0, False, count),
    "uniqueItems": (0, False, lambda r, *_: True),
    "minProperties": (0, False, count),
    "maxProperties": (0, False, count),
    "required": (0, False, lambda r, *_: r.sample(NAMES, r.randrange(1, 3))),
    "dependentRequired": (3, False, lambda r, *_: {r.choice(NAMES): r.sample(NAMES, 2)}),
    "allOf": (0, True, schemas),
    "anyOf": (0, True, schemas),
    "oneOf": (0, True, schemas),
    "not": (0, True, schema),
    "if": (2, True, schema),
    "then": (2, True, schema),
    "else": (2, True, schema),
    "dependentSchemas": (3, True, members(NAMES)),
    "items": (0, True, items),
    "additionalItems": (0, True, schema),
    "prefixItems": (4, True, schemas),
    "contains": (1, True, schema),
    "minContains": (3, False, count),
    "maxContains": (3, False, count),
    "properties": (0, True, members(NAMES)),
    "patternProperties": (0, True, members(PATTERNS)),
    "additionalProperties": (0, True, schema),
    "propertyNames": (1, True, schema),
    # Not in draft 2019-09, where jsonschema 4.26 refuses {"b": 1} by
    # {"if": {}, "unevaluatedProperties": false, "additionalProperties": {}}, unlike in draft 2020-12.
    "unevaluatedItems": (4, True, schema),
    "unevaluatedProperties": (4, True, schema),
}


def main(words):
    seed = 1
    if words[:1] == ["--seed"]:
        seed, words = int(words[1]), words[2:]
    if not words:
        sys.exit(__doc__)
    r = random.Random(seed)
    program = words[1] if len(words) > 1 else built()
    pairs, valid, different = 0, 0, 0
    while pairs < int(words[0]):
        draft = r.choice(list(VALIDATORS))
        made = schema(r, draft)
        if not isinstance(made, dict):
            continue
        made = {"$schema": DEFAULTS[draft], **made}
        values = [value(r) for _ in range(5)]
        validator = VALIDATORS[draft](made)
        try:
            verdicts = [validator.is_valid(v) for v in values]
        except TypeError:  # jsonschema 4.26 can't evaluate `items: true` of draft 2019-09 under `unevaluatedItems`
            continue
        found = answers(program, json.dumps(made), [toml(v) for v in values], "--no-formats")
        pairs, valid = pairs + len(values), valid + sum(verdicts)
        for answer, v, verdict in zip(found, values, verdicts, strict=True):
            if answer != ("valid" if verdict else "invalid"):
                different += 1
                if different <= 20:
                    print(f"{answer}, expected {verdict}: {json.dumps(made)} of {json.dumps(v)}")
    print(f"{pairs} pairs, {valid} valid, {different} different")
    return 1 if different else 0


if __name__ == "__main__":
    sys.exit(main(sys.argv[1:]))
