"""The workloads of `run.py`: each gives a schema and an instance, made here from nothing but numbers."""

import json


def compact(value):
    return json.dumps(value, separators=(",", ":"), ensure_ascii=False)


def small_object():
    schema = {
        "type": "object",
        "required": ["id", "name"],
        "properties": {
            "id": {"type": "integer", "minimum": 1},
            "name": {"type": "string", "maxLength": 40},
            "tags": {"type": "array", "items": {"type": "string"}},
            "active": {"type": "boolean"},
        },
    }
    instance = {"id": 4711, "name": "Ada Lovelace", "tags": ["a", "b"], "active": True}
    return schema, instance


def order_line(number):
    return {
        "sku": f"LA-{number:04}",
        "name": f"Desk lamp, model {number}",
        "count": number % 7 + 1,
        "price": {"cents": 3495 + number, "currency": "EUR"},
        "gift": number % 5 == 0,
    }


ORDER_LINE = {
    "type": "object",
    "required": ["sku", "count", "price"],
    "properties": {
        "sku": {"type": "string", "minLength": 3, "maxLength": 12},
        "name": {"type": "string", "maxLength": 80},
        "count": {"type": "integer", "minimum": 1, "maximum": 999},
        "price": {
            "type": "object",
            "required": ["cents", "currency"],
            "properties": {
                "cents": {"type": "integer", "minimum": 0},
                "currency": {"enum": ["EUR", "GBP", "USD"]},
            },
            "additionalProperties": False,
        },
        "gift": {"type": "boolean"},
    },
    "additionalProperties": False,
}

ADDRESS = {
    "type": "object",
    "required": ["street", "town", "country"],
    "properties": {name: {"type": "string", "maxLength": 60} for name in ("street", "town", "postcode", "country")},
}


def order():
    """An order of some 2 KB."""
    schema = {
        "$id": "https://example.com/order",
        "type": "object",
        "required": ["number", "customer", "lines"],
        "properties": {
            "number": {"type": "integer", "minimum": 1},
            "customer": {
                "type": "object",
                "required": ["name"],
                "properties": {
                    "name": {"type": "string"},
                    "mail": {"type": "string", "format": "email", "maxLength": 100},
                    "home": {"$ref": "#/$defs/address"},
                },
            },
            "deliver_to": {"$ref": "#/$defs/address"},
            "lines": {"type": "array", "minItems": 1, "items": {"$ref": "#/$defs/line"}},
            "note": {"type": "string", "maxLength": 200},
        },
        "$defs": {"address": ADDRESS, "line": ORDER_LINE},
    }
    home = {"street": "12 St James's Square", "town": "London", "postcode": "SW1Y 4JH", "country": "GB"}
    instance = {
        "number": 20417,
        "customer": {"name": "Ada Lovelace", "mail": "ada@example.com", "home": home},
        "deliver_to": home,
        "lines": [order_line(number) for number in range(15)],
        "note": "Please ring twice.",
    }
    return schema, instance


def order_list(size):
    """A list of order lines of so many bytes."""
    lines, length = [], 2
    while length < size:
        lines.append(order_line(len(lines)))
        length += len(compact(lines[-1])) + 1
    return {"type": "array", "items": ORDER_LINE}, lines


def references():
    """A tree whose every node is reached through four references."""
    definitions = {
        "node": {"$ref": "#/$defs/named"},
        "named": {"$ref": "#/$defs/sized", "required": ["name"]},
        "sized": {"$ref": "#/$defs/tree"},
        "tree": {
            "properties": {
                "name": {"type": "string"},
                "children": {"type": "array", "items": {"$ref": "#/$defs/node"}},
            }
        },
    }

    def tree(depth):
        return {"name": "node", "children": [tree(depth - 1) for _ in range(4)] if depth else []}

    return {"$ref": "#/$defs/node", "$defs": definitions}, tree(5)


def unevaluated():
    """Objects that are closed over the members of four schemas."""
    parts = [{"properties": {f"{letter}{number}": {"type": "integer"} for number in range(5)}} for letter in "abcd"]
    schema = {"type": "array", "items": {"allOf": parts, "unevaluatedProperties": False}}
    item = {f"{letter}{number}": number for letter in "abcd" for number in range(5)}
    return schema, [item] * 200


def patterns():
    """Texts and names that are searched for patterns."""
    schema = {
        "type": "array",
        "items": {
            "type": "object",
            "properties": {
                "day": {"pattern": "^[0-9]{4}-[0-9]{2}-[0-9]{2}$"},
                "mail": {"pattern": "^[^@ ]+@[a-z0-9.-]+\\.[a-z]{2,}$"},
            },
            "patternProperties": {"^x-[a-z]+$": {"type": "string"}, "_id$": {"pattern": "^[A-Z]{2}-[0-9]+$"}},
            "additionalProperties": {"type": "boolean"},
        },
    }
    item = {
        "day": "2024-02-29",
        "mail": "ada.lovelace@example.com",
        "x-note": "none",
        "order_id": "LA-4711",
        "user_id": "UK-1815",
        "paid": True,
    }
    return schema, [item] * 500


def contact():
    """A contact of eight members, five of which are searched for a pattern."""
    schema = {
        "type": "object",
        "required": ["id", "name", "mail"],
        "properties": {
            "id": {"type": "string", "pattern": "^[0-9a-f]{8}(-[0-9a-f]{4}){3}-[0-9a-f]{12}$"},
            "name": {"type": "string", "pattern": "^[A-Z][a-z]+( [A-Z][a-z]+)*$"},
            "mail": {"type": "string", "pattern": "^[^@ ]+@[a-z0-9.-]+\\.[a-z]{2,}$"},
            "born": {"type": "string", "pattern": "^[0-9]{4}-[0-9]{2}-[0-9]{2}$"},
            "page": {"type": "string", "pattern": "^https?://[a-z0-9.-]+(/[A-Za-z0-9._~-]*)*$"},
            "town": {"type": "string"},
            "rank": {"type": "integer"},
            "open": {"type": "boolean"},
        },
    }
    instance = {
        "id": "5f0c2a4e-9d3b-4c61-8f7a-2b1e6d90c354",
        "name": "Ada King Lovelace",
        "mail": "ada.lovelace@example.com",
        "born": "1815-12-10",
        "page": "https://example.com/people/ada-lovelace",
        "town": "London",
        "rank": 1,
        "open": True,
    }
    return schema, instance


def many_patterns(count):
    """So many patterns, for each of which one text is searched."""
    schema = {"properties": {f"m{number}": {"pattern": f"^[a-z]{{2}}-{number}$"} for number in range(count)}}
    return schema, {f"m{number}": f"ab-{number}" for number in range(count)}


def elements():
    """As many elements as may be applied to."""
    return {"items": True}, [0] * 99_999


def failing(count):
    """An instance with three error units for each of so many elements."""
    schema = {
        "type": "array",
        "items": {"required": ["name"], "properties": {"count": {"type": "integer", "minimum": 1}}},
    }
    return schema, [{"count": 0, "size": number} for number in range(count)]


# Names with quotation marks, backslashes, tabs and letters of other scripts, and as many plain ones of as many bytes.
ESCAPED_NAMES = (
    'called "Ada"', "C:\\orders\\1", "tab\there\tand", "Größe in cm", "数量と値段", "Цена за шт", 'the "last" \\', "\u0001 of 2 \U0001d54f",
)


def plain_name(name):
    """As many bytes, each of which stands as it is."""
    return "".join(chr(97 + byte % 26) for byte in name.encode())


def names(escaped):
    """Objects of objects, whose names a string of JSON escapes, or plain ones."""
    held = [name if escaped else plain_name(name) for name in ESCAPED_NAMES]
    schema = {
        "type": "array",
        "items": {
            "additionalProperties": {
                "title": "a part",
                "additionalProperties": {"type": "integer", "description": "how many there are of it"},
            },
        },
    }
    part = {name: number for number, name in enumerate(held)}
    return schema, [{name: part for name in held}] * 60
