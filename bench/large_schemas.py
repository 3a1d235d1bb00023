"""Workloads of `run.py` with large schemas: a schema of schemas, and two of descriptions of interfaces."""

from workloads import compact, contact, order

# ---- a schema of schemas: eight resources, each of which a schema may be extended by

DIALECT = "https://example.com/dialect/"
SUBSCHEMA = {"$dynamicRef": "#meta"}
SUBSCHEMAS = {"type": "array", "minItems": 1, "items": SUBSCHEMA}
NAMED_SUBSCHEMAS = {"type": "object", "additionalProperties": SUBSCHEMA, "default": {}}
COUNT = {"type": "integer", "minimum": 0}
NAMES = {"type": "array", "items": {"type": "string"}, "uniqueItems": True, "default": []}
TYPES = {"enum": ["array", "boolean", "integer", "null", "number", "object", "string"]}

VOCABULARIES = {
    "core": {
        "$id": {"type": "string", "format": "uri-reference", "pattern": "^[^#]*#?$"},
        "$schema": {"type": "string", "format": "uri"},
        "$ref": {"type": "string", "format": "uri-reference"},
        "$dynamicRef": {"type": "string", "format": "uri-reference"},
        "$anchor": {"type": "string", "pattern": "^[A-Za-z_][-A-Za-z0-9._]*$"},
        "$dynamicAnchor": {"type": "string", "pattern": "^[A-Za-z_][-A-Za-z0-9._]*$"},
        "$comment": {"type": "string"},
        "$defs": NAMED_SUBSCHEMAS,
    },
    "applicator": {
        **{name: SUBSCHEMAS for name in ("prefixItems", "allOf", "anyOf", "oneOf")},
        **{name: SUBSCHEMA for name in ("items", "contains", "additionalProperties", "propertyNames", "if", "then", "else", "not")},
        **{name: NAMED_SUBSCHEMAS for name in ("properties", "dependentSchemas")},
        "patternProperties": {**NAMED_SUBSCHEMAS, "propertyNames": {"format": "regex"}},
    },
    "unevaluated": {"unevaluatedItems": SUBSCHEMA, "unevaluatedProperties": SUBSCHEMA},
    "validation": {
        "type": {"anyOf": [TYPES, {"type": "array", "items": TYPES, "minItems": 1, "uniqueItems": True}]},
        "const": True,
        "enum": {"type": "array", "items": True},
        "multipleOf": {"type": "number", "exclusiveMinimum": 0},
        **{name: {"type": "number"} for name in ("maximum", "exclusiveMaximum", "minimum", "exclusiveMinimum")},
        **{name: COUNT for name in ("maxLength", "maxItems", "maxContains", "maxProperties")},
        **{name: {**COUNT, "default": 0} for name in ("minLength", "minItems", "minProperties")},
        "minContains": {**COUNT, "default": 1},
        "pattern": {"type": "string", "format": "regex"},
        "uniqueItems": {"type": "boolean", "default": False},
        "required": NAMES,
        "dependentRequired": {"type": "object", "additionalProperties": NAMES},
    },
    "meta-data": {
        **{name: {"type": "string"} for name in ("title", "description")},
        **{name: {"type": "boolean", "default": False} for name in ("deprecated", "readOnly", "writeOnly")},
        "default": True,
        "examples": {"type": "array", "items": True},
    },
    "format-annotation": {"format": {"type": "string"}},
    "content": {**{name: {"type": "string"} for name in ("contentEncoding", "contentMediaType")}, "contentSchema": SUBSCHEMA},
}


def vocabulary(name):
    return {
        "$id": f"{DIALECT}meta/{name}",
        "$dynamicAnchor": "meta",
        "title": f"The vocabulary {name}",
        "type": ["object", "boolean"],
        "properties": VOCABULARIES[name],
    }


def schema_of_schemas():
    """A schema of some 2 KB, judged by the schema of its dialect."""
    schema = {
        "$id": f"{DIALECT}schema",
        "$dynamicAnchor": "meta",
        "type": ["object", "boolean"],
        "allOf": [{"$ref": f"meta/{name}"} for name in VOCABULARIES],
        "$defs": {name: vocabulary(name) for name in VOCABULARIES},
    }
    written = {**order()[0], "description": "An order, and whom to ask about it", "examples": [order()[1]["customer"]]}
    return schema, {**written, "$defs": {**written["$defs"], "contact": contact()[0]}}


# ---- an API description: definitions that refer to one another, closed, with extensions

TEXT = {"type": "string"}
FLAG = {"type": "boolean", "default": False}
ADDRESS_TEXT = {"type": "string", "format": "uri-reference"}


def one(name):
    return {"$ref": f"#/$defs/{name}"}


def listed(name):
    return one(f"list-of-{name}")


def named(name):
    return one(f"map-of-{name}")


# The kinds of objects with their members. Of those in REPLACEABLE a reference may stand in their place.
KINDS = {
    "description": {
        "openapi": {"type": "string", "pattern": "^3\\.1\\.[0-9]+$"},
        "info": one("info"), "servers": listed("server"), "paths": one("paths"), "webhooks": named("path-item"),
        "components": one("components"), "security": listed("security-requirement"), "tags": listed("tag"),
        "externalDocs": one("external-documentation"),
    },
    "info": {
        **{name: TEXT for name in ("title", "summary", "description", "version")},
        "termsOfService": ADDRESS_TEXT, "contact": one("contact"), "license": one("license"),
    },
    "contact": {"name": TEXT, "url": ADDRESS_TEXT, "email": {"type": "string", "format": "email"}},
    "license": {"name": TEXT, "identifier": TEXT, "url": ADDRESS_TEXT},
    "server": {"url": ADDRESS_TEXT, "description": TEXT, "variables": named("server-variable")},
    "server-variable": {"enum": {"type": "array", "items": TEXT, "minItems": 1}, "default": TEXT, "description": TEXT},
    "components": {
        "schemas": named("schema"), "responses": named("response-or-reference"),
        "parameters": named("parameter-or-reference"), "examples": named("example-or-reference"),
        "requestBodies": named("request-body-or-reference"), "headers": named("header-or-reference"),
        "securitySchemes": named("security-scheme-or-reference"), "links": named("link-or-reference"),
        "callbacks": named("callbacks-or-reference"), "pathItems": named("path-item"),
    },
    "path-item": {
        "summary": TEXT, "description": TEXT, "servers": listed("server"), "parameters": listed("parameter-or-reference"),
        **{method: one("operation") for method in ("get", "put", "post", "delete", "options", "head", "patch", "trace")},
    },
    "operation": {
        "tags": {"type": "array", "items": TEXT}, "summary": TEXT, "description": TEXT, "operationId": TEXT,
        "externalDocs": one("external-documentation"), "parameters": listed("parameter-or-reference"),
        "requestBody": one("request-body-or-reference"), "responses": one("responses"),
        "callbacks": named("callbacks-or-reference"), "deprecated": FLAG, "security": listed("security-requirement"),
        "servers": listed("server"),
    },
    "external-documentation": {"description": TEXT, "url": ADDRESS_TEXT},
    "parameter": {
        "name": TEXT, "in": {"enum": ["query", "header", "path", "cookie"]}, "description": TEXT, "required": FLAG,
        "deprecated": FLAG, "style": TEXT, "explode": FLAG, "schema": one("schema"), "content": one("content"),
        "example": True, "examples": named("example-or-reference"),
    },
    "request-body": {"description": TEXT, "content": one("content"), "required": FLAG},
    "media-type": {
        "schema": one("schema"), "encoding": named("encoding"), "example": True, "examples": named("example-or-reference"),
    },
    "encoding": {
        "contentType": TEXT, "headers": named("header-or-reference"), "style": TEXT, "explode": FLAG, "allowReserved": FLAG,
    },
    "response": {
        "description": TEXT, "headers": named("header-or-reference"), "content": one("content"),
        "links": named("link-or-reference"),
    },
    "example": {"summary": TEXT, "description": TEXT, "value": True, "externalValue": ADDRESS_TEXT},
    "link": {
        "operationRef": ADDRESS_TEXT, "operationId": TEXT, "parameters": {"type": "object", "additionalProperties": TEXT},
        "description": TEXT, "server": one("server"),
    },
    "header": {
        "description": TEXT, "required": FLAG, "deprecated": FLAG, "style": TEXT, "explode": FLAG, "schema": one("schema"),
        "content": one("content"),
    },
    "tag": {"name": TEXT, "description": TEXT, "externalDocs": one("external-documentation")},
    "security-scheme": {
        "type": {"enum": ["apiKey", "http", "mutualTLS", "oauth2", "openIdConnect"]}, "description": TEXT, "name": TEXT,
        "in": {"enum": ["query", "header", "cookie"]}, "scheme": TEXT, "flows": one("flows"),
        "openIdConnectUrl": ADDRESS_TEXT,
    },
    "flows": {name: one("flow") for name in ("implicit", "password", "clientCredentials", "authorizationCode")},
    "flow": {
        **{name: ADDRESS_TEXT for name in ("authorizationUrl", "tokenUrl", "refreshUrl")},
        "scopes": {"type": "object", "additionalProperties": TEXT},
    },
    "discriminator": {"propertyName": TEXT, "mapping": {"type": "object", "additionalProperties": TEXT}},
    "xml": {"name": TEXT, "namespace": ADDRESS_TEXT, "prefix": TEXT, "attribute": FLAG, "wrapped": FLAG},
}

REQUIRED = {
    "description": ["openapi", "info"], "info": ["title", "version"], "server": ["url"], "parameter": ["name", "in"],
    "request-body": ["content"], "response": ["description"], "tag": ["name"], "security-scheme": ["type"],
}
REPLACEABLE = ("callbacks", "example", "header", "link", "parameter", "request-body", "response", "security-scheme")
EXTENSIONS = {"patternProperties": {"^x-": True}}


def kind(name):
    return {
        "type": "object",
        "properties": KINDS[name],
        "required": REQUIRED.get(name, []),
        "$ref": "#/$defs/extensions",
        "unevaluatedProperties": False,
    }


def mapped(pattern, name):
    """An object whose members' names match a pattern."""
    return {
        "type": "object",
        "patternProperties": {pattern: one(name)},
        "$ref": "#/$defs/extensions",
        "unevaluatedProperties": False,
    }


def api_description():
    """A description of some 25 KB of an interface over HTTP."""
    definitions = {
        **{name: kind(name) for name in KINDS},
        **{f"{name}-or-reference": {"oneOf": [one("reference"), one(name)]} for name in REPLACEABLE},
        "reference": {
            "type": "object",
            "properties": {"$ref": ADDRESS_TEXT, "summary": TEXT, "description": TEXT},
            "required": ["$ref"],
        },
        "extensions": EXTENSIONS,
        "schema": {"type": ["object", "boolean"]},
        "content": {"type": "object", "additionalProperties": one("media-type")},
        "security-requirement": named("scopes"),
        "scopes": {"type": "array", "items": TEXT},
        "paths": mapped("^/", "path-item"),
        "responses": mapped("^([1-5][0-9][0-9]|default)$", "response-or-reference"),
        "callbacks": {"type": "object", "additionalProperties": one("path-item")},
    }
    for name in ("server", "tag", "security-requirement", "parameter-or-reference"):
        definitions[f"list-of-{name}"] = {"type": "array", "items": one(name)}
    for name in ("path-item", "server-variable", "schema", "encoding", "scopes", *(f"{name}-or-reference" for name in REPLACEABLE)):
        definitions[f"map-of-{name}"] = {"type": "object", "additionalProperties": one(name)}
    for name in REPLACEABLE:
        if name != "callbacks":
            definitions[name]["not"] = {"required": ["$ref"]}
    return {"$id": "https://example.com/api", "$ref": "#/$defs/description", "$defs": definitions}, described_interface(28)


# Patterns of members' names, as the schemas of such descriptions have them: a string of JSON escapes the backslashes.
PATH = "^\\/"
EXTENSION = "^x-"
COMPONENT = "^[a-zA-Z0-9\\.\\-_]+$"
STATUS = "^[1-5](?:\\d{2}|XX)$"
REFERENCE = "^\\$ref$"


def or_reference(name):
    return {"oneOf": [one("reference"), one(name)]}


def kind_with_extensions(name):
    return {
        "type": "object",
        "required": REQUIRED.get(name, []),
        "properties": KINDS[name],
        "patternProperties": {EXTENSION: {}},
        "additionalProperties": False,
    }


def by_names(schema):
    return {"type": "object", "patternProperties": {COMPONENT: schema}}


def api_description_by_patterns():
    """A description of some 26 KB, by a schema whose patterns of names a string of JSON escapes, four levels deep."""
    schema = {
        "type": "object",
        "properties": {
            "type": TEXT,
            "maximum": {"type": "number"},
            "properties": by_names({"oneOf": [one("reference"), one("schema")]}),
        },
        "patternProperties": {EXTENSION: {}},
        "additionalProperties": False,
    }
    definitions = {
        **{name: kind_with_extensions(name) for name in KINDS},
        "reference": {"type": "object", "required": ["$ref"], "patternProperties": {REFERENCE: ADDRESS_TEXT}},
        "schema": or_reference("written-schema"),
        "written-schema": schema,
        "content": {"type": "object", "additionalProperties": one("media-type")},
        "security-requirement": by_names(one("scopes")),
        "scopes": {"type": "array", "items": TEXT},
        "paths": {
            "type": "object",
            "patternProperties": {PATH: one("path-item"), EXTENSION: {}},
            "additionalProperties": False,
        },
        "responses": {
            "type": "object",
            "properties": {"default": or_reference("response")},
            "patternProperties": {STATUS: or_reference("response"), EXTENSION: {}},
            "minProperties": 1,
            "additionalProperties": False,
        },
        "callbacks": {"type": "object", "patternProperties": {PATH: one("path-item")}},
    }
    for name in ("server", "tag", "security-requirement"):
        definitions[f"list-of-{name}"] = {"type": "array", "items": one(name)}
    definitions["list-of-parameter-or-reference"] = {"type": "array", "items": or_reference("parameter")}
    for name in REPLACEABLE:
        definitions[f"{name}-or-reference"] = or_reference(name)
        definitions[f"map-of-{name}-or-reference"] = by_names(or_reference(name))
    for name in ("path-item", "server-variable", "schema", "encoding", "scopes"):
        definitions[f"map-of-{name}"] = by_names(one(name))
    root = {"$id": "https://example.com/api/3.0", **kind_with_extensions("description"), "$defs": definitions}
    return root, explained(described_interface(13), 26_000)


def explained(interface, size):
    """The interface with texts that tell of each operation, so long that it has some so many bytes."""
    operations = [path[method] for path in interface["paths"].values() for method in ("get", "post")]
    each = (size - len(compact(interface))) // len(operations) - len(compact({"description": ""}))
    told = "What it does, whom it is for, and what comes back. " * (each // 50 + 1)
    for operation in operations:
        operation["description"] = told[:each].rstrip()
    return interface


def described_interface(count):
    """An interface to so many collections."""
    failed = {"$ref": "#/components/responses/Failed"}

    def answer(text, name):
        return {"description": text, "content": {"application/json": {"schema": {"$ref": f"#/components/schemas/{name}"}}}}

    def collection(number):
        name = f"Item{number}"
        body = {"content": {"application/json": {"schema": {"$ref": f"#/components/schemas/{name}"}}}, "required": True}
        return {
            "summary": f"The items of kind {number}",
            "parameters": [{"$ref": "#/components/parameters/limit"}],
            "get": {
                "operationId": f"list{name}",
                "tags": ["items"],
                "parameters": [{"name": "after", "in": "query", "schema": {"type": "string"}}],
                "responses": {"200": answer("The items", name), "default": failed},
            },
            "post": {
                "operationId": f"make{name}",
                "tags": ["items"],
                "requestBody": body,
                "responses": {"201": answer("The new item", name), "default": failed},
                "x-cost": 2,
            },
        }

    return {
        "openapi": "3.1.0",
        "info": {"title": "A store", "version": "1.0.0", "contact": {"name": "Ada", "email": "ada@example.com"}},
        "servers": [{"url": "https://store.example.com/v1"}],
        "tags": [{"name": "items", "description": "What is kept"}],
        "paths": {f"/items/{number}": collection(number) for number in range(count)},
        "components": {
            "schemas": {
                f"Item{number}": {"type": "object", "properties": {"id": {"type": "string"}, "count": {"type": "integer"}}}
                for number in range(count)
            },
            "parameters": {"limit": {"name": "limit", "in": "query", "schema": {"type": "integer", "maximum": 100}}},
            "responses": {"Failed": {"description": "What went wrong", "content": {"application/json": {}}}},
            "securitySchemes": {"key": {"type": "apiKey", "in": "header", "name": "X-Key"}},
        },
        "security": [{"key": []}],
        "x-store": {"region": "eu"},
    }
