"""The description of all paths, as OpenAPI, from the table of questions."""

from .questions import QUESTIONS, Flag

REFUSALS = {
    "400": "the query is refused",
    "403": "a page of another origin asks",
    "408": "the client sends too slowly",
    "413": "more than 1,048,576 bytes",
    "415": "another type than a record's",
    "422": "the record is refused, with name and number",
    "429": "too many questions wait; Retry-After says when to ask again",
    "500": "the program failed",
    "503": "the server is being ended",
    "504": "the time is up",
}
REFUSAL = {
    "type": "object",
    "required": ["status", "error"],
    "properties": {
        "status": {"type": "integer"},
        "error": {"type": "string"},
        "remedy": {"type": "string"},
        "name": {"type": "string", "enum": ["sgf", "problem"]},
        "number": {"type": "integer"},
    },
}


def answer(about, kinds):
    headers = {
        "Tsumego-Exit-Code": {"description": "0 answered, 1 unknown or rejected", "schema": {"type": "integer"}},
        "Tsumego-First-Line": {"description": "at most 200 characters of the answer's first line", "schema": {"type": "string"}},
    }
    return {"description": about, "headers": headers, "content": {kind: {} for kind in kinds}}


def question(name, asked):
    flags = {flag: "the answer in another form" for flag in asked.chosen}
    words = [(word, value.about, value.schema, isinstance(value, Flag)) for word, value in asked.query.items()]
    words += [(word, about, {"type": "boolean"}, True) for word, about in flags.items()]
    parameters = [
        {"name": word, "in": "query", "description": about, "schema": schema, **({"allowEmptyValue": True} if flag else {})}
        for word, about, schema, flag in words
    ]
    refusals = {
        status: {"description": about, "content": {"application/json": {"schema": {"$ref": "#/components/schemas/Refusal"}}}}
        for status, about in REFUSALS.items()
    }
    kinds = {asked.kind: None, **{kind: None for _, kind in asked.chosen.values()}, "text/plain": None}
    return {
        "summary": asked.about,
        "operationId": name.replace("-", "_"),
        "parameters": parameters,
        "requestBody": {"required": True, "content": {"application/x-go-sgf": {}, "text/plain": {}}},
        "responses": {"200": answer("the program's output", kinds), **refusals},
    }


def description(version):
    """The whole description."""
    gets = {
        "/": ("The page to ask in a browser.", "text/html"),
        "/health": ("What runs and waits.", "application/json"),
        "/version": ("The versions of all programs.", "application/json"),
        "/openapi.json": ("This description.", "application/json"),
    }
    paths = {
        path: {"get": {"summary": about, "responses": {"200": {"description": about, "content": {kind: {}}}}}}
        for path, (about, kind) in gets.items()
    }
    paths.update({f"/{name}": {"post": question(name, asked)} for name, asked in QUESTIONS.items()})
    about = "Questions of life and death in Go. The body of each is the record as it is, the answer the program's output."
    return {
        "openapi": "3.0.3",
        "info": {"title": "tsumego-server", "version": version, "description": about},
        "servers": [{"url": "."}],
        "paths": paths,
        "components": {"schemas": {"Refusal": REFUSAL}},
    }
