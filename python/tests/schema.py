"""As much of JSON Schema as docs/show.schema.json uses."""

TYPES = {"object": dict, "array": list, "string": str, "integer": int, "null": type(None), "boolean": bool}


def is_of(kind, value):
    return isinstance(value, TYPES[kind]) and not (kind == "integer" and isinstance(value, bool))


def check(schema, value, root=None, place="$"):
    """What is wrong with a value, a sentence each."""
    root = root or schema
    if "$ref" in schema:
        return check(root["$defs"][schema["$ref"].rsplit("/", 1)[1]], value, root, place)
    if "oneOf" in schema:
        fits = [one for one in schema["oneOf"] if not check(one, value, root, place)]
        return [] if len(fits) == 1 else [f"{place}: {len(fits)} of its forms fit"]
    kinds = schema.get("type", list(TYPES))
    if not any(is_of(kind, value) for kind in ([kinds] if isinstance(kinds, str) else kinds)):
        return [f"{place}: no {kinds}"]
    return [*of_value(schema, value, place), *of_object(schema, value, root, place), *of_array(schema, value, root, place)]


def of_value(schema, value, place):
    if "const" in schema and value != schema["const"]:
        yield f"{place}: not {schema['const']}"
    if "enum" in schema and value not in schema["enum"]:
        yield f"{place}: not one of {schema['enum']}"
    if isinstance(value, int) and not schema.get("minimum", value) <= value <= schema.get("maximum", value):
        yield f"{place}: out of its range"


def of_object(schema, value, root, place):
    if not isinstance(value, dict):
        return
    known = schema.get("properties", {})
    yield from (f"{place}.{name}: missing" for name in schema.get("required", ()) if name not in value)
    for name, one in value.items():
        if name in known:
            yield from check(known[name], one, root, f"{place}.{name}")
        elif schema.get("additionalProperties") is False:
            yield f"{place}.{name}: not known"


def of_array(schema, value, root, place):
    if isinstance(value, list) and "items" in schema:
        for at, one in enumerate(value):
            yield from check(schema["items"], one, root, f"{place}[{at}]")
