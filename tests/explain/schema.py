"""Holds data to a JSON schema: the keywords of designer/explain.schema.json and no others."""

from __future__ import annotations

from collections.abc import Iterator

Schema = dict[str, object]
TYPES: dict[str, tuple[type, ...]] = {
    "null": (type(None),),
    "boolean": (bool,),
    "integer": (int,),
    "string": (str,),
    "array": (list,),
    "object": (dict,),
}
SPOKEN = {"$schema", "$defs", "title", "description"}


def _is(data: object, name: str) -> bool:
    return isinstance(data, TYPES[name]) and (name == "boolean" or not isinstance(data, bool))


class Validator:
    """`faults` gives what is wrong with data, each with its path; none where it has the schema's form."""

    def __init__(self, whole: Schema) -> None:
        self.whole = whole

    def faults(self, data: object, schema: Schema | None = None, path: str = "$") -> list[str]:
        schema = self.whole if schema is None else schema
        found: list[str] = []
        for keyword, wanted in schema.items():
            if keyword not in SPOKEN:
                test = getattr(self, "_" + keyword.lstrip("$"), None)
                if test is None:
                    raise ValueError(f"the schema's keyword {keyword} is not known here")
                found += test(data, wanted, schema, path)
        return found

    def _ref(self, data: object, wanted: str, schema: Schema, path: str) -> list[str]:
        part: object = self.whole
        for word in wanted.removeprefix("#/").split("/"):
            part = part[word]  # type: ignore[index]
        return self.faults(data, part, path)  # type: ignore[arg-type]

    def _oneOf(self, data: object, wanted: list[Schema], schema: Schema, path: str) -> list[str]:
        each = [self.faults(data, one, path) for one in wanted]
        fitting = sum(not faults for faults in each)
        return [] if fitting == 1 else [f"{path}: {fitting} of the forms fit", *(fault for faults in each for fault in faults)]

    def _type(self, data: object, wanted: str, schema: Schema, path: str) -> list[str]:
        return [] if _is(data, wanted) else [f"{path}: {data!r} is no {wanted}"]

    def _const(self, data: object, wanted: object, schema: Schema, path: str) -> list[str]:
        return [] if data == wanted and type(data) is type(wanted) else [f"{path}: {data!r} is not {wanted!r}"]

    def _enum(self, data: object, wanted: list[object], schema: Schema, path: str) -> list[str]:
        same = any(data == one and type(data) is type(one) for one in wanted)
        return [] if same else [f"{path}: {data!r} is none of {wanted!r}"]

    def _minimum(self, data: object, wanted: int, schema: Schema, path: str) -> list[str]:
        return [f"{path}: {data} is below {wanted}"] if _is(data, "integer") and data < wanted else []  # type: ignore[operator]

    def _maximum(self, data: object, wanted: int, schema: Schema, path: str) -> list[str]:
        return [f"{path}: {data} is over {wanted}"] if _is(data, "integer") and data > wanted else []  # type: ignore[operator]

    def _minLength(self, data: object, wanted: int, schema: Schema, path: str) -> list[str]:
        return [f"{path}: {data!r} is too short"] if isinstance(data, str) and len(data) < wanted else []

    def _maxItems(self, data: object, wanted: int, schema: Schema, path: str) -> list[str]:
        return [f"{path}: there are over {wanted}"] if isinstance(data, list) and len(data) > wanted else []

    def _items(self, data: object, wanted: Schema, schema: Schema, path: str) -> list[str]:
        items = data if isinstance(data, list) else []
        return [fault for index, item in enumerate(items) for fault in self.faults(item, wanted, f"{path}[{index}]")]

    def _required(self, data: object, wanted: list[str], schema: Schema, path: str) -> list[str]:
        return [f"{path}: {name} is missing" for name in wanted if isinstance(data, dict) and name not in data]

    def _properties(self, data: object, wanted: dict[str, Schema], schema: Schema, path: str) -> list[str]:
        there = data if isinstance(data, dict) else {}
        return [fault for name in wanted if name in there for fault in self.faults(there[name], wanted[name], f"{path}.{name}")]

    def _additionalProperties(self, data: object, wanted: bool | Schema, schema: Schema, path: str) -> list[str]:
        named = schema.get("properties", {})
        others = {name: value for name, value in data.items() if name not in named} if isinstance(data, dict) else {}
        if isinstance(wanted, bool):
            return [] if wanted else [f"{path}: {name} is not allowed" for name in others]
        return [fault for name, value in others.items() for fault in self.faults(value, wanted, f"{path}.{name}")]


# Members whose own members are names of the agreement, so that none of them is required.
NAMED = {"variables", "balances", "arguments", "reads"}


def broken_copies(data: object, named: bool = False) -> Iterator[object]:
    """Copies of data with one fault each: a member left out, one added, or a value of another type."""
    if isinstance(data, dict):
        yield {**data, "another member": None}
        for name in data:
            if not named:
                yield {key: value for key, value in data.items() if key != name}
            for value in broken_copies(data[name], name in NAMED):
                yield {**data, name: value}
    elif isinstance(data, list):
        yield {}
        for index, item in enumerate(data):
            for value in broken_copies(item):
                yield [*data[:index], value, *data[index + 1 :]]
    else:
        yield [data]
