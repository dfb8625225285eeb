"""JSON of strangers, read into records: each field with its type and its range, and none besides.

The name of a field is that of the record's, without a `_` at its end (`from_` is "from"). A field that has a default is
left out where it has it.
"""
import json
import re
from collections.abc import Callable
from datetime import datetime
from functools import cache
from types import NoneType, UnionType
from typing import Annotated, Any, Literal, NamedTuple, NoReturn, Union, get_args, get_origin

from .fault import Fault, fault
from .records import NEEDED, default_of


class Mangled(ValueError):
    """Where JSON isn't what it has to be: the names and numbers that lead there."""

    def __str__(self) -> str:
        return " ".join(map(str, self.args))


class Rule(NamedTuple):
    """Which values of a kind are right, and the same in words of JSON Schema."""

    is_right: Callable[[Any], object]
    schema: tuple[tuple[str, int | str], ...]


def within(least: int, most: int) -> Rule:
    return Rule(lambda number: least <= number <= most, (("minimum", least), ("maximum", most)))


def matching(pattern: str) -> Rule:
    return Rule(re.compile(pattern).fullmatch, (("pattern", f"^(?:{pattern})$"),))


def length(least: int, most: int) -> Rule:
    return Rule(lambda value: least <= len(value) <= most, (("minItems", least), ("maxItems", most)))


def is_text(text: str) -> bool:
    """Whether it is Unicode, and no longer than a page."""
    try:
        return len(text.encode()) <= 20_000
    except UnicodeEncodeError:
        return False


def is_name(name: str) -> bool:
    """Whether it may be the name of a file in a folder, its bytes as Python has them."""
    try:
        return 0 < len(name.encode("utf-8", "surrogateescape")) < 256 and "/" not in name and "\0" not in name
    except UnicodeEncodeError:
        return False


def is_time(text: str) -> bool:
    try:
        return bool(TIME.fullmatch(text)) and bool(datetime.fromisoformat(text))
    except ValueError:
        return False


def or_nothing(is_right: Callable[[str], bool]) -> Callable[[str], bool]:
    return lambda text: not text or is_right(text)


TIME = re.compile(r"[1-9]\d{3}-\d\d-\d\dT\d\d:\d\d:\d\dZ", re.ASCII)
Text = Annotated[str, is_text]
Name = Annotated[str, is_name]
Time = Annotated[str, is_time]
Sum = Annotated[str, matching("[0-9a-f]{64}")]
Address = Annotated[str, matching(r"[0-9]{1,3}(\.[0-9]{1,3}){3}")]
Small = Annotated[int, within(0, 31)]
Count = Annotated[int, within(0, 2**40)]
Seconds = Annotated[int, within(-(2**35), 2**37)]
"""Unix seconds that have a civil time."""
Ticks = Annotated[int, within(-(2**100), 2**100)]
"""Ticks of 2^-32 s, of an error or since 1970."""
Nanoseconds = Annotated[int, within(0, 10**25)]


def parsed(data: bytes) -> Any:
    """What JSON says; a ValueError if it isn't UTF-8, names a field twice, or holds what is no number."""
    def once(pairs: list[tuple[str, Any]]) -> dict[str, Any]:
        members = dict(pairs)
        if len(members) < len(pairs):
            raise Mangled("a name stands there twice")
        return members

    def never(word: str) -> NoReturn:
        raise Mangled(word)
    try:
        return json.loads(data.decode(), object_pairs_hook=once, parse_constant=never)
    except RecursionError:
        raise Mangled("it is nested too deep") from None


def read_typed(name: str, kind: Any, data: bytes) -> Any:
    """What a file of JSON says, if it is of a kind; a fault that names the file and the place if it isn't."""
    try:
        return typed(kind, parsed(data))
    except Mangled as error:
        raise mangled(name, str(error)) from None
    except ValueError:
        raise mangled(name, "no JSON") from None


def mangled(name: str, why: str) -> Fault:
    return fault(f"{name} {NOT_TAKEN} ({why[:200].strip() or 'as a whole'})")


NOT_TAKEN = "isn't one that is taken"


def typed(kind: Any, value: Any) -> Any:
    """A value of a kind, or Mangled."""
    return reader_of(kind)(value)


Reader = Callable[[Any], Any]
"""Gives a value of JSON as its kind has it, or Mangled."""


@cache
def reader_of(kind: Any) -> Reader:
    """The reader of a kind, which is made once."""
    origin, inner = get_origin(kind), get_args(kind)
    if origin is Annotated:
        return ruled(inner[0], getattr(inner[1], "is_right", inner[1]))
    if origin in (Union, UnionType):
        if len(records := [each for each in inner if hasattr(each, "own_fields")]) > 1:
            return by_word(records, NoneType in inner)
        return one_of([(each is NoneType, reader_of(each)) for each in inner])
    if origin is Literal:
        return ruled(str, frozenset(inner).__contains__)
    if origin is list:
        return list_of(reader_of(inner[0]))
    if origin is tuple:
        return tuple_of(list(map(reader_of, inner)))
    if origin is dict:
        return dict_of(reader_of(inner[0]), reader_of(inner[1]))
    return record_of(kind) if hasattr(kind, "own_fields") else ruled(kind)


def ruled(kind: Any, is_right: Callable[[Any], object] | None = None) -> Reader:
    """The reader of a kind's values that are right: of a plain kind by their type, or whole numbers among reals."""
    plain = {int, float} if kind is float else {kind}
    reader = reader_of(kind) if get_origin(kind) else None

    def read(value: Any) -> Any:
        result = reader(value) if reader else value
        if (reader or type(value) in plain) and (is_right is None or is_right(result)):
            return result
        raise Mangled
    return read


def one_of(kinds: list[tuple[bool, Reader]]) -> Reader:
    """The first kind that a value has. Of one that may be left out it is said where the other kind isn't met."""
    def read(value: Any) -> Any:
        why = Mangled()
        for is_none, reader in kinds:
            if (value is None) == is_none:
                try:
                    return reader(value)
                except Mangled as error:
                    why = error
        raise why if len(kinds) == 2 and any(is_none for is_none, _ in kinds) else Mangled()
    return read


def by_word(records: list[Any], may_lack: bool) -> Reader:
    """The reader of records of several kinds, of which the word in the first field says the kind."""
    name = next(iter(kinds_of(records[0])))
    known = {word: each for each in records for word in get_args(kinds_of(each)[name][1])}

    def read(value: Any) -> Any:
        if value is None and may_lack:
            return None
        if type(value) is not dict:
            raise Mangled
        if type(word := value.get(name)) is not str or word not in known:
            raise Mangled(name)
        return reader_of(known[word])(value)
    return read


def list_of(reader: Reader) -> Reader:
    """A reader of lists."""
    def read(value: Any) -> Any:
        if type(value) is not list:
            raise Mangled
        items: list[Any] = []
        try:
            for item in value:
                items.append(reader(item))
        except Mangled as error:
            raise Mangled(len(items), *error.args) from None
        return items
    return read


def tuple_of(readers: list[Reader]) -> Reader:
    def read(value: Any) -> Any:
        if type(value) is not list or len(value) != len(readers):
            raise Mangled
        return tuple(reader(item) for reader, item in zip(readers, value))
    return read


def dict_of(of_key: Reader, of_item: Reader) -> Reader:
    """A reader of objects with names of one kind."""
    def read(value: Any) -> Any:
        if type(value) is not dict:
            raise Mangled
        items = {}
        for key, item in value.items():
            try:
                items[of_key(key)] = of_item(item)
            except Mangled as error:
                raise Mangled(key, *error.args) from None
        return items
    return read


@cache
def kinds_of(kind: Any) -> dict[str, tuple[str, Any, bool]]:
    """Of each name in JSON the field, its kind, and whether it has to be there."""
    return {field.rstrip("_"): (field, kind.__annotations__[field], default is NEEDED)
            for field, default in kind.own_fields.items()}


def record_of(kind: Any) -> Reader:
    """The reader of a record. That of a field is made when the first is met: most of a command's are never."""
    known, readers = kinds_of(kind), dict[str, tuple[str, Reader]]()
    needed = [name for name, (_, _, is_needed) in known.items() if is_needed]

    def read(value: Any) -> Any:
        if type(value) is not dict:
            raise Mangled
        for name in needed:
            if name not in value:
                raise Mangled(name)
        values = {}
        for name, item in value.items():
            try:
                if name not in readers:
                    readers[name] = known[name][0], reader_of(known[name][1])
                field, reader = readers[name]
                values[field] = reader(item)
            except Mangled as error:
                raise Mangled(name, *error.args) from None
            except KeyError:
                raise Mangled(name) from None
        return kind(**values)
    return read


def said(value: Any) -> Any:
    """A record as JSON has it."""
    if hasattr(value, "own_fields"):
        return {field.rstrip("_"): said(own) for field, default in value.own_fields.items()
                for own in [getattr(value, field)] if default is NEEDED or own != default_of(default)}
    if isinstance(value, dict):
        return {name: said(item) for name, item in value.items()}
    return list(map(said, value)) if isinstance(value, (list, tuple)) else value


def json_text(value: Any) -> bytes:
    """A record, or what is made of such, as a file of JSON."""
    return (json.dumps(said(value), indent=1) + "\n").encode()


def first_difference(one: Any, other: Any, place: str = "") -> tuple[str, Any, Any] | None:
    """Where two values of JSON differ first, and what they say there."""
    if isinstance(one, dict) and isinstance(other, dict):
        parts = [(name, one.get(name), other.get(name)) for name in {**one, **other}]
    elif isinstance(one, list) and isinstance(other, list) and len(one) == len(other):
        parts = [(str(number), a, b) for number, (a, b) in enumerate(zip(one, other))]
    else:
        return None if one == other and type(one) is type(other) else (place, one, other)
    return next((difference for name, a, b in parts if (difference := first_difference(a, b, f"{place} {name}"))), None)
