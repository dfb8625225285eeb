"""Records: classes of fields with types, which mypy takes for dataclasses of the standard library. Those compile the
methods of each class whenever a command starts, and import what reads Python; these have their methods in common.

What reads a record from JSON takes the kinds of its fields as they stand: its module has no annotations that are texts.
"""
from collections.abc import Callable
from functools import partial
from typing import TYPE_CHECKING, Any, NamedTuple


class Anew(NamedTuple):
    """What a field has that gets a value of its own in each record."""

    default_factory: Callable[[], Any]


def missing() -> Any:
    raise TypeError("a field isn't given")


NEEDED = Anew(missing)
"""What a field has that has to be given."""


def default_of(default: Any) -> Any:
    return default.default_factory() if isinstance(default, Anew) else default


def begin(self: Any, *given: Any, **named: Any) -> None:
    """Sets the fields of a record, by their order or by their names."""
    own, count = self.own_fields, len(given) + len(named)
    named.update(zip(own, given))
    values = {**own, **named}
    if len(named) < count or len(values) > len(own):
        raise TypeError(f"{type(self).__name__} has no such fields as {', '.join(named)}")
    for name in self.anew:
        if name not in named:
            values[name] = default_of(own[name])
    vars(self).update(values)
    if hasattr(self, "__post_init__"):
        self.__post_init__()


def never(self: Any, name: str, *_: Any) -> None:
    raise AttributeError(f"{name} of {type(self).__name__} doesn't change")


if TYPE_CHECKING:
    from dataclasses import asdict as asdict, dataclass as dataclass, field as field, replace as replace
else:
    field = Anew

    def dataclass(kind=None, frozen=False):
        if kind is None:
            return partial(dataclass, frozen=frozen)
        kind.own_fields = {name: vars(kind).get(name, NEEDED) for name in kind.__annotations__}
        kind.anew = [name for name, default in kind.own_fields.items() if isinstance(default, Anew)]
        kind.__init__ = begin
        kind.__eq__ = lambda self, other: type(self) is type(other) and vars(self) == vars(other)
        kind.__hash__ = lambda self: hash(tuple(vars(self).values()))
        if frozen:
            kind.__setattr__ = kind.__delattr__ = never
        return kind

    def asdict(record):
        return {name: getattr(record, name) for name in record.own_fields}

    def replace(record, **changes):
        return type(record)(**{**asdict(record), **changes})
