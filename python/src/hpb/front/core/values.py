"""Values that are never changed: another one with other fields."""
from typing import Any, TypeVar

Value = TypeVar("Value")


def changed(value: Value, **fields: Any) -> Value:
    """The same value but for these fields, of a frozen dataclass without slots: as `dataclasses.replace`, but several times as fast."""
    made: Value = object.__new__(type(value))
    made.__dict__.update(value.__dict__, **fields)
    return made
