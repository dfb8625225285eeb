"""Aims beside what is measured: the scripts say themselves what is missed."""


def beside(value: float, most: float | None, width: int = 9) -> str:
    """The aim behind a number that should be at most as much, with `!` if it is more."""
    return " " * width if most is None else f"{most:{width}g}{' !' if value > most else ''}"
