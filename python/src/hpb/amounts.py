"""Numbers as people read them."""


def money(amount: int) -> str:
    """A whole number with its digits in groups of three: `1,500`."""
    return f"{amount:,}"


def counted(number: int, one: str, many: str | None = None) -> str:
    """A number with its noun: `1 place`, `2 places`. `many` is the plural, if it isn't `one` with an s."""
    return f"{money(number)} {one if number == 1 else many or one + 's'}"
