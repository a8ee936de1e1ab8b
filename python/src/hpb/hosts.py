"""Names of machines, before the system looks for them."""


def may_be_host(text: str) -> bool:
    """Whether the system takes this as the name or the address of a machine. It refuses an empty part, as in `a..b`, and one that is too
    long.
    """
    try:
        return bool(text.encode("idna")) and "\0" not in text
    except UnicodeError:
        return False
