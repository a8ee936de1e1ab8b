"""What a front says when it can't start or go on (docs/FRONT.md)."""


class Wrong(Exception):
    """A configuration, a file of tokens or a certificate that can't be used: status 2."""


class Stops(Exception):
    """The front can't go on: status 1. The text says why."""
