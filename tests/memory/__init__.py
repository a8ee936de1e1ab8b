"""Each request for memory that a program makes is refused in turn."""
