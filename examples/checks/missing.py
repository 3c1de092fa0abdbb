"""What ends a check that cannot be made."""


class Missing(Exception):
    """A sentence that says what is missing or wrong, for people to read."""
