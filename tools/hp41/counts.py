"""Counts in messages, with their nouns in the singular or the plural."""


def counted(count: int, one: str, more: str) -> str:
    """Returns a text for a count, which replaces {}."""
    return (one if count == 1 else more).format(count)
