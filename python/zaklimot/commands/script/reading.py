"""A script's text, of its bytes."""


def text_of(data: bytes) -> str:
    """A script's text. Bytes that are none stand in it all the same, and can be given back."""
    return data.decode("utf-8", "surrogateescape")
