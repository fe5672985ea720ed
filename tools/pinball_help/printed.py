"""Makes what comes from a machine's files safe to print: no name begins a line of its own, or changes a terminal."""


def clean(text: str) -> str:
    """The text on one line, with each character that is not printable as `\\x` and its number."""
    return text if text.isprintable() else "".join(it if it.isprintable() else escaped(it) for it in text)


def escaped(sign: str) -> str:
    """A character as the program writes it in its answers; a byte that is no UTF-8 by its own number."""
    code = ord(sign)
    if 0xDC80 <= code <= 0xDCFF:
        code -= 0xDC00
    return f"\\x{code:02x}" if code < 256 else f"\\u{code:04x}" if code < 0x10000 else f"\\U{code:08x}"
