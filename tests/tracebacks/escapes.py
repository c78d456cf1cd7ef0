"""How programs of tests print bytes."""


def escape_ascii(text):
    """What `escape_ascii` writes of a text."""
    special = {9: "\\t", 10: "\\n", 13: "\\r", 34: '\\"', 39: "\\'", 92: "\\\\"}
    return "".join(special.get(b) or (chr(b) if 32 <= b < 127 else f"\\x{b:02x}") for b in text.encode())
