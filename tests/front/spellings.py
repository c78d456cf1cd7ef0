"""The tokens of a text as CPython's tokenize gives them, spelled out: a sign behind a quote, an integer behind `#`, a string in
quotes, `<` and `>` for the quotes of an f-string, and `~` before its literal text."""
import ast
import io
import keyword
import re
import token
import tokenize
import unicodedata

ESCAPE = re.compile(r"""\\(\n|[\\'"abfnrtv]|[0-7]{1,3}|x[0-9a-fA-F]{2}|u[0-9a-fA-F]{4}|U[0-9a-fA-F]{8})""")


def shown(text):
    """On one line of ASCII."""
    kept = {"\n": "\\n", "\\": "\\\\"}
    return "".join(kept.get(c) or (c if " " <= c <= "~" else "\\u{%x}" % ord(c)) for c in text)


def decoded(text):
    """What escapes of literal text stand for (Language Reference 2.4.1)."""
    return ESCAPE.sub(lambda m: ast.literal_eval('"""' + m.group() + '"""') if m.group() != '\\"' else '"', text)


def word(kind, text, raw):
    """The spelling of a token, or None for what is between them."""
    match kind:
        case "COMMENT" | "NL":
            return None
        case "NAME":
            name = unicodedata.normalize("NFKC", text)
            return "'" + name if name in keyword.kwlist else shown(name)
        case "OP":
            return "'" + text
        case "NUMBER":
            return "#" + str(ast.literal_eval(text))
        case "STRING":
            return '"' + shown(ast.literal_eval(text)) + '"'
        case "FSTRING_START":
            return "<"
        case "FSTRING_MIDDLE":
            return "~" + shown(text if raw else decoded(text))
        case "FSTRING_END":
            return ">"
        case "ENDMARKER":
            return "END"
    return kind


def spelled(text):
    """The tokens of a text, each behind a blank. Parts of literal text that a doubled brace has cut are one, and an empty one
    is left out."""
    source = text.removeprefix("\ufeff").replace("\r\n", "\n").replace("\r", "\n")
    words, raws, last = [], [], None
    for each in tokenize.generate_tokens(io.StringIO(source).readline):
        kind = token.tok_name[each.type]
        if kind == "FSTRING_START":
            raws.append("r" in each.string.lower())
        found = word(kind, each.string, bool(raws) and raws[-1])
        if kind == "FSTRING_END":
            raws.pop()
        if kind == last == "FSTRING_MIDDLE":
            words[-1] += found[1:]
        elif found is not None and found != "~":
            words.append(found)
        last = kind if words and words[-1].startswith("~") else None
    return "".join(" " + w for w in words)
