def parse(text):
    try:
        return table[text]
    except KeyError as error:
        raise ValueError("no row", text) from error

table = {"a": 1}
print(parse("a"))
try:
    parse("b")
except ValueError:
    raise LookupError("row")
