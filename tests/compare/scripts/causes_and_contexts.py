def chained():
    try:
        try:
            raise IndexError("first")
        except IndexError as first:
            raise ValueError("second") from first
    except ValueError as second:
        return second


def within():
    try:
        try:
            raise KeyError("outer")
        except KeyError:
            [1][5]
    except IndexError as error:
        return error


error = chained()
print(error, error.__cause__, error.__cause__ is error.__context__, error.__cause__.__cause__)
error = within()
print(error.__cause__, error.__context__, error.__context__.__context__)
alone = ValueError(1)
print(alone.__cause__, alone.__context__, hasattr(alone, "__cause__"), getattr(alone, "__context__", 5), hasattr(1, "__cause__"))
while error is not None:
    print(type(error) is KeyError)
    error = error.__context__
