held = []
try:
    raise NotImplementedError("first")
except NotImplementedError as first:
    held += [first]
    try:
        raise KeyError("second")
    except KeyError as second:
        held += [second]
        try:
            raise held[0]
        except NotImplementedError as again:
            print(again is held[0], again == first, again)
raise held[1]
