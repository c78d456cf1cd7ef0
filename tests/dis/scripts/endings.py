def f():
    for a in b:
        try:
            if a:
                return c
            elif d:
                continue
            break
        finally:
            e
    assert a
    assert b, c
    raise d
