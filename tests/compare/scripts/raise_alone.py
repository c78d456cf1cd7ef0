def again():
    raise

try:
    try:
        raise AttributeError("a")
    except AttributeError:
        again()
    finally:
        print("out")
except Exception as error:
    print(repr(error))
try:
    assert 0, ("m", 1)
except AssertionError as error:
    print(error, repr(error))
    raise
