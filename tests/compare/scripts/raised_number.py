try:
    raise 5
except TypeError:
    print("caught")
raise int
