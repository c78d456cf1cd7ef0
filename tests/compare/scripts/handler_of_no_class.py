try:
    raise GeneratorExit
except (KeyError, 5):
    print("never")
