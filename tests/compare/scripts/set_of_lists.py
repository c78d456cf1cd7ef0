print(len({(1,), ()}))
print({1, []})
