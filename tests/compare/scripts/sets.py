s = {3, 1, 3, "a", (1, 2), None}
print(len(s), 3 in s, "a" in s, (1, 2) in s, 2 not in s, [] == s, not s)
print({1} == {True}, {1, 2} == {2, 1, 1}, {1} != {2}, {"x"}, len({1, True, 1 + 0}), {(): 1} == {(): 1})
print({1, 2} & {2, 3} == {2}, {1, 2} | {2, 3} == {1, 2, 3}, {1, 2} - {2} == {1}, {1, 2} ^ {2, 3} == {1, 3})
for item in {"one"}:
    print(item, {item} == {"one"}, f"{ {7} }")
t = s
t |= {9}
print(9 in s, t is s, len({len(s): s}))
