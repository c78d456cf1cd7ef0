d = {"b": 1, "a": 2, 3: [4], (5, "x"): {}, None: ...}
print(d, len(d), d["a"], d[3][0], d[5, "x"], d[None])
d["b"] = 10
d["new"] = {"in": {}}
d["new"]["in"]["deep"] = 1
print(d, "b" in d, 4 in d, (5, "x") in d, 10 not in d)
print({1: "one", True: "true", 0: "zero", False: "false"}, {"a": 1, "a": 2}, {}, {1: {2: {3: {}}}})
print({1: 2, 3: 4} == {3: 4, 1: 2}, {1: 2} == {1: 3}, {1: 2} != {}, {} == [], not {}, 1 if {0: 0} else 2)
for key in d:
    print(key, d[key])
del d["b"], d[3]
d["b"] = "again"
print(d, len(d))
same = d
same["a"] += 1
print(d["a"], d is same, str({"k": 'it\'s'}), f"{ {1: 2} }")
