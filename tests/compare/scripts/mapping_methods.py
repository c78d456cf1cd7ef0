ages = {"a": 1, "b": 2}
print(ages.get("a"), ages.get("c"), ages.get("c", 0), ages.setdefault("c", 3), ages.setdefault("a", 9))
for name, age in ages.items():
    print(name, age)
for name in ages.keys():
    print(name, end=" ")
for age in ages.values():
    print(age, end=" ")
print(ages.pop("a"), ages.pop("z", None), len(ages), len(ages.copy()))
seen = set_of = {1}
seen.add(2)
seen.discard(7)
seen.remove(1)
print(2 in seen, 1 in seen, len(seen.copy()))
counts = {}
for letter in "banana":
    counts[letter] = counts.get(letter, 0) + 1
for letter, count in counts.items():
    print(f"{letter}: {count}")
ages.clear()
print(len(ages), ages.pop("b"))
