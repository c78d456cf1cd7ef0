prices = {"tea": 3, "milk": 1, "bread": 2}
print(sum(prices.values()), sum([[1], [2]], []), sum((3, 4), 10), sum([1], start=4))
print(any([0, 2]), any([]), all([1, 0]), all(()), any("ab"), all({0: 1}))
print(sorted(prices), sorted(prices.items(), key=lambda pair: pair[1]), sorted("hello", reverse=True))
print(sorted(["bb", "a", "ccc", "d"], key=len), sorted([(2, "b"), (1, "z"), (2, "a")]), sorted([True, 0, 2]))
print(list("abc"), list(range(3)), list(prices), tuple([1, 2]), tuple("ab"), list(), tuple(), set(), dict())
print(dict(a=1, b=2), dict([(1, 2), (3, 4)]), dict({1: 2}, c=3), len(set("aab")))
print(min(prices), max(prices.values()), min(3, 1, 2), max("bb", "a", key=len), min([], default=None), max([(1, "b"), (1, "a")]))
print("-".join("abc"), ", ".join([str(n) for n in range(3)]), "+".join({"k": 1}))
names = ["x"]
names.extend("ab")
names.extend(range(2))
names.extend({7: 8})
print(names)
prices.update({"jam": 5})
prices.update([("egg", 4)])
print(prices)
numbers = [3, 1, 2]
numbers.sort()
print(numbers)
numbers.sort(reverse=True)
print(numbers)
numbers.sort(key=lambda n: n % 2)
print(numbers)


def list_of(n):
    return 10 // n


try:
    print(sorted([1, 0], key=list_of))
except ZeroDivisionError:
    print("no order", sorted([1, 2], key=list_of))
try:
    max(())
except ValueError:
    print("nothing", min((), default=0, key=list_of))
