line = "name, age,, town "
words = line.split(",")
for word in words:
    print(word.strip(), end="|")
print()
print("-".join(["a", "b"]), "".join(("x", "y")), " a  b ".split(), "aXbX".replace("X", "-"))
print("abcabc".find("c"), "abcabc".find("d"), "abcabc".count("bc"), "".join([]) == "")
print("abc".startswith("ab"), "abc".endswith(("x", "bc")), "xxaxx".strip("x"), "  a".lstrip(), "a  ".rstrip())
join = ", ".join
print(join(["1", "2"]), join(("3",)))
print(", ".join([1]))
