vowels = "aeiou"
for word in ["loop", "list", "for", "rhythm"]:
    found = []
    for letter in word:
        if letter in vowels and letter not in found:
            found += [letter]
    print(word, found if found else "none")
print(3 in range(0, 10, 3), 4 in range(0, 10, 3), 10 in range(0, 11, 5))
print("list" in ["a", "list"], ["a"] in [["a"]], (1, 2) in ((1, 2), 3), "is" in "list", "" in "")
print(None in (), True in [1], 1 not in [True])
