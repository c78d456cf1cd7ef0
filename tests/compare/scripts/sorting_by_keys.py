def length(word):
    return len(word)


def second(pair):
    a, b = pair
    return b


words = "the quick brown fox jumps over it".split()
print(sorted(words))
print(sorted(words, key=length), sorted(words, reverse=True))
pairs = [(n, n % 3) for n in range(7)]
print(sorted(pairs, key=second))
print(sorted(pairs, key=lambda p: (-p[1], p[0]), reverse=True))
words.sort(key=length, reverse=True)
print(words, max(words, key=length), min(words), max(pairs, key=second))
words.sort()
print(words, words.sort(key=None, reverse=False))
