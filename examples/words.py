def count(text):
    counts = {}
    for word in text.split():
        counts[word] = counts.get(word, 0) + 1
    return counts

text = "the cat and the hat"
for word, n in count(text).items():
    print(f"{word:<4}{n}")

first, *others = text.split()
print(first, len(others), (lambda xs: [x[::-1] for x in xs])(others))

try:
    print(count(text)["dog"])
except KeyError as e:
    print("no", e)
