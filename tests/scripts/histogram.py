# How often each letter stands in a text, as bars.
text = "the quick brown fox jumps over the lazy dog"
counts = ()
for letter in text:
    if letter == " ":
        continue
    for seen, n in counts:
        if seen == letter:
            break
    else:
        n = 0
        for other in text:
            n += other == letter
        counts += ((letter, n),)
for letter, n in counts:
    if n > 1:
        print(letter, "#" * n, n)
print(len(counts), "letters")
