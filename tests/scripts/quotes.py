# How texts within others are printed.
for text in "plain", "it's", 'say "no"', "both ' and \"", "tab\tline\nback\\", "\x00\x7f\xa0\xad\xe9", "日本", "":
    print(text, [text], repr(text), len(text), sep=" | ")
print(str([1, "a", None, True, ..., (), (1,), [[]]]))
print([str(12), str(None), str("a"), repr("a")])
