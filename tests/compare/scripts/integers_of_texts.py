def told(text):
    try:
        return int(text)
    except ValueError:
        return "ValueError"


for text in ["12", " -7\n", "+0", "1_000_000", "007", "\t5\u2003", "-170141183460469231731687303715884105728", "170141183460469231731687303715884105727"]:
    print(told(text), end=" ")
for text in ["", " ", "-", "+ 1", "--1", "1_", "_1", "1__0", "-_1", "1 2", "0x10", "1.0", "1e3", "a", "\u200b1", "\xb2"]:
    print(told(text), end=" ")
print(int("4" * 38), int("0" * 60 + "9"), int(), int(True))
