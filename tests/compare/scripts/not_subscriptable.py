print("abc"[0], [1, [2]][1][0])
print(len[0])
