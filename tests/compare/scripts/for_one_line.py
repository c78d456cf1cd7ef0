for i in range(2): print(i)
for i in [1, 2]: pass
else: print("end")
total = 0
for a, b in ((1, 2), (3, 4)): total += a * b
print(total)
