i = 0
while True:
    i += 1
    if i == 2:
        continue
    elif i == 5:
        break
    print(i)
else:
    print("never")
while i:
    i -= 1
else:
    print("end")
print(i)
