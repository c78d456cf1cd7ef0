while a:
    if b:
        break
    if c:
        continue
    d
else:
    e
for a, b in c:
    for d in e:
        break
    else:
        continue
    break
while True: pass
