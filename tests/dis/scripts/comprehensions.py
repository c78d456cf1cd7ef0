x = [a for a in b]
y = {a: c for a, c in b if a}
z = {a for b in c
     if b
     for a in b if a}
w = [lambda: a for a in b for c.d in e]
