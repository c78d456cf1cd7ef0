x = a and b and c
y = a or b
z = (a
     if b
     else c)
if not (a or
        b and c):
    d
