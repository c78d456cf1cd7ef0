if a:
    b
elif c:
    d
else:
    e
if a: b; c
pass
