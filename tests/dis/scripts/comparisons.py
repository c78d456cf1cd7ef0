x = a < b
y = (a <
     b <= c
     != d)
z = a == b, a > b, a >= b, a in b, a not in b, a is b, a is not b
