a = 0; b = 1
print(a)
c = a + b; a = b; b = c
print(a)
c = a + b; a = b; b = c
print(a)
c = a + b; a = b; b = c
print(a)
c = a + b; a = b; b = c
print(a)
c = a + b; a = b; b = c
print(a)
