x = a.b.c
y = a[b]
z = a[b:c], a[::d], a[:]
a.b = x
a[b], a[c:d] = y
del a.b, a[c], (d, [e])
