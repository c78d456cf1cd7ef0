a = None
b = True, False, ...
c = 12
d = "text"
e = "text"
f = -12
