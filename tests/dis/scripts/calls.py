f()
f(a, b)
f(a, b=c, d=e)
f(*a, b, *c)
f(a,
  *b, c=d, **e)
