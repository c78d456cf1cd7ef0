try:
    a()
except b as c:
    d
finally:
    e
