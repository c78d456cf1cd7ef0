january = 31
february = 28
march = 31
april = 30

spring = (march
          + april
          + 31)

print(january + february)
print(spring)
