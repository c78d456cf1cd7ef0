# One value, in many spellings.
ﬁrst = 0x_28 + 1_0; second = (
    first  # the same name, as Python reads it
    + 2
)
print(second)

text = 'single' " and " """triple
quotes"""
print(text \
      + r', "raw"' + "\t\u00e9",)
