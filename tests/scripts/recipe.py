# What goes into the bowl, in grams.
flour = 500 ; water = 325 ; salt = 10 ; yeast = 7

dough = flour + water + salt + yeast
print('''Knead well.
Let it rest.''')
print(dough)
