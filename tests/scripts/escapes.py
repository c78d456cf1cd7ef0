tab = "a\tb"
quote = 'she said "yes"'
both = "it's \"both\""
path = r"C:\new\table"
print(tab)
print(quote)
print(both)
print(path)
print("\x41\u00e9\101")
