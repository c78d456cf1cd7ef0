a = 1
b = 2
print((a + (b + (3 + (4)))))
print((((("deep")))))
