print("abc"[True:None])
print("abc"["a":])
