print(f"{'a':>2}")
print(f"{'a':+}")
