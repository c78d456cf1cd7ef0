print(f"{'a':=^3}")
print(f"{'a':=3}")
