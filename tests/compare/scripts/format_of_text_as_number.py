print(f"{5:d}")
print(f"{'5':d}")
