passed = 12
failed = 3
total = passed + failed

print("Report")
print("  passed and failed:"); print(total)
