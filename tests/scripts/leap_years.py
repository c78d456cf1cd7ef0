def is_leap(year):
    return year % 4 == 0 and (year % 100 != 0 or year % 400 == 0)

year = 1896
while True:
    year += 4
    if not is_leap(year):
        continue
    if year > 1920:
        break
    print(year)
else:
    print("never")
print(is_leap(1900) or is_leap(2000))
