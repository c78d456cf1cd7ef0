# Steps of each day of a week.
s = 0
s = s + 9120
s = s + 10344
s = s + 7801
s = s + 12003
s = s + 4410
s = s + 15120
s = s + 8899
print(s)
