naïve = "naïve café"
print(naïve + " ☕")
ñ = 1
print(ñ + 1)
