# Roman numerals, from the greatest letters down.
LETTERS = (1000, "M"), (900, "CM"), (500, "D"), (400, "CD"), (100, "C"), (90, "XC"), (50, "L"), (40, "XL"), (10, "X"), (9, "IX"), (5, "V"), (4, "IV"), (1, "I")

def roman(n):
    text = ""
    for value, letters in LETTERS:
        while n >= value:
            text += letters
            n -= value
    return text

for year in 1, 4, 49, 1994, 2024, 3999:
    print(year, roman(year), sep=" = ")
