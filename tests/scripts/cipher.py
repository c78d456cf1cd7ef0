# Letters moved on by some places, and back.
def moved(text, places):
    made = ""
    for letter in text:
        if "a" <= letter and letter <= "z":
            letter = chr((ord(letter) - ord("a") + places) % 26 + ord("a"))
        made += letter
    return made

secret = moved("attack at dawn", 13)
print(secret)
print(moved(secret, -13))
for places in range(0, 26, 5):
    print(places, moved("abc xyz", places))
