vowels = "a" + "e" + "i" + "o" + "u"
consonants = "bcdf" "ghjk" "lmnp" "qrst" "vwxyz"
print(vowels); print(consonants)
