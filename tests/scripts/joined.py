message = "one " "two " \
          "three"
print(message)
print(("four" + " "
       "five"))
