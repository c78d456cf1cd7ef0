red = 0xFF0000
green = 0x00FF00
blue = 0x0000FF
white = red + green + blue
print(white)
print(red + blue)
