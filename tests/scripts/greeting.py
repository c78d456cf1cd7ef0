first = "Grace"
last = "Hopper"
name = first + " " + last
print("Hello, " + name + "!")
