print("nothing is run of what is no script")
x = = 1
