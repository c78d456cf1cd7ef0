


x = 1


# nothing but a comment here

    # and one that stands further in

y = 2


print(x + y)


