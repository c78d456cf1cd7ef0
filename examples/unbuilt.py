print("nothing is run where a form is not built")
squares = (n * n for n in range(4))
