line = "row, row, row your boat"
chorus = line + "\n" + "gently down the stream"
print(chorus)
print(chorus)
