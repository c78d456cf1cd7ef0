haiku = """an old silent pond
a frog jumps into the pond
splash! silence again"""
print(haiku)
