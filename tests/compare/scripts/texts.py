def line(width, mark="-"):
    text = ""
    while width:
        text += mark
        width -= 1
    return text
print(line(12))
print(line(3, mark="=>") + "|")
print(line(0) == "")
