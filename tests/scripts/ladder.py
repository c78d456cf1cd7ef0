rung = "|--|"
gap = "|  |"
print(rung + "\n" + gap + "\n" + rung + "\n" + gap + "\n" + rung)
