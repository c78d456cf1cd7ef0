"""Prints a banner."""

title = "JOISTMINT"
rule = "=========" + "===="

print(rule)
print("= " + title + " =")
print(rule)
