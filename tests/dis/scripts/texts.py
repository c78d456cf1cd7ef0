x = f"{a}"
y = f"a{b!r}c{d!s:>4}"
z = f"{a:{b}}{c:x{d}y}"
w = f""
