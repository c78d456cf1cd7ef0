def told(name, value):
    print("asked for", name)
    return value
print(f"{told('a', 3):{told('width', 6)}}|{told('b', 'x')!r:{told('fill', '*')}^{told('more', 7)}}")
width, kind = 8, "x"
print(f"{255:{width}{kind}}|{255:0{width}{kind}}|{255:{'<'}{width}}|{255:{''}}|{'a':{width}}|")
print(f"{{{width}}}|{{}}|{{{{|{'{'}|{'}'}" 'plain {} ' f"{kind}" "!")
print(f"{f'{f"{width}"}':>{width}}|{f'{width:0>{3}}'!r}")
print(f"{width if kind else 0}|{(lambda n: n * 2)(width)}|{width == 8}|{not kind}|{[width, kind][1]}|{ width }|{width, kind}")
print(f'''a
{width:>4}
b''')
text = f"{kind}" f"{width}" "z"
print(text, text[1], text == "x8z", "8" in f"{width}")
