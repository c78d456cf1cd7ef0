def counts(text):
    found = {}
    for c in text:
        if c in found:
            found[c] += 1
        else:
            found[c] = 1
    return found
table = counts("the quick brown fox")
for c in table:
    print(f"{c!r:>4} {table[c]:<3}{'#' * table[c]:*^8}|")
print(f"{len(table):>4} kinds, {len('the quick brown fox'):04} in all")
