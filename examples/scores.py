import sys

def average(*points, least=0):
    kept = [p for p in points if p >= least]
    if not kept:
        sys.exit("no points")
    total = 0
    for p in kept:
        total += p
    return total // len(kept)

def averages(scores, **options):
    return {name: average(*points, **options) for name, points in scores.items()}

found = averages({"ann": [7, 9, 4], "bob": (5, 8)}, least=5)
print(found, found == {"bob": 6, "ann": 8})

if __name__ == "__main__":
    print(average(1, 2, least=3))
