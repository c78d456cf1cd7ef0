def share(total, people):
    return total // people

def report(people):
    print(share(100, people))

report(4)
report(0)
