def push(items, item):
    items.push(item)
try_it = [1].append
try_it(2)
push([1], 2)
