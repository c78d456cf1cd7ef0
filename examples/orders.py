prices = {"tea": 3, "milk": 1, "bread": 2}

def price(item):
    return prices[item]

print(sorted(prices, key=price), max(prices, key=price), sum(prices.values()))
print(dict(list(prices.items())[1:]), ", ".join(sorted(prices)))
