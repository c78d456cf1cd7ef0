# Counting out change, coin by coin.
paid = 0
paid = paid + 50
paid = paid + 20
paid = paid + 20
paid = paid + 5
print(paid)
