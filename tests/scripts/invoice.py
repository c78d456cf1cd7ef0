# An invoice, in pence.
bread = 185
milk = 120
eggs = 240

subtotal = bread + milk + eggs
delivery = 300

print("Invoice")
print("-------")
print(subtotal)
print(subtotal + delivery)
