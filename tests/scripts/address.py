# A postal address, put together from its lines.
street = "12 Harbour Road"
town = "Leith"
code = "EH6 6QU"

address = (street + "\n" +
           town + "\n" +
           code)
print(address)
