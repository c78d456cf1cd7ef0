header = "name" + "," + "age" + "," + "town"
first = 'Ada' + ',' + '36' + ',' + 'London'
second = 'Alan' + ',' + '41' + ',' + 'Wilmslow'
print(header + "\n" + first + "\n" + second)
