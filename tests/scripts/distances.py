# Distances along the line, in metres.
a_to_b = 1_250
b_to_c = 3_400
c_to_d = 980

print(a_to_b + b_to_c)
print(a_to_b + b_to_c + c_to_d)
