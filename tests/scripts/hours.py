monday = 7
tuesday = 8
wednesday = 6
thursday = 8
friday = 5
week = monday + tuesday + wednesday \
    + thursday + friday
print(week)
