import sys
print("called")
sys()
