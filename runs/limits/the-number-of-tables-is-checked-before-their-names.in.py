"""65 numbers in place of tables."""
print("format = 1")
print("tables =", [1] * 65)
print("%%")
