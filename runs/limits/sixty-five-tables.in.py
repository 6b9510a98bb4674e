"""65 tables."""
print("format = 1")
print("tables =", [f"t{number}" for number in range(65)])
print("""[[type]]
name = "any"
[[node]]
name = "root"
control = "locks"
types = ["any"]""")
print("%%")
