"""The report of an empty run, twice."""
print("order\nend\n" * 2, end="")
