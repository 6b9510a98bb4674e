"""The report of an empty run, sixteen times."""
print("order\nend\n" * 16, end="")
