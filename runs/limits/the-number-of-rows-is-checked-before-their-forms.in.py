"""16,385 numbers in place of rows."""
print("format = 1")
print("row =", [1] * 16_385)
print('tables = ["t"]\n[[type]]\nname = "any"\n[[node]]\nname = "root"\ncontrol = "timestamp"\ntypes = ["any"]\n%%')
