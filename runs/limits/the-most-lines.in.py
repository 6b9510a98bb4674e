"""The separator and 65,536 empty lines."""
print("%%\n" + "\n" * 65_536, end="")
