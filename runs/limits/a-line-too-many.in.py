"""The separator and 65,537 empty lines."""
print("%%\n" + "\n" * 65_537, end="")
