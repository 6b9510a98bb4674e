"""65,537 lines after the first separator, more than any one script has; and the first tree has a fault."""
print("no tree\n%%\n" + "\n" * 30_000 + "%%\n%%\n" + "\n" * 35_535, end="")
