"""A second tree part of 65,537 blank lines, without a script part."""
print("%%\n%%\n" + "\n" * 65_537, end="")
