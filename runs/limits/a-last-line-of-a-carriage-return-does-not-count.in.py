"""The separator, 65,536 empty lines and a carriage return."""
print("%%\n" + "\n" * 65_536, end="\r")
