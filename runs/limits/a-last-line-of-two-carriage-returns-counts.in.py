"""The separator, 65,536 empty lines and two carriage returns."""
print("%%\n" + "\n" * 65_536, end="\r\r")
