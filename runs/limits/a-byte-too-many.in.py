"""The separator and a comment, 4,194,305 bytes in all."""
print("%%\n#" + " " * (4_194_305 - 5))
