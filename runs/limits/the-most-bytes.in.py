"""The separator and a comment, 4,194,304 bytes in all."""
print("%%\n#" + " " * (4_194_304 - 5))
