"""Two pairs, 4,194,305 bytes in all."""
print("%%\n%%\n%%\n#" + " " * (4_194_305 - 11))
